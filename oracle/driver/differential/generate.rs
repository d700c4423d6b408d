//! Random recordings: kinds, times that rise, stay and go back, changes in all notations, repeats, claims, one probe or two.

use crate::memory::Recording;
use crate::random::Random;
use crate::value::{Content, LETTERS, packed, packed_length};
use std::collections::HashMap;
use wellen::oracle::whole::{ABSENT, REAL, Step, Value};

/// Zeros, infinities, NaNs of both kinds and signs with least and largest payload, subnormals, limits.
pub const REALS: [u64; 20] = [
    0x0000_0000_0000_0000,
    0x8000_0000_0000_0000,
    0x3ff0_0000_0000_0000,
    0xbff0_0000_0000_0000,
    0x7ff0_0000_0000_0000,
    0xfff0_0000_0000_0000,
    0x7ff8_0000_0000_0000,
    0xfff8_0000_0000_0000,
    0x7ff0_0000_0000_0001,
    0xfff0_0000_0000_0001,
    0x7ff7_ffff_ffff_ffff,
    0x7fff_ffff_ffff_ffff,
    0xffff_ffff_ffff_ffff,
    0x0000_0000_0000_0001,
    0x8000_0000_0000_0001,
    0x000f_ffff_ffff_ffff,
    0x0010_0000_0000_0000,
    0x7fef_ffff_ffff_ffff,
    0xffef_ffff_ffff_ffff,
    0x4009_21fb_5444_2d18,
];

pub struct Generator<'a> {
    pub random: &'a mut Random,
    /// Of the skip rule.
    pub edition: u32,
    pub kinds: Vec<u32>,
    /// Of the signals.
    pub probes: Vec<u8>,
    /// Whether probe 1 sends too; if not, nothing is drawn for it.
    pub two: bool,
    pub last: Option<u64>,
    /// By probe.
    skips: [bool; 2],
    /// The last time of the recording before.
    end: Option<u64>,
    /// A signal's last content.
    content: HashMap<usize, Content>,
}

impl<'a> Generator<'a> {
    pub fn new(random: &'a mut Random, kinds: Vec<u32>) -> Self {
        Generator {
            random,
            edition: 1,
            probes: vec![0; kinds.len()],
            two: false,
            kinds,
            last: None,
            skips: [false; 2],
            end: None,
            content: HashMap::new(),
        }
    }

    /// With a probe for each signal, both sending.
    pub fn of_two(random: &'a mut Random, kinds: Vec<u32>) -> Self {
        let probes = probes(random, kinds.len());
        Generator {
            probes,
            two: true,
            ..Generator::new(random, kinds)
        }
    }

    /// What was generated, as a recording.
    pub fn recording(&self, limit: u16, steps: Vec<Step>) -> Recording {
        Recording {
            edition: self.edition,
            limit,
            kinds: self.kinds.clone(),
            probes: self.probes.clone(),
            steps,
        }
    }

    /// A new recording. Contents are kept, so that the first values are often repeats.
    pub fn restart(&mut self) {
        self.end = self.last.or(self.end);
        (self.last, self.skips) = (None, [false; 2]);
    }

    fn sender(&mut self) -> u32 {
        if self.two { self.random.below(2) as u32 } else { 0 }
    }

    /// Now and then no probe.
    fn any_sender(&mut self) -> u32 {
        if self.two && self.random.chance(6) {
            return self.random.of(&[2, 3, 256, u32::MAX]);
        }
        self.sender()
    }

    fn first_time(&mut self) -> u64 {
        if let Some(end) = self.end {
            return match self.random.below(20) {
                0..9 => end,
                9..17 => self.later(end),
                17 => end.saturating_sub(1),
                _ => self.earlier(end),
            };
        }
        match self.random.below(5) {
            0 => 0,
            1 => 1,
            2 => self.random.next() % 1000,
            3 => self.random.next(),
            _ => u64::MAX - 40,
        }
    }

    /// A time above the last, if there is one.
    fn later(&mut self, last: u64) -> u64 {
        let far = 1 << self.random.below(40);
        last.saturating_add(self.random.of(&[1, 1, 2, 10, far]))
    }

    fn earlier(&mut self, last: u64) -> u64 {
        match self.random.below(3) {
            0 => 0,
            1 => last.saturating_sub(1),
            _ => self.random.next() % last.saturating_add(1).max(1),
        }
    }

    pub fn time(&mut self, rising: bool) -> Step {
        let time = match self.last {
            None => self.first_time(),
            Some(last) => match self.random.below(100) {
                choice if rising || choice < 72 => self.later(last),
                choice if choice < 84 => last,
                _ => self.earlier(last),
            },
        };
        let sender = self.sender();
        let skip = &mut self.skips[sender as usize];
        match self.last {
            Some(last) if time < last => *skip = true,
            Some(last) if time == last => *skip = *skip && self.edition == 1,
            _ => (self.last, *skip) = (Some(time), false),
        }
        Step::Time(sender, time)
    }

    /// A time that may be refused: no probe sends it.
    pub fn any_time(&mut self) -> Step {
        let sender = self.any_sender();
        match self.time(false) {
            Step::Time(_, time) if sender > 1 => Step::Time(sender, time),
            step => step,
        }
    }

    /// A change that is recorded, or skipped in a skip; a time where its sender has no signal.
    pub fn change(&mut self) -> Step {
        let sender = self.sender();
        let skip = self.skips[sender as usize];
        if skip && self.random.chance(40) {
            return self.unexamined(sender);
        }
        let own = |signal: &usize| self.kinds[*signal] != ABSENT && u32::from(self.probes[*signal]) == sender;
        let present: Vec<usize> = (0..self.kinds.len()).filter(own).collect();
        if present.is_empty() {
            return if skip {
                self.unexamined(sender)
            } else {
                self.time(false)
            };
        }
        let signal = self.random.of(&present);
        Step::Change(sender, signal as u32, self.value(signal))
    }

    /// One that a signal takes.
    pub fn value(&mut self, signal: usize) -> Value {
        match self.kinds[signal] {
            0 => {
                let length = self.random.below(2);
                Value::Vcd(self.random.bytes(length))
            }
            REAL => self.real(signal),
            width => self.vector(signal, width),
        }
    }

    /// So many times and changes, `share` of a hundred being times, and a finish.
    pub fn calls(&mut self, count: usize, share: usize) -> Vec<Step> {
        let mut steps = Vec::new();
        for _ in 0..count {
            let time = self.last.is_none() || self.random.chance(share);
            steps.push(if time { self.time(false) } else { self.change() });
        }
        steps.push(Step::Finish);
        steps
    }

    /// In a skip nothing is looked at: any signal, any value.
    fn unexamined(&mut self, sender: u32) -> Step {
        let far = self.random.below(1 << 31);
        let signal = self.random.of(&[0, self.kinds.len(), far]) as u32;
        let length = self.random.below(4);
        let bytes = self.random.bytes(length);
        let value = match self.random.below(3) {
            0 => Value::Vcd(bytes),
            1 => Value::Raw(self.random.below(3) as u32, bytes),
            _ => Value::Real(self.random.next()),
        };
        Step::Change(sender, signal, value)
    }

    fn again(&mut self, signal: usize) -> Option<Content> {
        self.content.get(&signal).filter(|_| self.random.chance(35)).cloned()
    }

    fn keep(&mut self, signal: usize, content: &Content) {
        if !self.skips[self.probes[signal] as usize] {
            self.content.insert(signal, content.clone());
        }
    }

    fn real(&mut self, signal: usize) -> Value {
        let bits = match self.again(signal) {
            Some(Content::Real(bits)) => bits,
            _ if self.random.chance(15) => self.random.next(),
            _ if self.random.chance(50) => self.random.of(&REALS[..6]),
            _ => self.random.of(&REALS),
        };
        self.keep(signal, &Content::Real(bits));
        Value::Real(bits)
    }

    fn symbols(&mut self, width: u32) -> Vec<u8> {
        let largest = self.random.of(&[1, 1, 1, 3, 3, 8]);
        let mut symbols: Vec<u8> = (0..width).map(|_| self.random.from_to(0, largest) as u8).collect();
        if self.random.chance(30) {
            // one that left extension makes
            let fill = self.random.of(&[0, 0, 2, 3]);
            let count = self.random.below(width as usize);
            symbols[..count].fill(fill);
        }
        symbols
    }

    fn vector(&mut self, signal: usize, width: u32) -> Value {
        let symbols = match self.again(signal) {
            Some(Content::Symbols(symbols)) => symbols,
            _ => self.symbols(width),
        };
        let value = if self.random.chance(50) {
            Value::Vcd(self.text(&symbols))
        } else {
            self.raw(&symbols)
        };
        self.keep(signal, &Content::Symbols(symbols));
        value
    }

    fn text(&mut self, symbols: &[u8]) -> Vec<u8> {
        let mut letters: Vec<u8> = symbols.iter().map(|s| LETTERS[*s as usize]).collect();
        if symbols.len() > 1 && self.random.chance(50) {
            letters = self.shorter(&letters);
        }
        if self.random.chance(20) {
            letters.make_ascii_uppercase();
        }
        let front: &[&[u8]] = if symbols.len() == 1 {
            &[b"", b"", b"b", b"q", b"10"]
        } else {
            &[b"", b"b", b"b", b"B", b"b0b", b"0b"]
        };
        [self.random.of(front), &letters[..]].concat()
    }

    /// The same symbols with fewer letters, where left extension gives them back; by u, w and - it does too, but the Rust panics there.
    fn shorter(&mut self, letters: &[u8]) -> Vec<u8> {
        let first = letters[0];
        if !b"0xz".contains(&first) {
            return letters.to_vec();
        }
        let count = letters.iter().take_while(|letter| **letter == first).count();
        let enough = first == b'0' && letters.get(count) == Some(&b'1');
        let dropped = self.random.from_to(0, if enough { count } else { count - 1 });
        letters[dropped..].to_vec()
    }

    fn raw(&mut self, symbols: &[u8]) -> Value {
        let content = Content::Symbols(symbols.to_vec());
        let own = content.class() as usize;
        let claim = if self.random.chance(50) {
            self.random.from_to(own, 2)
        } else {
            own
        } as u32;
        let mut bytes = packed(symbols, claim);
        let used = (symbols.len() * [1, 2, 4][claim as usize]) % 8;
        if used != 0 && self.random.chance(30) {
            bytes[0] |= (self.random.next() as u8) << used; // unused top bits
        }
        if self.random.chance(15) {
            let more = self.random.from_to(1, 2); // bytes before the counted ones
            bytes = [self.random.bytes(more), bytes].concat();
        }
        Value::Raw(claim, bytes)
    }

    /// A call that may be refused: a value of another kind, a bad value, a signal that is not there or of another probe, no probe.
    pub fn any_change(&mut self) -> Step {
        if self.random.chance(45) {
            return self.change();
        }
        let beyond = self.kinds.len() + self.random.below(3);
        let signal = match self.random.below(8) {
            0 => beyond,
            1 => u32::MAX as usize,
            _ => self.random.below(self.kinds.len().max(1)),
        };
        Step::Change(self.any_sender(), signal as u32, self.any_value(signal))
    }

    /// One that a signal may refuse.
    pub fn any_value(&mut self, signal: usize) -> Value {
        let width = self.kinds.get(signal).copied().filter(|kind| *kind <= 200).unwrap_or(3);
        match self.random.below(3) {
            0 => Value::Vcd(self.any_text(width)),
            1 => self.any_raw(width),
            _ => Value::Real(self.random.of(&REALS)),
        }
    }

    fn any_text(&mut self, width: u32) -> Vec<u8> {
        let length = self.random.below(width as usize + 4);
        let letter = |random: &mut Random| match random.below(12) {
            0 => random.next() as u8,
            1 => b'b',
            2 => b'B',
            place => LETTERS[place - 3],
        };
        (0..length).map(|_| letter(self.random)).collect()
    }

    fn any_raw(&mut self, width: u32) -> Value {
        let claim = self.random.of(&[0, 1, 2, 2, 3, u32::MAX]);
        let needed = packed_length(width, claim.min(2)) as usize;
        let length = (needed + self.random.below(3)).saturating_sub(1);
        Value::Raw(claim, self.random.bytes(length))
    }
}

pub fn small_kind(random: &mut Random) -> u32 {
    match random.below(13) {
        0 => 0,
        1..4 => 1,
        4 => REAL,
        5 => 2,
        6 => 3,
        7 => 4,
        8 => random.from_to(2, 9) as u32,
        9 => random.from_to(5, 17) as u32,
        10 => random.from_to(2, 40) as u32,
        11 => random.from_to(2, 70) as u32,
        _ => ABSENT,
    }
}

fn any_kind(random: &mut Random) -> u32 {
    if random.below(500) == 0 {
        return random.of(&[255, 256, 257, 1023, 4096, 65_535, 65_536]);
    }
    match random.below(3) {
        0 => random.from_to(2, 140) as u32,
        _ => small_kind(random),
    }
}

pub fn kinds(random: &mut Random, kind: fn(&mut Random) -> u32) -> Vec<u32> {
    let count = random.of(&[1, 1, 2, 2, 3, 3, 4, 5, 6]);
    (0..count).map(|_| kind(random)).collect()
}

/// A probe for each of so many signals.
pub fn probes(random: &mut Random, count: usize) -> Vec<u8> {
    (0..count).map(|_| random.below(2) as u8).collect()
}

/// A recording without a refusal, of one probe or of two.
pub fn recording(random: &mut Random, edition: u32, two: bool) -> Recording {
    let any = random.from_to(2, 300) as u16;
    let limit = random.of(&[2, 2, 2, 3, 3, 4, 5, 7, 16, any, any, 65_535]);
    let kinds = kinds(random, any_kind);
    let calls = if random.chance(1) { 0 } else { random.from_to(6, 38) };
    let share = random.of(&[25, 40, 60]);
    let new = if two { Generator::of_two } else { Generator::new };
    let mut generator = new(random, kinds);
    generator.edition = edition;
    let steps = generator.calls(calls, share);
    generator.recording(limit, steps)
}

/// Some calls, none at all or a single time among the cases.
fn short(generator: &mut Generator, limit: u16) -> Recording {
    let calls = generator.random.of(&[0, 1, 1, 2, 4, 7, 10, 14]);
    let share = generator.random.of(&[25, 40, 60]);
    let steps = generator.calls(calls, share);
    generator.recording(limit, steps)
}

/// A recording that cannot be joined with those of the generator: another B, another S or another kind.
fn unlike(generator: &mut Generator, limit: u16) -> Recording {
    let (mut limit, mut kinds, end) = (limit, generator.kinds.clone(), generator.end);
    let at = generator.random.below(kinds.len());
    match generator.random.below(4) {
        0 => limit = if limit == 2 { 3 } else { limit - 1 },
        1 => kinds.push(small_kind(generator.random)),
        2 => kinds.truncate(kinds.len() - 1),
        _ => kinds[at] = small_kind(generator.random),
    }
    let mut other = Generator::new(generator.random, kinds);
    other.end = end;
    short(&mut other, limit)
}

/// Recordings of one unit that starts again and again: each begins at the end before it, later, or now and then earlier.
pub fn restarts(random: &mut Random, count: usize) -> Vec<Recording> {
    let limit = random.of(&[2, 2, 2, 3, 3, 4, 6, 65_535]);
    let kinds = kinds(random, small_kind);
    let mut generator = Generator::new(random, kinds);
    let mut recordings = Vec::new();
    for _ in 0..count {
        generator.restart();
        recordings.push(if generator.random.chance(7) {
            unlike(&mut generator, limit)
        } else {
            short(&mut generator, limit)
        });
    }
    recordings
}

/// Real cuts at 65,535 times, changes close to the cuts and far apart.
pub fn long(random: &mut Random) -> Recording {
    let kinds = vec![0, 1, 5, REAL, 33, ABSENT];
    let count = random.of(&[65_534, 65_535, 65_536, 131_068, 131_069, 131_070, 140_000]);
    let mut generator = Generator::new(random, kinds);
    generator.last = Some(generator.random.next() % 3);
    let mut steps = vec![Step::Time(0, generator.last.unwrap())];
    for number in 2..=count {
        steps.push(generator.time(number % 1000 != 0));
        let near = matches!(number % 65_534, 0..4 | 65_532 | 65_533);
        if near || generator.random.below(500) == 0 {
            for _ in 0..generator.random.from_to(1, 6) {
                steps.push(generator.change());
            }
        }
    }
    steps.push(Step::Finish);
    generator.recording(65_535, steps)
}
