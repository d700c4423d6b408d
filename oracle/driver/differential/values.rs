//! Single values: one change on a fresh signal, as `oracle values` asks; what is left out of that is held against the second reading alone.

use crate::compare::{Compared, agree};
use crate::generate::{Generator, REALS};
use crate::memory::{Answer, BYTE, Memory, Recording, step_line};
use crate::ours::{self, Source};
use crate::paper::{self, decode, extended};
use crate::random::Random;
use crate::value::{Content, change_bytes, entry_bytes, packed_length};
use wellen::oracle::whole::{REAL, Step, Value, single};

#[derive(Default)]
pub struct Values {
    pub good: u64,
    pub bad: u64,
    /// Of the good ones, those that the Rust is not given.
    pub left_out: u64,
}

impl Values {
    pub fn asked(&self) -> u64 {
        self.good + self.bad
    }
}

fn memory(kind: u32, index: u32, value: &Value) -> Memory {
    let length = match value {
        Value::Vcd(text) => text.len(),
        Value::Raw(_, bytes) => bytes.len(),
        Value::Real(_) => 8,
    };
    let change = 32 + length.max(if kind <= paper::WIDTH_LIMIT { kind as usize } else { 0 });
    let times = (index as usize + 1).max(2);
    Memory::fresh(&[kind], times, change, 60 + 8 * times + change)
}

/// The Rust answers as the second reading: class, stream and value, or that it is bad.
fn asked(kind: u32, index: u32, value: &Value) -> Compared {
    let read = decode(kind, value).ok().flatten().map(|(content, class)| {
        let shown = content.word().split(':').next_back().unwrap().to_string();
        (class as u8, change_bytes(index.into(), &content), shown)
    });
    agree("a value by documents 01 and 02", read, single(kind, index, value))
}

/// One change at a time index. The state before it is the one that the times 0 to `index` leave.
pub fn value(kind: u32, index: u32, value: &Value, tally: &mut Values) -> Compared {
    if extended(kind, value) {
        tally.left_out += 1;
    } else {
        asked(kind, index, value)?;
    }
    let mut m = memory(kind, index, value);
    let limit = m.times.len() as u32;
    agree("start", ours::start(&mut m, limit, 1, 1), Answer::Started)?;
    m.state.held = index + 1;
    (0..=u64::from(index)).for_each(|time| m.times[time as usize] = time);
    let before = m.clone();
    let answer = ours::step(&mut m, &Step::Change(0, 0, value.clone()));
    let Ok(Some((content, class))) = decode(kind, value) else {
        tally.bad += 1;
        agree("answer to a bad value", answer, Answer::Refused(6))?;
        return agree("memory after a refusal", m == before, true);
    };
    tally.good += 1;
    agree("answer to a value", answer, Answer::Recorded)?;
    let Answer::Finished(total) = ours::step(&mut m, &Step::Finish) else {
        return Err("finish refused".to_string());
    };
    let image = &m.image[..total as usize];
    agree("class byte", image[32 + 8 * (index as usize + 1) + 4], class as u8)?;
    let stream = change_bytes(index.into(), &content);
    agree("stream", Source::Bytes(image).stream(0, 0), &stream[..])?;
    loaded(image, kind, index, class, content)
}

/// The only entry of an image of one signal.
fn loaded(image: &[u8], kind: u32, index: u32, class: u32, content: Content) -> Compared {
    let source = Source::Bytes(image);
    let expected = entry_bytes(&content, class);
    let (mut indices, mut bytes) = ([0; 1], vec![0; expected.len()]);
    agree("load", source.load(0, &mut indices, &mut bytes), Ok((1, class)))?;
    agree("index", indices, [index])?;
    agree("entry", bytes, expected)?;
    let mut out = vec![BYTE; if kind == REAL { 0 } else { kind as usize }];
    let time = u64::from(index);
    if time > 0 {
        agree("cursor before it", source.cursor(kind, 0, time - 1, &mut out), Ok(None))?;
        agree("symbols of none", out.iter().all(|byte| *byte == BYTE), true)?;
    }
    for t in [time, u64::MAX] {
        let found = source.cursor(kind, 0, t, &mut out);
        agree("cursor", found, Ok(Some((0, time, content.clone()))))?;
    }
    Ok(())
}

/// A value as a recording, for a report.
pub fn as_recording(kind: u32, index: u32, value: &Value) -> Recording {
    let times = (0..=u64::from(index)).map(|time| Step::Time(0, time));
    let change = Step::Change(0, 0, value.clone());
    let steps = times.chain([change, Step::Finish]).collect();
    Recording::plain(65_535, vec![kind], steps)
}

type Ask<'a> = &'a mut dyn FnMut(u32, u32, &Value) -> Compared;

/// All texts over some letters, from `shortest` to `longest` bytes.
fn texts(letters: &[u8], shortest: u32, longest: u32, ask: &mut dyn FnMut(&[u8]) -> Compared) -> Compared {
    for length in shortest..=longest {
        for number in 0..letters.len().pow(length) {
            let mut rest = number;
            let mut text = vec![0; length as usize];
            for byte in &mut text {
                *byte = letters[rest % letters.len()];
                rest /= letters.len();
            }
            ask(&text)?;
        }
    }
    Ok(())
}

/// Every value of some kinds: all texts of at most two bytes, longer ones over the letters that matter, all raw bytes.
pub fn exhaustive(whole: bool, ask: Ask) -> Compared {
    let every: Vec<u8> = (0..=255).collect();
    for width in 0..=5 {
        let longest = if whole && width <= 3 { 2 } else { 1 };
        texts(&every, 0, longest, &mut |text| {
            ask(width, 0, &Value::Vcd(text.to_vec()))
        })?;
    }
    let letters = b"01xzhuwl-bBq";
    for width in 2..=5 {
        let longest = if whole { 4 } else { 3 };
        texts(letters, 2, longest, &mut |text| {
            ask(width, 0, &Value::Vcd(text.to_vec()))
        })?;
    }
    for (width, claim) in (1..=6).flat_map(|width| (0..4).map(move |claim| (width, claim))) {
        let length = if claim > 2 {
            1
        } else {
            packed_length(width, claim) as u32
        };
        let longest = if whole { length.min(2) } else { 1 };
        texts(&every, 0, longest, &mut |bytes| {
            ask(width, 0, &Value::Raw(claim, bytes.to_vec()))
        })?;
    }
    REALS.iter().try_for_each(|bits| ask(REAL, 0, &Value::Real(*bits)))
}

/// Time indices where the length of a LEB128 number changes.
const INDICES: [u32; 16] = [
    0, 0, 1, 7, 8, 31, 32, 127, 128, 1023, 1024, 4095, 4096, 16_383, 16_384, 65_534,
];

/// A random value, good or bad.
pub fn random_value(random: &mut Random) -> (u32, u32, Value) {
    let wide = random.of(&[255, 256, 4095, 4096, 65_535, 65_536]);
    let kind = match random.below(400) {
        0 => wide,
        n if n < 40 => REAL,
        n if n < 60 => 0,
        n if n < 120 => 1,
        _ => random.from_to(2, 140) as u32,
    };
    let index = if random.chance(70) { 0 } else { random.of(&INDICES) };
    let mut generator = Generator::new(random, vec![kind]);
    loop {
        let any = generator.random.chance(30);
        let step = if any {
            generator.any_change()
        } else {
            generator.change()
        };
        let fits = |value: &Value| {
            matches!(value, Value::Real(_)) == (kind == REAL) && !(kind == 0 && matches!(value, Value::Raw(..)))
        };
        match step {
            Step::Change(_, 0, value) if fits(&value) => return (kind, index, value),
            _ => {}
        }
    }
}

pub fn shown(kind: u32, index: u32, value: &Value) -> String {
    format!(
        "kind {kind} index {index} {}",
        step_line(&Step::Change(0, 0, value.clone()))
    )
}
