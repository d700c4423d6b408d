//! Refusals on states as calls leave them and on altered ones: the answer and all memory after it are those of the papers read a
//! second time (paper.rs), and a refusal leaves all memory as it was.

use crate::compare::{Compared, Tally, agree, none, on_memory};
use crate::generate::{Generator, kinds, probes, small_kind};
use crate::memory::{Answer, BYTE, Memory, Record, TIME, named};
use crate::ours;
use crate::paper::{self, CONDITIONS, left_out};
use crate::random::Random;
use std::collections::BTreeMap;
use wellen::oracle::whole::{ABSENT, REAL, Step};

/// How often each condition was the only one of its refusal.
pub struct Refusals {
    pub alone: BTreeMap<&'static str, u64>,
    pub calls: u64,
    pub refused: u64,
}

impl Refusals {
    pub fn new() -> Self {
        Refusals {
            alone: CONDITIONS.iter().map(|name| (*name, 0)).collect(),
            calls: 0,
            refused: 0,
        }
    }

    pub fn count(&mut self, why: &[&'static str]) {
        self.refused += 1;
        if let [only] = why {
            *self.alone.get_mut(only).expect("a condition of the list") += 1;
        }
    }
}

/// Makes a call on our memory and on the papers'.
fn compared(
    m: &mut Memory,
    name: &str,
    tally: &mut Refusals,
    ours: impl Fn(&mut Memory) -> Answer,
    paper: impl Fn(&mut Memory) -> Result<Answer, paper::Turned>,
) -> Result<Answer, String> {
    let before = m.clone();
    let mut other = m.clone();
    let answer = ours(m);
    tally.calls += 1;
    let said = paper(&mut other).unwrap_or_else(|turned| {
        tally.count(&turned.why);
        Answer::Refused(turned.number)
    });
    let at = |e| {
        format!(
            "{name} on {:?}, {} times, {} work, {} image bytes lent, records {:?}: {e}",
            before.state,
            before.times.len(),
            before.work.len(),
            before.image.len(),
            before.records
        )
    };
    agree("answer", answer, said).map_err(at)?;
    none("memory", m.difference(&other)).map_err(at)?;
    if answer.refused() {
        none("memory after a refusal", m.difference(&before)).map_err(at)?;
    }
    Ok(answer)
}

fn step(m: &mut Memory, step: &Step, tally: &mut Refusals) -> Result<Answer, String> {
    compared(
        m,
        &named(step),
        tally,
        |m| ours::step(m, step),
        |m| paper::step(m, step),
    )
}

fn start(m: &mut Memory, limit: u32, signals: u32, edition: u32, tally: &mut Refusals) -> Result<Answer, String> {
    let name = format!("edition {edition}, start {signals} {limit}");
    compared(
        m,
        &name,
        tally,
        |m| ours::start(m, limit, signals, edition),
        |m| paper::start(m, limit, signals, edition),
    )
}

/// A call of any form.
fn any_step(generator: &mut Generator) -> Step {
    match generator.random.below(40) {
        0 => Step::Finish,
        1..15 => generator.any_time(),
        _ => generator.any_change(),
    }
}

fn near(random: &mut Random, n: u64, limit: u64) -> u64 {
    random.of(&[
        n.wrapping_add(1),
        n.wrapping_sub(1),
        0,
        1,
        2,
        limit,
        limit + 1,
        u64::MAX,
    ])
}

fn alter_state(m: &mut Memory, random: &mut Random) {
    let (work, image) = (m.work.len() as u64, m.image.len() as u64);
    let s = &mut m.state;
    let skip = &mut s.skips[random.below(2)];
    match random.below(10) {
        0 => s.closed = !s.closed,
        1 => s.limit = random.of(&[0, 1, 2, 3, 65_535, 65_536, u32::MAX, s.held, s.held.wrapping_sub(1)]),
        2 => s.signals = near(random, s.signals.into(), 65_536) as u32,
        3 => s.held = near(random, s.held.into(), s.limit.into()) as u32,
        4 => s.work = near(random, s.work, work),
        5 => s.image = near(random, s.image.into(), image) as u32,
        6 => s.blocks = near(random, s.blocks.into(), s.image.into()) as u32,
        7 => skip.on = !skip.on,
        8 => s.edition = random.of(&[0, 1, 2, 3, u32::MAX]),
        _ => skip.count = random.of(&[0, u32::MAX - 1, u32::MAX]),
    }
}

fn alter_record(m: &mut Memory, random: &mut Random) {
    if m.records.is_empty() {
        return;
    }
    let at = random.below(m.records.len());
    let old = m.records[at];
    let held = m.state.held;
    m.records[at] = Record {
        kind: random.of(&[old.kind, 0, 1, 2, 9, REAL, ABSENT, 65_536, 65_537, 1 << 31, 0xffff_fffd]),
        index: random.of(&[
            old.index,
            0,
            held.min(70_000),
            held.saturating_sub(1).min(70_000),
            65_535,
            ours::LAST_INDEX,
        ]),
        top: random.below(3) as u32,
        probe: random.of(&[old.probe, old.probe, old.probe, 0, 1, 2, 7, 255]),
    };
}

/// Bytes of the used work: a record's signal or length, or any.
fn alter_work(m: &mut Memory, random: &mut Random) {
    let used = (m.state.work as usize).min(m.work.len());
    if used < 8 {
        return;
    }
    let place = if random.chance(60) {
        random.of(&[0, 4])
    } else {
        random.below(used)
    };
    let (signals, any) = (m.records.len() as u8, random.next() as u8);
    m.work[place] = random.of(&[0, 1, 2, signals, signals.wrapping_sub(1), 255, any]);
}

fn alter_lengths(m: &mut Memory, random: &mut Random) {
    let resized = |length: usize, random: &mut Random| (length + random.below(4)).saturating_sub(2);
    match random.below(5) {
        0 => {
            let length = resized(m.times.len(), random);
            m.times.resize(length, TIME);
        }
        1 => {
            let length = random.of(&[m.work.len(), m.state.work as usize % 70_000, 2]);
            let length = resized(length, random);
            m.work.resize(length, BYTE);
        }
        2 => {
            let length = random.of(&[m.image.len(), m.state.image as usize % 70_000, 2]);
            let length = resized(length, random);
            m.image.resize(length, BYTE);
        }
        3 => {
            m.records.pop();
        }
        _ => m.records.push(Record {
            kind: 1,
            index: 0,
            top: 0,
            probe: 0,
        }),
    }
}

fn alter(m: &mut Memory, random: &mut Random) {
    match random.below(12) {
        0..5 => alter_state(m, random),
        5..7 => alter_record(m, random),
        7..9 => alter_work(m, random),
        9..11 => alter_lengths(m, random),
        _ => {
            let at = random.below(m.times.len().max(1));
            if let Some(time) = m.times.get_mut(at) {
                *time = random.of(&[0, *time, time.wrapping_add(1), u64::MAX]);
            }
        }
    }
}

/// A memory of a random size.
fn memory(random: &mut Random) -> (Memory, u32) {
    let limit = random.of(&[2, 2, 3, 4, 6]);
    let kinds = kinds(random, small_kind);
    let times = limit as usize + random.below(3);
    let (work, image) = (random.from_to(10, 250), random.from_to(60, 700));
    (Memory::fresh(&kinds, times, work, image), limit)
}

fn starts(random: &mut Random, tally: &mut Refusals) -> Compared {
    let (mut m, limit) = memory(random);
    m.name(&probes(random, m.records.len()));
    let mut signals = m.records.len() as u32;
    let mut limit = random.of(&[limit, limit, 0, 1, 2, 65_535, 65_536, u32::MAX]);
    let mut edition = random.of(&[1, 2]);
    match random.below(9) {
        0 => signals = random.of(&[0, signals + 1, 65_536, 65_537, u32::MAX]),
        1 => alter_record(&mut m, random),
        2 => m.image.truncate(16 + 4 * m.records.len() - random.below(2)),
        3 => m.image.truncate(random.below(30)),
        4 => m.times.truncate(limit as usize % 70_000 - usize::from(limit > 0)),
        5 => alter_lengths(&mut m, random),
        6 => limit = random.of(&[m.times.len() as u32, m.times.len() as u32 + 1]),
        7 => edition = random.of(&[0, 3, u32::MAX]),
        _ => {}
    }
    alter_state(&mut m, random);
    start(&mut m, limit, signals, edition, tally).map(|_| ())
}

/// A start in either edition, calls of all forms by both probes and by none, and from each state left altered ones with calls on them.
pub fn altered(random: &mut Random, tally: &mut Refusals) -> Compared {
    starts(random, tally)?;
    let (mut m, limit) = memory(random);
    let signals = m.records.len() as u32;
    let edition = random.of(&[1, 2]);
    let kinds: Vec<u32> = m.records.iter().map(|record| record.kind).collect();
    let mut generator = Generator::of_two(random, kinds);
    generator.edition = edition;
    m.name(&generator.probes);
    if start(&mut m, limit, signals, edition, tally)?.refused() {
        return Ok(());
    }
    for _ in 0..12 {
        let call = any_step(&mut generator);
        step(&mut m, &call, tally)?;
        if m.state.closed && generator.random.chance(80) {
            break;
        }
        for _ in 0..3 {
            let mut other = m.clone();
            for _ in 0..generator.random.of(&[1, 1, 1, 2]) {
                alter(&mut other, generator.random);
            }
            for _ in 0..2 {
                let call = any_step(&mut generator);
                step(&mut other, &call, tally)?;
            }
        }
    }
    Ok(())
}

/// Starts at the limit of S.
pub fn signals(tally: &mut Refusals) -> Compared {
    for (records, signals) in [(65_536, 65_536), (65_537, 65_537), (65_536, 65_535)] {
        let mut m = Memory::fresh(&vec![1; records], 2, 0, 16 + 4 * 65_537);
        start(&mut m, 2, signals, 1, tally)?;
    }
    Ok(())
}

/// A change that may be refused, but none that the Rust is not given.
fn asked_change(generator: &mut Generator) -> Step {
    loop {
        let step = generator.any_change();
        if !left_out(&generator.kinds, &step) {
            return step;
        }
    }
}

/// A recording with refused calls in it, in buffers that are often too small: a refused call spoils only itself, and in edition 1 and of one
/// probe the Rust, given the calls that were not refused, leaves the same image.
pub fn mixed(random: &mut Random, edition: u32, two: bool, tally: &mut Tally) -> Compared {
    let (mut m, limit) = memory(random);
    m.image.resize(random.from_to(60, 3000), BYTE);
    let kinds: Vec<u32> = m.records.iter().map(|record| record.kind).collect();
    let calls = random.from_to(4, 40);
    let new = if two { Generator::of_two } else { Generator::new };
    let mut generator = new(random, kinds);
    generator.edition = edition;
    m.name(&generator.probes);
    let call = |generator: &mut Generator| {
        if generator.random.chance(35) {
            generator.any_time()
        } else {
            asked_change(generator)
        }
    };
    let mut steps: Vec<Step> = (0..calls).map(|_| call(&mut generator)).collect();
    steps.extend([Step::Finish, Step::Finish, Step::Time(0, u64::MAX)]);
    let r = generator.recording(limit as u16, steps);
    on_memory(&r, m, 1, random, tally)
        .map(|_| ())
        .map_err(|e| format!("{e}\n{r}"))
}
