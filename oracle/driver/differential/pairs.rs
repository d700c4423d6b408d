//! Document 02, 'Two probes on one recording': two lists of calls "from equal starts and differing, call by call, only in the values that
//! probe 0 sends, leave everything loaded for probe 1, and each answer to it, the same, provided neither run meets 7 or 8". Both are made on
//! ours, and held against each other.

use crate::compare::{Compared, Tally, agree, made, none, room_for};
use crate::generate::{Generator, kinds, small_kind};
use crate::memory::{Answer, BYTE, Memory, NUMBER, Recording, TIME, difference};
use crate::ours::{Source, entry_length, sources};
use crate::random::Random;
use wellen::oracle::whole::{ABSENT, Step};

/// What was compared.
#[derive(Default)]
pub struct Pairs {
    pub tally: Tally,
    /// Pairs of lists that are not the same, in which neither run met 7 or 8; those in which one did are left out.
    pub compared: u64,
    pub left_out: u64,
    /// Of those compared, pairs with another answer to probe 0, and pairs with another image.
    pub answers: u64,
    pub images: u64,
    /// Of both ways to read: signals of probe 1, their entries, and the times of cursors.
    pub signals: u64,
    pub entries: u64,
    pub cursors: u64,
}

/// A recording of two probes, its calls with other values of probe 0, and what is lent to each.
#[derive(Clone)]
struct Pair {
    first: Recording,
    second: Vec<Step>,
    lent: Memory,
}

impl Pair {
    /// The second recording.
    fn other(&self) -> Recording {
        Recording {
            steps: self.second.clone(),
            ..self.first.clone()
        }
    }
}

/// What a run left.
struct Run<'a> {
    steps: &'a [Step],
    answers: Vec<Answer>,
    memory: Memory,
}

impl Run<'_> {
    /// "provided neither run meets 7 or 8".
    fn full(&self) -> bool {
        let full = |answer: &Answer| matches!(answer, Answer::Refused(7 | 8));
        self.answers.iter().any(full)
    }

    fn answers_to(&self, probe: u32) -> Vec<Answer> {
        let own = self.steps.iter().zip(&self.answers);
        let own = own.filter(|(step, _)| step.sender() == Some(probe));
        own.map(|(_, answer)| *answer).collect()
    }

    fn image(&self) -> &[u8] {
        &self.memory.image[..self.memory.state.image as usize]
    }
}

fn run<'a>(r: &'a Recording, lent: &Memory, tally: &mut Tally) -> Result<Run<'a>, String> {
    let (memory, answers, _) = made(r, lent.clone(), 1, tally)?;
    Ok(Run {
        steps: &r.steps,
        answers,
        memory,
    })
}

/// What a question answers of each image, with the output that it fills.
fn same<T: PartialEq + std::fmt::Debug>(what: &str, images: [Source; 2], ask: impl Fn(Source) -> T) -> Compared {
    let [first, second] = images.map(ask);
    agree(what, first, second)
}

fn table(images: [Source; 2], length: usize) -> Compared {
    same("table", images, |source| {
        let mut out = vec![TIME; length];
        (source.table(&mut out), out)
    })
}

/// With so much lent.
fn load(images: [Source; 2], signal: u32, entries: usize, bytes: usize) -> Compared {
    same("load", images, |source| {
        let (mut index, mut out) = (vec![NUMBER; entries], vec![BYTE; bytes]);
        (source.load(signal, &mut index, &mut out), index, out)
    })
}

/// With room for all symbols, and for one fewer.
fn cursor(images: [Source; 2], signal: u32, kind: u32, time: u64) -> Compared {
    for room in [room_for(kind), room_for(kind).saturating_sub(1)] {
        same("cursor", images, |source| {
            let mut out = vec![BYTE; room];
            (source.cursor(kind, signal, time, &mut out), out)
        })?;
    }
    Ok(())
}

/// Times of the table and beside them, and the ends.
fn asked(times: &[u64], random: &mut Random) -> Vec<u64> {
    let mut asked = vec![0, u64::MAX];
    for _ in 0..4 {
        let near = if times.is_empty() {
            random.next()
        } else {
            random.of(times)
        };
        asked.extend([near.saturating_sub(1), near, near.saturating_add(1)]);
    }
    asked
}

/// All that is read of one signal of probe 1.
fn signal(images: [Source; 2], number: u32, kind: u32, blocks: u32, times: &[u64], seen: &mut Pairs) -> Compared {
    let (mut index, mut bytes) = ([0; 64], [0; 4096]);
    let (count, class) = images[0].load(number, &mut index, &mut bytes).unwrap_or((0, 0));
    let (count, length) = (count as usize, count as usize * entry_length(kind, class));
    // room for more, exactly enough, one index fewer, one byte fewer
    let fewer = [(count.saturating_sub(1), length), (count, length.saturating_sub(1))];
    for (entries, bytes) in [(64, 4096), (count, length)].into_iter().chain(fewer) {
        load(images, number, entries, bytes)?;
    }
    for time in times {
        cursor(images, number, kind, *time)?;
    }
    for block in 0..=blocks {
        same("stream", images, |source| source.stream(block, number).to_vec())?;
    }
    seen.signals += 1;
    seen.entries += count as u64;
    seen.cursors += times.len() as u64;
    Ok(())
}

/// "everything loaded for probe 1", of both images, opened at each call and once.
fn loaded(r: &Recording, runs: [&Run; 2], random: &mut Random, seen: &mut Pairs) -> Compared {
    let (first, second) = (sources(runs[0].image()), sources(runs[1].image()));
    agree("ways to read", (first.len(), second.len()), (2, 2))?;
    let mut times = vec![0; r.steps.len()];
    let length = first[0].table(&mut times).unwrap_or(0);
    times.truncate(length as usize);
    let blocks = runs[0].memory.state.blocks;
    agree("blocks", blocks, runs[1].memory.state.blocks)?;
    for images in first.into_iter().zip(second).map(|(a, b)| [a, b]) {
        for room in [times.len() + 1, times.len(), times.len().saturating_sub(1)] {
            table(images, room)?;
        }
        for (number, kind) in r.kinds.iter().enumerate().filter(|(number, _)| r.probes[*number] == 1) {
            let asked = asked(&times, random);
            let at = |e| format!("signal {number}: {e}");
            signal(images, number as u32, *kind, blocks, &asked, seen).map_err(at)?;
        }
    }
    Ok(())
}

fn compared(pair: &Pair, random: &mut Random, seen: &mut Pairs) -> Compared {
    let other = pair.other();
    let first = run(&pair.first, &pair.lent, &mut seen.tally)?;
    let second = run(&other, &pair.lent, &mut seen.tally)?;
    if first.full() || second.full() {
        seen.left_out += 1;
        return Ok(());
    }
    seen.compared += u64::from(pair.first.steps != pair.second);
    let (to_1, also_to_1) = (first.answers_to(1), second.answers_to(1));
    none("answers to probe 1", difference("answer", &to_1, &also_to_1))?;
    agree("skips", first.memory.state.skips, second.memory.state.skips)?;
    seen.answers += u64::from(first.answers_to(0) != second.answers_to(0));
    seen.images += u64::from(first.image() != second.image());
    loaded(&pair.first, [&first, &second], random, seen)
}

/// Some calls that may be refused; in the second list the values of probe 0 are often others, good or bad, in any notation.
fn pair(random: &mut Random) -> Pair {
    let limit = random.of(&[2, 2, 3, 4, 6]);
    let kinds = kinds(random, small_kind);
    let (calls, edition) = (random.from_to(8, 40), random.of(&[1, 2]));
    // now and then so little that a run meets 7 or 8
    let (work, image) = if random.chance(20) {
        (random.from_to(10, 250), random.from_to(60, 700))
    } else {
        (4096, 8192)
    };
    let mut generator = Generator::of_two(random, kinds);
    generator.edition = edition;
    let call = |generator: &mut Generator| match generator.random.below(100) {
        0..35 => generator.any_time(),
        _ => generator.any_change(),
    };
    let mut steps: Vec<Step> = (0..calls).map(|_| call(&mut generator)).collect();
    steps.push(Step::Finish);
    let second = steps.iter().map(|step| revalued(step, &mut generator)).collect();
    let first = generator.recording(limit, steps);
    let lent = Memory::lent(&first, limit.into(), work, image);
    Pair { first, second, lent }
}

fn revalued(step: &Step, generator: &mut Generator) -> Step {
    match step {
        Step::Change(0, signal, _) if generator.random.chance(75) => {
            let place = *signal as usize;
            let takes = generator.kinds.get(place).is_some_and(|kind| *kind != ABSENT);
            let value = if takes && generator.random.chance(60) {
                generator.value(place)
            } else {
                generator.any_value(place)
            };
            Step::Change(0, *signal, value)
        }
        step => step.clone(),
    }
}

/// Leaves out calls of both while the runs still differ.
fn smallest(pair: &Pair) -> Pair {
    let differs = |pair: &Pair| {
        let random = &mut Random::new("smaller", 0, 0);
        compared(pair, random, &mut Pairs::default()).is_err()
    };
    let mut least = pair.clone();
    // the finish stays
    for at in (0..pair.second.len() - 1).rev() {
        let mut fewer = least.clone();
        fewer.first.steps.remove(at);
        fewer.second.remove(at);
        if differs(&fewer) {
            least = fewer;
        }
    }
    least
}

pub fn item(random: &mut Random, seen: &mut Pairs) -> Compared {
    let pair = pair(random);
    compared(&pair, random, seen).map_err(|e| {
        let least = smallest(&pair);
        let (work, image) = (least.lent.work.len(), least.lent.image.len());
        format!(
            "{e}\nwork {work}, image {image} bytes\n{}\n{}",
            least.first,
            least.other()
        )
    })
}
