//! One recording on all sides: the Rust, the wave memory, documents 01 and 02 read a second time, and the history of the calls.

use crate::history::{History, Load};
use crate::memory::{Answer, BYTE, Memory, NUMBER, Recording, Skip, TIME, difference, named};
use crate::opener::opened;
use crate::ours::{self, Source};
use crate::paper;
use crate::random::Random;
use wellen::oracle::whole::{ABSENT, Loaded, REAL, Step, Value, Whole, shown_at, whole};

/// What was compared.
#[derive(Default)]
pub struct Tally {
    pub recordings: u64,
    pub several_blocks: u64,
    pub calls: u64,
    /// Skips that an equal time ended.
    pub returned: u64,
    /// Changes of one probe that were recorded in a skip of the other.
    pub beside: u64,
    pub blocks: u64,
    pub signals: u64,
    pub entries: u64,
    pub cursors: u64,
    /// Those before the first change of a signal that has some.
    pub early: u64,
    pub reader_refusals: u64,
}

impl Tally {
    /// Of a call that was made: the skips before it.
    fn count(&mut self, edition: u32, step: &Step, answer: Answer, skips: [Skip; 2]) {
        self.calls += 1;
        let Some(probe) = step.sender().map(|sender| sender as usize) else {
            return;
        };
        match answer {
            Answer::Same if edition == 2 => self.returned += u64::from(skips[probe].on),
            Answer::Recorded => self.beside += u64::from(skips[1 - probe].on),
            _ => {}
        }
    }
}

pub type Compared = Result<(), String>;

pub fn agree<T: PartialEq + std::fmt::Debug>(what: &str, ours: T, other: T) -> Compared {
    if ours == other {
        return Ok(());
    }
    Err(format!("{what}: {ours:?} and {other:?}"))
}

pub fn none(what: &str, difference: Option<String>) -> Compared {
    difference.map_or(Ok(()), |found| Err(format!("{what}: {found}")))
}

/// How much of the work and of the image buffer the calls take; nothing where one is refused, or is looked at and left out of what the Rust is given.
fn needs(r: &Recording) -> Option<(usize, usize)> {
    let widest = r.kinds.iter().filter(|kind| **kind <= paper::WIDTH_LIMIT).max();
    let change = 32 + *widest.unwrap_or(&0) as usize / 2;
    let work = change * r.steps.len();
    let image = 16 + 4 * r.kinds.len() + (40 + 5 * r.kinds.len() + change) * r.steps.len();
    let mut m = Memory::lent(r, r.limit as usize, work, image);
    paper::start(&mut m, r.limit.into(), r.kinds.len() as u32, r.edition).ok()?;
    let mut most = 0;
    for step in &r.steps {
        let skip = step.sender().and_then(|sender| m.state.skips.get(sender as usize));
        if skip.is_some_and(|skip| !skip.on) && paper::left_out(&r.kinds, step) {
            return None;
        }
        paper::step(&mut m, step).ok()?;
        most = most.max(m.state.work as usize);
    }
    Some((most, m.state.image as usize))
}

/// Makes one call on our memory and on the papers'.
fn both(m: &mut Memory, other: &mut Memory, step: &Step) -> Result<Answer, String> {
    let answer = ours::step(m, step);
    let said = paper::step(other, step).unwrap_or_else(|turned| Answer::Refused(turned.number));
    agree("answer of ours and of the papers", answer, said)?;
    Ok(answer)
}

/// Makes all calls on ours, holding each answer and the memory after each call against the papers, and each answer against the
/// history. The memory is compared after every `every`-th call, and at the end.
pub fn made(
    r: &Recording,
    mut m: Memory,
    every: usize,
    tally: &mut Tally,
) -> Result<(Memory, Vec<Answer>, History), String> {
    let mut other = m.clone();
    let (limit, signals) = (u32::from(r.limit), r.kinds.len() as u32);
    let answer = ours::start(&mut m, limit, signals, r.edition);
    agree("start", answer, Answer::Started)?;
    paper::start(&mut other, limit, signals, r.edition).map_err(|_| "the papers refuse the start")?;
    let mut history = History::new(r.edition, &r.kinds);
    let mut answers = Vec::new();
    for (number, step) in r.steps.iter().enumerate() {
        let at = || format!("call {} ({:.60})", number + 1, named(step));
        let answer = both(&mut m, &mut other, step).map_err(|e| format!("{}: {e}", at()))?;
        tally.count(r.edition, step, answer, history.skips);
        if let Some(told) = history.tell(step, answer.refused()) {
            agree("answer of ours and of the history", answer, told).map_err(|e| format!("{}: {e}", at()))?;
        }
        if number % every == 0 || number + 1 == r.steps.len() {
            none("memory of ours and of the papers", m.difference(&other)).map_err(|e| format!("{}: {e}", at()))?;
        }
        answers.push(answer);
    }
    let counts = |skips: [Skip; 2]| skips.map(|skip| skip.count);
    agree("skipped counts", counts(m.state.skips), counts(history.skips))?;
    Ok((m, answers, history))
}

/// The table, with more and with less lent than needed.
fn table(source: Source, expected: &[u64]) -> Compared {
    let mut out = vec![TIME; expected.len() + 1];
    agree("table length", source.table(&mut out), Ok(expected.len() as u32))?;
    agree("time past the table", out.pop(), Some(TIME))?;
    none("table of ours and of the history", difference("time", &out, expected))?;
    if let Some(short) = expected.len().checked_sub(1) {
        let mut out = vec![TIME; short];
        agree("table in a short output", source.table(&mut out), Err(9))?;
        agree("short output kept", out, vec![TIME; short])?;
    }
    Ok(())
}

/// A signal's load, with more and with less lent than needed.
fn load(source: Source, signal: usize, expected: &Load) -> Compared {
    let (count, size) = (expected.indices.len(), expected.bytes.len());
    let (mut index, mut bytes) = (vec![NUMBER; count + 1], vec![BYTE; size + 1]);
    let answer = source.load(signal as u32, &mut index, &mut bytes);
    agree("entries and class", answer, Ok((count as u32, expected.class)))?;
    agree("index past the entries", index.pop(), Some(NUMBER))?;
    agree("byte past the entries", bytes.pop(), Some(BYTE))?;
    none(
        "indices of ours and of the history",
        difference("index", &index, &expected.indices),
    )?;
    none(
        "entries of ours and of the history",
        difference("byte", &bytes, &expected.bytes),
    )?;
    for (fewer, less) in [(1, 0), (0, 1)] {
        let (Some(c), Some(s)) = (count.checked_sub(fewer), size.checked_sub(less)) else {
            continue;
        };
        let (mut index, mut bytes) = (vec![NUMBER; c], vec![BYTE; s]);
        let answer = source.load(signal as u32, &mut index, &mut bytes);
        agree("load in a short output", answer, Err(9))?;
        agree("short outputs kept", (index, bytes), (vec![NUMBER; c], vec![BYTE; s]))?;
    }
    Ok(())
}

pub fn room_for(kind: u32) -> usize {
    match kind {
        REAL | ABSENT => 0,
        width => width as usize,
    }
}

/// Each loaded entry by its bytes.
fn entries(signal: usize, kind: u32, load: &Load, history: &History) -> Compared {
    let length = ours::entry_length(kind, load.class);
    for (number, change) in history.kept(signal).iter().enumerate() {
        let bytes = &load.bytes[number * length..(number + 1) * length];
        let mut out = vec![BYTE; room_for(kind)];
        let value = ours::entry_value(bytes, kind, load.class, &mut out);
        agree("entry's value", value, Ok(Some(change.content.clone())))?;
    }
    Ok(())
}

/// Times for the cursor: some of the table or beside them, 0, and a signal's first and the one before it.
fn asked(signal: usize, history: &History, random: &mut Random) -> [u64; 6] {
    let mut near = || {
        let near = match history.times.len() {
            0 => random.next(),
            n => history.times[random.below(n)],
        };
        random.of(&[near, near.saturating_sub(1), near.saturating_add(1), 0, u64::MAX])
    };
    let first = history.first(signal).unwrap_or(u64::MAX);
    [near(), near(), near(), 0, first.saturating_sub(1), first]
}

/// The cursor in outputs of the width and of one byte more, and one short of the width. None is found before the first change, and nothing
/// is written then.
fn cursor(source: Source, signal: usize, kind: u32, history: &History, times: &[u64]) -> Compared {
    let room = room_for(kind);
    for (number, t) in times.iter().enumerate() {
        let mut out = vec![BYTE; room + number % 2];
        let found = source.cursor(kind, signal as u32, *t, &mut out);
        agree("cursor", &found, &Ok(history.cursor(signal, *t)))?;
        let written = if matches!(found, Ok(Some(_))) { room } else { 0 };
        let rest = &out[written..];
        agree("symbols past the width", rest, &vec![BYTE; rest.len()])?;
    }
    if room > 0 {
        let mut out = vec![BYTE; room - 1];
        // where there is none, but for a change at time 0, and where an entry may be found
        let t = if signal % 2 == 0 { 0 } else { u64::MAX };
        agree(
            "cursor in a short output",
            source.cursor(kind, signal as u32, t, &mut out),
            Err(9),
        )?;
        agree("short output kept", out, vec![BYTE; room - 1])?;
    }
    Ok(())
}

/// Signals that are absent or not there, with nothing lent: 4.
fn strangers(source: Source, kinds: &[u32]) -> Result<u64, String> {
    let absent = looked_at(kinds).into_iter().filter(|signal| kinds[*signal] == ABSENT);
    let mut count = 0;
    for signal in absent.chain([kinds.len(), u32::MAX as usize]) {
        agree(
            "load of no signal",
            source.load(signal as u32, &mut [], &mut []),
            Err(4),
        )?;
        agree(
            "cursor of no signal",
            source.cursor(0, signal as u32, 0, &mut []),
            Err(4),
        )?;
        count += 2;
    }
    Ok(count)
}

/// All signals, or of very many some: each question opens the image anew.
fn looked_at(kinds: &[u32]) -> Vec<usize> {
    let chosen = |signal: &usize| kinds.len() <= 64 || signal % 8191 == 0 || signal + 1 == kinds.len();
    (0..kinds.len()).filter(chosen).collect()
}

/// All that the reader shows of an image, held against the history.
pub fn read(image: &[u8], kinds: &[u32], history: &History, random: &mut Random, tally: &mut Tally) -> Compared {
    agree("opener", ours::open(image), true)?;
    for source in ours::sources(image) {
        table(source, &history.times)?;
        tally.reader_refusals += 1 + strangers(source, kinds)?;
    }
    for signal in looked_at(kinds).into_iter().filter(|signal| kinds[*signal] != ABSENT) {
        let (kind, expected) = (kinds[signal], history.load(signal));
        let at = |e| format!("signal {signal}: {e}");
        for source in ours::sources(image) {
            load(source, signal, &expected).map_err(at)?;
            let times = asked(signal, history, random);
            cursor(source, signal, kind, history, &times).map_err(at)?;
            tally.cursors += times.len() as u64;
            tally.early += times.iter().filter(|t| history.first(signal) > Some(**t)).count() as u64;
            tally.reader_refusals += 2;
        }
        entries(signal, kind, &expected, history).map_err(at)?;
        tally.signals += 1;
        tally.entries += expected.indices.len() as u64;
    }
    Ok(())
}

/// The cursor at times of the table, and what the Rust's `get_offset` finds at their places: all, or of very many some, with those around
/// the first entry's.
fn shown(signal: usize, loaded: &Loaded, history: &History) -> Compared {
    let times = &history.times;
    let first = *loaded.indices.first().unwrap_or(&0) as usize;
    let chosen = |place: &usize| {
        times.len() <= 64 || place % 8191 == 0 || place.abs_diff(first) <= 1 || place + 1 == times.len()
    };
    for place in (0..times.len()).filter(chosen) {
        let found = history.cursor(signal, times[place]);
        let told = found.map(|(number, time, content)| (number, time, content.word()));
        let rust = shown_at(&loaded.signal, place as u32);
        let theirs = rust.map(|(number, place, value)| (number, times[place as usize], value));
        agree("cursor and the Rust's", told, theirs)?;
    }
    Ok(())
}

/// What the Rust made and loaded, held against the image that ours left and the history that ours loaded as.
pub fn rust(rust: &Whole, image: &[u8], kinds: &[u32], history: &History) -> Compared {
    none(
        "image of ours and of the Rust",
        difference("image byte", image, &rust.image),
    )?;
    none("table and the Rust's", difference("time", &history.times, &rust.table))?;
    for (block, streams) in rust.streams.iter().enumerate() {
        for signal in looked_at(kinds) {
            for source in ours::sources(image) {
                let ours = source.stream(block as u32, signal as u32);
                none(
                    &format!("stream {block} {signal}"),
                    difference("byte", ours, &streams[signal]),
                )?;
            }
        }
    }
    let past = rust.streams.len() as u32;
    for source in ours::sources(image) {
        agree("stream past the blocks", source.stream(past, 0).len(), 0)?;
        agree("stream past the signals", source.stream(0, kinds.len() as u32).len(), 0)?;
    }
    for signal in 0..kinds.len() {
        let Some(loaded) = &rust.loads[signal] else { continue };
        let expected = history.load(signal);
        let name = |what: &str| format!("signal {signal}: {what} and the Rust's");
        agree(&name("class"), expected.class, loaded.class)?;
        none(
            &name("indices"),
            difference("index", &expected.indices, &loaded.indices),
        )?;
        none(&name("entries"), difference("byte", &expected.bytes, &loaded.bytes))?;
        let values: Vec<String> = history.kept(signal).iter().map(|c| c.content.word()).collect();
        none(&name("values"), difference("value", &values, &loaded.values))?;
        shown(signal, loaded, history).map_err(|e| format!("signal {signal}: {e}"))?;
    }
    Ok(())
}

/// The Rust has no claim above 2 and no signal 2^32 - 1; without a refusal these come only in a skip.
fn askable(step: &Step) -> bool {
    !matches!(
        step,
        Step::Change(_, u32::MAX, _) | Step::Change(.., Value::Raw(3.., _))
    )
}

/// The Rust on the calls that were not refused: its answers, the image, and what it loads.
fn with_rust(r: &Recording, answers: &[Answer], image: &[u8], history: &History) -> Compared {
    let asked = |(step, answer): &(&Step, &Answer)| !answer.refused() && askable(step);
    let given = || r.steps.iter().zip(answers).filter(asked);
    let steps: Vec<Step> = given().map(|(step, _)| step.clone()).collect();
    let made = whole(r.edition, r.limit, &r.kinds, &r.probes, &steps).ok_or("the Rust panics")?;
    let changes = given().filter(|(step, _)| **step != Step::Finish);
    let words: Vec<&str> = changes.map(|(_, answer)| answer.word()).collect();
    none(
        "answers of ours and of the Rust",
        difference("answer", &words, &made.answers),
    )?;
    rust(&made, image, &r.kinds, history)
}

/// A recording whose calls may be refused, on lent memory. The Rust is asked in edition 1 and of probe 0, which it knows alone; of the others,
/// "the same opener accepts" the image. Answers the image, if there is one.
pub fn on_memory(
    r: &Recording,
    m: Memory,
    every: usize,
    random: &mut Random,
    tally: &mut Tally,
) -> Result<Option<Vec<u8>>, String> {
    let (m, answers, history) = made(r, m, every, tally)?;
    let Some(Answer::Finished(total)) = answers.iter().find(|a| matches!(a, Answer::Finished(_))) else {
        return Ok(None);
    };
    let image = &m.image[..*total as usize];
    read(image, &r.kinds, &history, random, tally)?;
    if r.for_rust() {
        with_rust(r, &answers, image, &history)?;
    } else {
        agree("opener by the papers", opened(image).is_some(), true)?;
    }
    tally.recordings += 1;
    tally.blocks += u64::from(m.state.blocks);
    tally.several_blocks += u64::from(m.state.blocks > 1);
    Ok(Some(image.to_vec()))
}

/// A recording without a refusal. What is lent is often exactly what is needed. Answers the image.
pub fn recording(r: &Recording, every: usize, random: &mut Random, tally: &mut Tally) -> Result<Vec<u8>, String> {
    let (work, image) = needs(r).ok_or("a call is refused, or left out of what the Rust is given")?;
    let times = r.limit as usize + random.of(&[0, 0, 1, 3]);
    let (work, image) = (work + random.of(&[0, 0, 1, 9]), image + random.of(&[0, 0, 1, 9]));
    let m = Memory::lent(r, times, work, image);
    on_memory(r, m, every, random, tally)?.ok_or("no finish".to_string())
}

/// Leaves out calls while the two sides still differ.
pub fn smaller(r: &Recording, differs: impl Fn(&Recording) -> bool) -> Recording {
    let mut least = r.clone();
    let mut at = least.steps.len();
    while at > 0 {
        at -= 1;
        let mut fewer = least.clone();
        fewer.steps.remove(at);
        if needs(&fewer).is_some() && fewer.steps.last() == Some(&Step::Finish) && differs(&fewer) {
            least = fewer;
        }
    }
    least
}
