//! The wave memory of this repository, called through its Rust interface (bindings/rust), which calls its C interface.

use crate::memory::{Answer, Memory, Record, Skip, State};
use crate::value::Content;
use wejumo::{Cursor, Edition, Entry, Image, Kind, Loaded, Recorder, Refusal, States};
use wellen::oracle::whole::{Step, Value};

/// The largest index that a stored record has with every class.
pub const LAST_INDEX: u32 = 5_592_404;

/// A record as it is stored: kind + 2^32 x (probe + 256 x (3 x index + class)).
pub fn stored(record: &Record) -> u64 {
    let place = 3 * u64::from(record.index) + u64::from(record.top);
    u64::from(record.kind) + ((u64::from(record.probe) + 256 * place) << 32)
}

fn restored(number: u64) -> Record {
    let high = (number >> 32) as u32;
    Record {
        kind: number as u32,
        index: high / 256 / 3,
        top: high / 256 % 3,
        probe: (high % 256) as u8,
    }
}

fn given(s: &State) -> wejumo::State {
    wejumo::State {
        closed: s.closed.into(),
        limit: s.limit,
        signals: s.signals,
        held: s.held,
        work: s.work,
        image: s.image,
        blocks: s.blocks,
        skip: s.skips[0].on.into(),
        skipped: s.skips[0].count,
        edition: s.edition,
        skip_1: s.skips[1].on.into(),
        skipped_1: s.skips[1].count,
    }
}

fn kept(s: wejumo::State) -> State {
    let skip = |on, count| Skip { on: on != 0, count };
    State {
        closed: s.closed != 0,
        limit: s.limit,
        signals: s.signals,
        held: s.held,
        work: s.work,
        image: s.image,
        blocks: s.blocks,
        edition: s.edition,
        skips: [skip(s.skip, s.skipped), skip(s.skip_1, s.skipped_1)],
    }
}

fn answer(said: Result<wejumo::Answer, Refusal>) -> Answer {
    match said {
        Err(Refusal(number)) => Answer::Refused(number),
        Ok(wejumo::Answer::Started) => Answer::Started,
        Ok(wejumo::Answer::Taken) => Answer::Taken,
        Ok(wejumo::Answer::Same) => Answer::Same,
        Ok(wejumo::Answer::Back) => Answer::Back,
        Ok(wejumo::Answer::Recorded) => Answer::Recorded,
        Ok(wejumo::Answer::Skipped) => Answer::Skipped,
        Ok(wejumo::Answer::Finished(total)) => Answer::Finished(total),
    }
}

#[repr(C)]
struct Outcome {
    answer: u32,
    value: u32,
    state: wejumo::State,
}

// The Rust interface gives a start the number of records, and an edition that there is; here they may be any other.
unsafe extern "C" {
    fn wejumo_start(
        state: wejumo::State,
        limit: u32,
        signals: u32,
        edition: u32,
        records: *mut u64,
        records_length: usize,
        times: *const u64,
        times_length: usize,
        image: *mut u8,
        image_length: usize,
    ) -> Outcome;
}

fn known(edition: u32) -> Option<Edition> {
    match edition {
        1 => Some(Edition::One),
        2 => Some(Edition::Two),
        _ => None,
    }
}

pub fn start_on(
    s: &mut State,
    limit: u32,
    signals: u32,
    edition: u32,
    records: &mut [u64],
    times: &mut [u64],
    image: &mut [u8],
) -> Answer {
    if let (Some(edition), true) = (known(edition), signals as usize == records.len()) {
        let mut recorder = Recorder::resume(given(s), records, times, &mut [], image);
        let said = recorder.start(limit, edition);
        *s = kept(recorder.state());
        return answer(said);
    }
    let (r, t, i) = (records.as_mut_ptr(), times.as_ptr(), image.as_mut_ptr());
    let (rn, tn, n) = (records.len(), times.len(), image.len());
    let done = unsafe { wejumo_start(given(s), limit, signals, edition, r, rn, t, tn, i, n) };
    *s = kept(done.state);
    if done.answer == 1 {
        Answer::Started
    } else {
        Answer::Refused(done.value)
    }
}

pub fn step_on(
    s: &mut State,
    records: &mut [u64],
    times: &mut [u64],
    work: &mut [u8],
    image: &mut [u8],
    step: &Step,
) -> Answer {
    let mut recorder = Recorder::resume(given(s), records, times, work, image);
    let said = match step {
        Step::Time(sender, time) => recorder.time(*sender, *time),
        Step::Change(sender, signal, Value::Vcd(text)) => recorder.vcd(*sender, *signal, text),
        Step::Change(sender, signal, Value::Raw(claim, bytes)) => recorder.raw(*sender, *signal, *claim, bytes),
        Step::Change(sender, signal, Value::Real(bits)) => recorder.real(*sender, *signal, *bits),
        Step::Finish => recorder.finish(),
    };
    *s = kept(recorder.state());
    answer(said)
}

fn on_records(m: &mut Memory, call: impl FnOnce(&mut Memory, &mut [u64]) -> Answer) -> Answer {
    let mut numbers: Vec<u64> = m.records.iter().map(stored).collect();
    let answer = call(m, &mut numbers);
    m.records = numbers.into_iter().map(restored).collect();
    answer
}

pub fn start(m: &mut Memory, limit: u32, signals: u32, edition: u32) -> Answer {
    on_records(m, |m, records| {
        start_on(
            &mut m.state,
            limit,
            signals,
            edition,
            records,
            &mut m.times,
            &mut m.image,
        )
    })
}

pub fn step(m: &mut Memory, step: &Step) -> Answer {
    on_records(m, |m, records| {
        step_on(&mut m.state, records, &mut m.times, &mut m.work, &mut m.image, step)
    })
}

// Reading. `Bytes` are any bytes, opened at each call; an `Image` was opened once.

/// What can be read.
#[derive(Clone, Copy)]
pub enum Source<'a> {
    Bytes(&'a [u8]),
    Opened(Image<'a>),
}

pub fn open(image: &[u8]) -> bool {
    Image::open(image).is_some()
}

/// An image in both ways, if it is one.
pub fn sources(image: &[u8]) -> Vec<Source<'_>> {
    let opened = Image::open(image).map(Source::Opened);
    [Source::Bytes(image)].into_iter().chain(opened).collect()
}

/// The total, or a refusal.
pub fn join(first: &[u8], second: &[u8], out: &mut [u8]) -> Result<u32, u32> {
    wejumo::join(first, second, out).map_err(|refusal| refusal.0)
}

fn class(states: States) -> u32 {
    states as u32
}

impl<'a> Source<'a> {
    /// The table's length, or a refusal.
    pub fn table(&self, out: &mut [u64]) -> Result<u32, u32> {
        let said = match self {
            Source::Bytes(image) => wejumo::table(image, out),
            Source::Opened(image) => image.table(out),
        };
        said.map_err(|refusal| refusal.0)
    }

    /// The number of entries and the class, or a refusal.
    pub fn load(&self, signal: u32, index: &mut [u32], bytes: &mut [u8]) -> Result<(u32, u32), u32> {
        let said = match self {
            Source::Bytes(image) => wejumo::load(image, signal, index, bytes),
            Source::Opened(image) => image.load(signal, index, bytes),
        };
        said.map(|Loaded { count, states }| (count, class(states)))
            .map_err(|refusal| refusal.0)
    }

    pub fn stream(&self, block: u32, signal: u32) -> &'a [u8] {
        match self {
            Source::Bytes(image) => wejumo::stream(image, block, signal),
            Source::Opened(image) => image.stream(block, signal),
        }
    }

    /// An entry's number, time and content, nothing, or a refusal.
    pub fn cursor(
        &self,
        kind: u32,
        signal: u32,
        time: u64,
        out: &mut [u8],
    ) -> Result<Option<(u32, u64, Content)>, u32> {
        let said = match self {
            Source::Bytes(image) => wejumo::cursor(image, signal, time, out),
            Source::Opened(image) => image.cursor(signal, time, out),
        };
        match said {
            Ok(Cursor::Found { number, time, value }) => Ok(Some((number, time, content(value, kind, out)))),
            Ok(Cursor::Nothing) => Ok(None),
            Err(Refusal(number)) => Err(number),
        }
    }
}

/// The class answered with symbols must be theirs.
fn content(value: wejumo::Value, kind: u32, out: &[u8]) -> Content {
    match value {
        wejumo::Value::Event => Content::Event,
        wejumo::Value::Real(bits) => Content::Real(bits),
        wejumo::Value::Vector(states) => {
            let symbols = Content::Symbols(out[..kind as usize].to_vec());
            assert_eq!(symbols.class(), class(states), "class of the symbols answered");
            symbols
        }
    }
}

fn states(class: u32) -> States {
    [States::Two, States::Four, States::Nine][class as usize]
}

/// The bytes that each entry takes.
pub fn entry_length(kind: u32, class: u32) -> usize {
    wejumo::entry_length(Kind::from_number(kind), states(class))
}

/// The content of an entry's bytes, if they are one.
pub fn entry_value(bytes: &[u8], kind: u32, class: u32, out: &mut [u8]) -> Result<Option<Content>, u32> {
    match wejumo::entry_value(bytes, Kind::from_number(kind), states(class), out) {
        Ok(Entry::Value(value)) => Ok(Some(content(value, kind, out))),
        Ok(Entry::NoEntry) => Ok(None),
        Err(Refusal(number)) => Err(number),
    }
}
