//! Single values and whole recordings as functions: what the Rust makes of the calls it is given.

use super::recordings::{
    Call, Kind, call, change, finish, hierarchy, shown, shown_values, start, time,
};
use super::*;

/// A value that a change gives.
#[derive(Clone, Debug, PartialEq)]
pub enum Value {
    Vcd(Vec<u8>),
    /// The claimed class and the bytes.
    Raw(u32, Vec<u8>),
    /// The 64 bits.
    Real(u64),
}

#[derive(Clone, Debug, PartialEq)]
pub enum Step {
    /// The sender, and when it was.
    Time(u32, u64),
    /// The sender, the signal and its value.
    Change(u32, u32, Value),
    Finish,
}

impl Step {
    /// A finish has none.
    pub fn sender(&self) -> Option<u32> {
        match self {
            Step::Time(sender, _) | Step::Change(sender, ..) => Some(*sender),
            Step::Finish => None,
        }
    }
}

pub const REAL: u32 = 0xffff_fffe;
pub const ABSENT: u32 = 0xffff_ffff;

fn kind_of(number: u32) -> Kind {
    match number {
        ABSENT => None,
        REAL => Some(SignalEncoding::Real),
        width => Some(SignalEncoding::BitVector(width)),
    }
}

/// A claim above 2 has no value in the Rust.
fn change_of(value: &Value) -> Option<Change> {
    Some(match value {
        Value::Vcd(text) => Change::Vcd(text.clone()),
        Value::Raw(claim, bytes) => {
            let states = [States::Two, States::Four, States::Nine];
            Change::Raw(*states.get(*claim as usize)?, bytes.clone())
        }
        Value::Real(bits) => Change::Real(f64::from_bits(*bits)),
    })
}

/// The answer to one change on a fresh signal: class, stream, and what the loader shows. Asked in two ways, which must agree.
pub fn single(kind: u32, index: u32, value: &Value) -> Option<(u8, Vec<u8>, String)> {
    let question = Question {
        tpe: kind_of(kind)?,
        time_idx: index,
        change: change_of(value)?,
    };
    let answer = ask_signal_encoder(&question);
    assert_eq!(answer, ask_encoder(&question), "two ways");
    answer.map(|a| (a.max_states as u8, a.stream, a.shown))
}

/// What the Rust loads of a signal that is not absent.
#[derive(Debug, PartialEq)]
pub struct Loaded {
    pub class: u32,
    pub indices: Vec<u32>,
    pub bytes: Vec<u8>,
    pub values: Vec<String>,
    pub signal: Signal,
}

/// What `get_offset` finds at a place of the table: the last of the entries there by its number, their place, and its value.
/// Nothing before the first entry. At one place stand fewer than 65,536 entries: `get_offset` counts in 16 bits.
pub fn shown_at(signal: &Signal, place: u32) -> Option<(u32, u32, String)> {
    let found = signal.get_offset(place)?;
    let last = found.elements - 1;
    let value = signal.get_value_at(&found, last);
    let number = found.start as u32 + u32::from(last);
    Some((number, signal.get_time_idx_at(&found), shown(value)))
}

/// What the Rust makes of a recording, or of recordings appended.
pub struct Whole {
    /// One for each time or change.
    pub answers: Vec<&'static str>,
    /// The Rust's blocks in our layout.
    pub image: Vec<u8>,
    /// By block and signal.
    pub streams: Vec<Vec<Vec<u8>>>,
    pub table: Vec<u64>,
    pub loads: Vec<Option<Loaded>>,
}

fn streams(block: &Block) -> Vec<Vec<u8>> {
    let stream = |signal| {
        let id = SignalRef::from_index(signal).unwrap();
        let Some((at, length)) = block.get_offset_and_length(id) else {
            return Vec::new();
        };
        let mut data = &block.data[at..at + length];
        leb128::read::unsigned(&mut data).unwrap();
        data.to_vec()
    };
    (0..block.offsets.len()).map(stream).collect()
}

fn load(reader: &Reader, id: SignalRef, signal: Signal) -> Loaded {
    let class = reader.collect_signal_meta_data(id).max_states;
    assert!(signal.max_states().is_none_or(|own| own == class));
    Loaded {
        class: class as u32,
        indices: signal.time_indices().to_vec(),
        bytes: entry_bytes(&signal).to_vec(),
        values: shown_values(&signal),
        signal,
    }
}

/// What `finish` answers is asked for all signals that are not absent.
fn loads(mut source: SignalSource, reader: &Reader, kinds: &[Kind]) -> Vec<Option<Loaded>> {
    let present = (0..kinds.len()).filter(|signal| kinds[*signal].is_some());
    let ids: Vec<SignalRef> = present
        .map(|signal| SignalRef::from_index(signal).unwrap())
        .collect();
    let signals = source.load_signals(&ids, &hierarchy(kinds), false);
    let mut out: Vec<Option<Loaded>> = kinds.iter().map(|_| None).collect();
    for (id, signal) in ids.iter().zip(signals) {
        out[id.index()] = Some(load(reader, *id, signal));
    }
    out
}

/// What the Rust holds after the calls of a recording, or after an append. It has not finished.
#[derive(Clone)]
pub struct Made {
    limit: u16,
    kinds: Vec<u32>,
    encoder: Encoder,
    /// One for each time or change; none after an append.
    answers: Vec<&'static str>,
}

fn made_by(limit: u16, kinds: &[u32], steps: &[Step]) -> Made {
    let parts: Vec<Kind> = kinds.iter().map(|kind| kind_of(*kind)).collect();
    let mut encoder = start(limit, &parts);
    let mut answers = Vec::new();
    for step in steps {
        answers.push(match step {
            Step::Time(_, now) => time(&mut encoder, *now),
            Step::Change(_, signal, value) => {
                let value = change_of(value).expect("a claim of 0, 1 or 2");
                change(&mut encoder, *signal as usize, &value)
            }
            Step::Finish => continue,
        });
    }
    Made {
        limit,
        kinds: kinds.to_vec(),
        encoder,
        answers,
    }
}

/// Nothing if the Rust panics.
fn unless_panics<T>(run: impl FnOnce() -> T) -> Option<T> {
    let mut out = None;
    (!panics(|| out = Some(run()))).then(|| out.unwrap())
}

/// Nothing if the Rust panics.
pub fn made(
    edition: u32,
    limit: u16,
    kinds: &[u32],
    probes: &[u8],
    steps: &[Step],
) -> Option<Made> {
    assert_eq!(edition, 1, "the Rust knows no other");
    assert!(of_probe_0(probes, steps), "the Rust knows no other");
    unless_panics(|| made_by(limit, kinds, steps))
}

/// Whether probe 0 sends all that is sent.
pub fn of_probe_0(probes: &[u8], steps: &[Step]) -> bool {
    let mut senders = steps.iter().filter_map(Step::sender);
    senders.all(|sender| sender == 0) && probes.iter().all(|probe| *probe == 0)
}

impl Made {
    /// `Encoder::append`. Nothing if the Rust panics.
    pub fn appended(&self, other: &Made) -> Option<Made> {
        let (mut first, second) = (self.clone(), other.clone());
        first.answers.clear();
        unless_panics(|| {
            first.encoder.append(second.encoder);
            first
        })
    }

    fn finished(self) -> Whole {
        let parts: Vec<Kind> = self.kinds.iter().map(|kind| kind_of(*kind)).collect();
        set_block_limit(self.limit);
        let reader = Reader {
            blocks: finish(self.encoder.clone()),
        };
        let (source, table) = self.encoder.finish();
        Whole {
            answers: self.answers,
            image: image(&self.kinds, &reader.blocks),
            streams: reader.blocks.iter().map(streams).collect(),
            table,
            loads: loads(source, &reader, &parts),
        }
    }

    /// Nothing if the Rust panics.
    pub fn whole(self) -> Option<Whole> {
        unless_panics(|| self.finished())
    }
}

/// Nothing if the Rust panics.
pub fn whole(
    edition: u32,
    limit: u16,
    kinds: &[u32],
    probes: &[u8],
    steps: &[Step],
) -> Option<Whole> {
    made(edition, limit, kinds, probes, steps)?.whole()
}

/// A recording's edition, limit, kinds, probes and calls.
pub type Sheet = (u32, u16, Vec<u32>, Vec<u8>, Vec<Step>);

fn value_of(change: Change) -> Value {
    match change {
        Change::Vcd(text) => Value::Vcd(text),
        Change::Raw(states, bytes) => Value::Raw(states as u32, bytes),
        Change::Real(real) => Value::Real(real.to_bits()),
    }
}

/// The recordings of a text in the form that `oracle recordings` reads, of any edition and any probes.
pub fn sheets(text: &str) -> Option<Vec<Sheet>> {
    let mut sheets: Vec<Sheet> = Vec::new();
    let (mut edition, mut probes, mut sender) = (1, None, 0);
    for line in text.lines() {
        let step = match call(line)? {
            Call::Edition(chosen) => {
                edition = chosen;
                continue;
            }
            Call::Probes(named) => {
                probes = Some(named);
                continue;
            }
            Call::Sender(named) => {
                sender = named;
                continue;
            }
            Call::Start(limit, kinds) => {
                let numbers: Vec<u32> = kinds.iter().map(recordings::kind_number).collect();
                let named = probes.clone().unwrap_or_else(|| vec![0; kinds.len()]);
                let named = Some(named).filter(|named| named.len() == kinds.len())?;
                sheets.push((edition, limit, numbers, named, Vec::new()));
                continue;
            }
            Call::Time(time) => Step::Time(sender, time),
            Call::Change(signal, change) => Step::Change(sender, signal as u32, value_of(change)),
            Call::Finish => Step::Finish,
        };
        sheets.last_mut()?.4.push(step);
    }
    Some(sheets)
}

/// Before the first question: panics print nothing, and standard output is kept for the answers.
pub fn quiet() -> std::fs::File {
    assert!(cfg!(debug_assertions), "some refusals are debug assertions");
    install_hook();
    recordings::answers_only()
}
