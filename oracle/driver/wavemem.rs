//! A child of the module `wavemem`: puts questions to the real encoder and the
//! real loader, whose private parts it sees, and prints their answers.

use super::*;
use crate::HierarchyBuilder;
use crate::signal::oracle::entry_bytes;
use std::io::{BufRead, Write};
use std::panic::{AssertUnwindSafe, catch_unwind};
use std::sync::LazyLock;
use std::sync::atomic::{AtomicBool, AtomicU16, Ordering::Relaxed};

mod parts;
mod recordings;
pub mod whole;
pub use recordings::{Wanted, recordings};

// The limit B, the number of times that a block holds.

static BLOCK_LIMIT: AtomicU16 = AtomicU16::new(BlockTimeIdx::MAX);

/// Stands in `time_change` where the sources have `BlockTimeIdx::MAX`.
pub(super) fn block_limit() -> BlockTimeIdx {
    BLOCK_LIMIT.load(Relaxed)
}

pub fn set_block_limit(limit: BlockTimeIdx) {
    BLOCK_LIMIT.store(limit, Relaxed);
}

// Panics. Those of a change are answers and print nothing; all others are
// failures of the driver and end the program.

static EXPECTED: AtomicBool = AtomicBool::new(false);

fn install_hook() {
    let loud = std::panic::take_hook();
    std::panic::set_hook(Box::new(move |info| {
        if !EXPECTED.load(Relaxed) {
            loud(info);
        }
    }));
}

fn panics(change: impl FnOnce()) -> bool {
    EXPECTED.store(true, Relaxed);
    let result = catch_unwind(AssertUnwindSafe(change));
    EXPECTED.store(false, Relaxed);
    result.is_err()
}

// One change on a fresh signal.

enum Change {
    Vcd(Vec<u8>),
    Raw(States, Vec<u8>),
    Real(f64),
}

struct Question {
    tpe: SignalEncoding,
    time_idx: TimeTableIdx,
    change: Change,
}

#[derive(Debug, PartialEq)]
struct Answer {
    max_states: States,
    stream: Vec<u8>,
    shown: String,
}

fn only_signal() -> SignalRef {
    SignalRef::from_index(0).unwrap()
}

/// The content of the only entry; its time index must be the question's.
fn show(signal: &Signal, time_idx: TimeTableIdx) -> String {
    let entries: Vec<_> = signal.iter_changes().collect();
    assert_eq!(entries.len(), 1, "number of loaded entries");
    assert_eq!(entries[0].0, time_idx, "loaded time index");
    match entries[0].1 {
        SignalValueRef::Event => "event".to_string(),
        SignalValueRef::BitVec(value) => value.bit_string(),
        SignalValueRef::Real(value) => format!("{:016x}", value.to_bits()),
        SignalValueRef::String(_) => unreachable!("no string signals here"),
    }
}

/// Asks one `SignalEncoder`, then `load_compressed_signal`.
fn ask_signal_encoder(question: &Question) -> Option<Answer> {
    let Question { tpe, time_idx, .. } = *question;
    let mut encoder = SignalEncoder::new(tpe, 0);
    let refused = match &question.change {
        Change::Vcd(value) => panics(|| encoder.add_vcd_change(time_idx, value)),
        Change::Raw(states, bytes) => {
            let SignalEncoding::BitVector(width) = tpe else {
                unreachable!("raw changes are for vectors")
            };
            // The last bytes count. With too few bytes there is nothing to call.
            match bytes.len().checked_sub(states.bytes_required(width)) {
                None => true,
                Some(extra) => {
                    let value = BitVecRef::new(*states, width, &bytes[extra..]);
                    panics(|| encoder.add_n_bit_change(time_idx, value))
                }
            }
        }
        Change::Real(value) => panics(|| encoder.add_real_change(time_idx, *value)),
    };
    if refused {
        return None;
    }
    let max_states = encoder.max_states;
    let uncompressed = SignalEncodingMetaData::uncompressed(max_states);
    let meta = SignalMetaData {
        max_states,
        blocks: vec![(0, &encoder.data, uncompressed)],
    };
    let shown = show(&load_compressed_signal(meta, only_signal(), tpe), time_idx);
    Some(Answer {
        max_states,
        stream: encoder.data,
        shown,
    })
}

static TIMES: LazyLock<Vec<Time>> = LazyLock::new(|| (0..65_535).collect());

/// Asks the whole `Encoder`, then a `Reader` on its block.
fn ask_encoder(question: &Question) -> Option<Answer> {
    let Question { tpe, time_idx, .. } = *question;
    let mut encoder = Encoder {
        time_table: TIMES[..=time_idx as usize].to_vec(),
        signals: vec![Some(SignalEncoder::new(tpe, 0))],
        has_new_data: true,
        skipping_time_step: false,
        blocks: Vec::new(),
    };
    let id = only_signal();
    let refused = match &question.change {
        Change::Vcd(value) => panics(|| encoder.vcd_value_change(0, value)),
        Change::Raw(states, bytes) => panics(|| encoder.raw_value_change(id, bytes, *states)),
        Change::Real(value) => panics(|| encoder.real_change(id, *value)),
    };
    if refused {
        return None;
    }
    encoder.finish_block();
    let reader = Reader {
        blocks: encoder.blocks,
    };
    let shown = show(&reader.load_signal(id, tpe), time_idx);
    // one signal: the block's data are its class byte and its stream
    let data = &reader.blocks[0].data;
    Some(Answer {
        max_states: States::try_from_primitive(data[0]).unwrap(),
        stream: data[1..].to_vec(),
        shown,
    })
}

// Lines.

fn hex(bytes: &[u8]) -> String {
    bytes.iter().map(|byte| format!("{byte:02x}")).collect()
}

fn from_hex(digits: &str) -> Option<Vec<u8>> {
    if !digits.len().is_multiple_of(2) || !digits.bytes().all(|b| b.is_ascii_hexdigit()) {
        return None;
    }
    (0..digits.len())
        .step_by(2)
        .map(|at| u8::from_str_radix(&digits[at..at + 2], 16).ok())
        .collect()
}

fn width(field: &str, least: u32) -> Option<SignalEncoding> {
    let width = field.parse().ok()?;
    (least..=65_536)
        .contains(&width)
        .then_some(SignalEncoding::BitVector(width))
}

/// A block holds at most 65,535 times.
fn time_idx(field: &str) -> Option<TimeTableIdx> {
    field.parse().ok().filter(|idx| *idx < 65_535)
}

/// The answer to one line, or nothing if the line is no question.
fn answer(line: &str) -> Option<String> {
    let fields: Vec<&str> = line.split(' ').collect();
    let question = match fields[..] {
        ["v", w, d, value] => Question {
            tpe: width(w, 0)?,
            time_idx: time_idx(d)?,
            change: Change::Vcd(from_hex(value)?),
        },
        ["r", w, d, claim, value] => {
            let (tpe, time_idx, bytes) = (width(w, 1)?, time_idx(d)?, from_hex(value)?);
            let states = match claim.parse::<u8>().ok()? {
                0 => States::Two,
                1 => States::Four,
                2 => States::Nine,
                // No such value exists, so the sources cannot be asked.
                _ => return Some("bad".to_string()),
            };
            Question {
                tpe,
                time_idx,
                change: Change::Raw(states, bytes),
            }
        }
        ["f", d, bits] => Question {
            tpe: SignalEncoding::Real,
            time_idx: time_idx(d)?,
            change: Change::Real(f64::from_bits(u64::from_be_bytes(
                from_hex(bits)?.try_into().ok()?,
            ))),
        },
        _ => return None,
    };
    let answer = ask_signal_encoder(&question);
    assert_eq!(answer, ask_encoder(&question), "two ways for {line:?}");
    Some(match answer {
        None => "bad".to_string(),
        Some(a) => format!("{} {} {}", a.max_states as u8, hex(&a.stream), a.shown),
    })
}

/// Answers the questions on standard input, line by line.
pub fn values() {
    assert!(cfg!(debug_assertions), "some refusals are debug assertions");
    install_hook();
    let mut out = std::io::BufWriter::new(std::io::stdout().lock());
    for (number, line) in std::io::stdin().lock().lines().enumerate() {
        match answer(&line.unwrap()) {
            Some(answer) => writeln!(out, "{answer}").unwrap(),
            None => {
                out.flush().unwrap();
                eprintln!("oracle: line {} is no question", number + 1);
                std::process::exit(2);
            }
        }
    }
    out.flush().unwrap();
}

// The test of the driver itself, its stand-ins and the two edits.

/// An image as the papers of this software lay it out.
fn image(kinds: &[u32], blocks: &[Block]) -> Vec<u8> {
    let put = |out: &mut Vec<u8>, value: usize| out.extend((value as u32).to_le_bytes());
    let mut tail = Vec::new();
    for block in blocks {
        let (times, signals) = (block.time_table.len(), block.offsets.len());
        let bytes = 12 + 4 * signals + 8 * times + block.data.len();
        put(&mut tail, bytes);
        put(&mut tail, times);
        put(&mut tail, signals);
        for offset in &block.offsets {
            put(&mut tail, offset.map_or(0, |o| o.0.get() as usize));
        }
        for time in &block.time_table {
            tail.extend(time.to_le_bytes());
        }
        tail.extend(&block.data);
    }
    let mut out = Vec::new();
    put(&mut out, kinds.len());
    put(&mut out, usize::from(block_limit()));
    put(&mut out, blocks.len());
    put(&mut out, 16 + 4 * kinds.len() + tail.len());
    kinds.iter().for_each(|kind| put(&mut out, *kind as usize));
    out.extend(tail);
    out
}

fn encoder_for(widths: &[u32]) -> Encoder {
    let mut builder = HierarchyBuilder::default();
    for width in widths {
        builder.new_signal(SignalEncoding::BitVector(*width));
    }
    Encoder::new(&builder.finish())
}

/// The entries of one signal that takes the VCD values one after the other.
fn loaded(width: u32, values: &[&str]) -> String {
    let mut encoder = encoder_for(&[width]);
    for (time, value) in values.iter().enumerate() {
        encoder.time_change(time as u64);
        encoder.vcd_value_change(0, value.as_bytes());
    }
    encoder.finish_block();
    let reader = Reader {
        blocks: encoder.blocks,
    };
    let signal = reader.load_signal(only_signal(), SignalEncoding::BitVector(width));
    hex(entry_bytes(&signal))
}

pub fn selftest() {
    assert!(cfg!(debug_assertions));
    assert!(SKIP_COMPRESSION);
    install_hook();

    // LEB128: the examples that DWARF publishes, one more, and where lengths change
    for (value, bytes) in [
        (0, "00"),
        (2, "02"),
        (127, "7f"),
        (128, "8001"),
        (129, "8101"),
        (12857, "b964"),
        (16383, "ff7f"),
        (16384, "808001"),
        (624485, "e58e26"),
        (u64::MAX, "ffffffffffffffffff01"),
    ] {
        let mut out = Vec::new();
        assert_eq!(leb128::write::unsigned(&mut out, value).unwrap(), out.len());
        assert_eq!(hex(&out), bytes);
        assert_eq!(leb128::read::unsigned(&mut &out[..]).unwrap(), value);
        assert!(leb128::read::unsigned(&mut &out[..out.len() - 1]).is_err());
    }
    let too_large = from_hex("ffffffffffffffffff02").unwrap();
    assert!(leb128::read::unsigned(&mut &too_large[..]).is_err());

    // questions and answers
    for (line, expected) in [
        ("v 1 0 ", "0 00 0"),
        ("v 1 0 62", "0 00 0"),
        ("v 1 0 623178", "1 02 x"),
        ("v 1 0 42", "bad"),
        ("v 1 8 31", "0 8101 1"),
        ("v 4 0 3178", "1 0106 001x"),
        ("v 3 0 312d78", "2 020182 1-x"),
        ("v 2 0 3062", "bad"),
        ("v 2 0 68", "bad"),
        ("v 2 0 62", "bad"),
        ("v 2 0 313031", "bad"),
        ("v 0 128 31", "0 8001 event"),
        ("v 0 0 3131", "bad"),
        ("r 2 0 2 ffff11", "2 0003 11"),
        ("r 2 0 2 19", "bad"),
        ("r 5 0 2 0000", "bad"),
        ("r 2 0 3 0000", "bad"),
        (
            "f 1 7ff0000000000001",
            "0 01010000000000f07f 7ff0000000000001",
        ),
    ] {
        assert_eq!(answer(line).as_deref(), Some(expected), "{line:?}");
    }

    // entries of loaded signals
    assert_eq!(
        loaded(3, &["1-x", "101", "1x0"]),
        "8182".to_owned() + "0005" + "4018"
    );
    assert_eq!(loaded(2, &["1x", "11"]), "46".to_owned() + "03");

    // the limit B
    set_block_limit(2);
    let mut encoder = encoder_for(&[1]);
    (1..=3).for_each(|time| encoder.time_change(time));
    encoder.finish_block();
    let tables: Vec<_> = encoder.blocks.iter().map(|b| &b.time_table[..]).collect();
    assert_eq!(tables, [[1, 2], [2, 3]]);

    // a whole image
    set_block_limit(4);
    let widths = [1, 4];
    let mut encoder = encoder_for(&widths);
    encoder.time_change(10);
    encoder.vcd_value_change(0, b"1");
    encoder.vcd_value_change(1, b"b1x");
    encoder.time_change(20);
    encoder.vcd_value_change(1, b"b0001");
    encoder.finish_block();
    let expected = "02000000 04000000 01000000 43000000 01000000 04000000 \
        2B000000 02000000 02000000 01000000 03000000 \
        0A00000000000000 1400000000000000 00 01 01 01 06 04 01";
    let expected = expected.replace(' ', "").to_lowercase();
    assert_eq!(hex(&image(&widths, &encoder.blocks)), expected);

    parts::selftest();
    recordings::selftest();

    println!("selftest passed");
}
