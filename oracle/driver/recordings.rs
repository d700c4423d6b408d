//! Whole recordings: every call goes to the real `Encoder`, and what it holds
//! afterwards is read off. Only recordings that the Rust takes can be asked.

use super::*;
use std::fs::File;
use std::os::fd::{AsFd, AsRawFd};

/// A signal's kind; absent signals exist in the Rust only as derived ones.
pub(super) type Kind = Option<SignalEncoding>;

/// What an image has for a kind.
pub(super) fn kind_number(kind: &Kind) -> u32 {
    match kind {
        Some(SignalEncoding::BitVector(width)) => *width,
        Some(SignalEncoding::Real) => 0xffff_fffe,
        None => 0xffff_ffff,
        Some(SignalEncoding::String) => unreachable!("no string signals here"),
    }
}

fn kind(word: &str) -> Option<Kind> {
    match word {
        "absent" => Some(None),
        "real" => Some(Some(SignalEncoding::Real)),
        _ => width(word, 0).map(Some),
    }
}

pub(super) enum Call {
    /// Of the skip rule, for the starts that follow.
    Edition(u32),
    /// Of the signals, for the starts that follow.
    Probes(Vec<u8>),
    /// Of the times and changes that follow.
    Sender(u32),
    Start(BlockTimeIdx, Vec<Kind>),
    Time(Time),
    Change(usize, Change),
    Finish,
}

pub(super) fn call(line: &str) -> Option<Call> {
    let words: Vec<&str> = line.split(' ').collect();
    Some(match words[..] {
        ["edition", number] => Call::Edition(number.parse().ok()?),
        ["probes", ..] => {
            let probes = words[1..].iter().map(|probe| probe.parse().ok());
            Call::Probes(probes.collect::<Option<Vec<u8>>>()?)
        }
        ["sender", number] => Call::Sender(number.parse().ok()?),
        ["start", signals, limit, ..] => {
            let kinds: Option<Vec<Kind>> = words[3..].iter().copied().map(kind).collect();
            let kinds = kinds.filter(|kinds| Ok(kinds.len()) == signals.parse())?;
            let limit = limit.parse().ok().filter(|limit| *limit >= 2)?;
            Call::Start(limit, kinds)
        }
        ["time", time] => Call::Time(time.parse().ok()?),
        ["vcd", signal, value] => Call::Change(signal.parse().ok()?, Change::Vcd(from_hex(value)?)),
        ["raw", signal, claim, value] => {
            let states = [States::Two, States::Four, States::Nine];
            let states = states.get(claim.parse::<usize>().ok()?)?;
            let change = Change::Raw(*states, from_hex(value)?);
            Call::Change(signal.parse().ok()?, change)
        }
        ["real", signal, bits] => {
            let bits = u64::from_be_bytes(from_hex(bits)?.try_into().ok()?);
            Call::Change(signal.parse().ok()?, Change::Real(f64::from_bits(bits)))
        }
        ["finish"] => Call::Finish,
        _ => return None,
    })
}

/// A hierarchy with these signals; an absent one stands there as a bit.
pub(super) fn hierarchy(kinds: &[Kind]) -> Hierarchy {
    let mut builder = HierarchyBuilder::default();
    for kind in kinds {
        builder.new_signal(kind.unwrap_or(SignalEncoding::BitVector(1)));
    }
    builder.finish()
}

pub(super) fn start(limit: BlockTimeIdx, kinds: &[Kind]) -> Encoder {
    set_block_limit(limit);
    let mut encoder = Encoder::new(&hierarchy(kinds));
    assert_eq!(encoder.signals.len(), kinds.len());
    for (signal, kind) in encoder.signals.iter_mut().zip(kinds) {
        match kind {
            Some(kind) => assert_eq!(signal.as_ref().unwrap().tpe, *kind),
            None => *signal = None,
        }
    }
    encoder
}

pub(super) fn time(encoder: &mut Encoder, time: Time) -> &'static str {
    let look = |e: &Encoder| {
        (
            e.blocks.len(),
            e.time_table.len(),
            e.time_table.last().copied(),
        )
    };
    let (before, skipping) = (look(encoder), encoder.skipping_time_step);
    encoder.time_change(time);
    let last = *encoder.time_table.last().unwrap();
    if look(encoder) != before {
        assert!(last == time && !encoder.skipping_time_step);
        "taken"
    } else if last == time {
        assert_eq!(encoder.skipping_time_step, skipping);
        "same"
    } else {
        assert!(encoder.skipping_time_step);
        "back"
    }
}

/// The stream bytes that wait for the next block.
fn waiting(encoder: &Encoder) -> usize {
    let signals = encoder.signals.iter().flatten();
    signals.map(|signal| signal.data.len()).sum()
}

pub(super) fn change(encoder: &mut Encoder, signal: usize, change: &Change) -> &'static str {
    let (before, skipping) = (waiting(encoder), encoder.skipping_time_step);
    let id = SignalRef::from_index(signal).unwrap();
    match change {
        Change::Vcd(value) => encoder.vcd_value_change(signal as u64, value),
        Change::Raw(states, bytes) => encoder.raw_value_change(id, bytes, *states),
        Change::Real(value) => encoder.real_change(id, *value),
    }
    assert_eq!(encoder.skipping_time_step, skipping);
    assert_eq!(waiting(encoder) == before, skipping, "not taken: a refusal");
    if skipping { "skipped" } else { "recorded" }
}

/// The blocks that `finish` hands to its `Reader`. It hides them, so they are
/// made from a clone by the call that `finish` begins with; the table that
/// `finish` answers must be theirs.
pub(super) fn finish(encoder: Encoder) -> Vec<Block> {
    let mut clone = encoder.clone();
    clone.finish_block();
    let (_, table) = encoder.finish();
    assert_eq!(Encoder::combine_time_tables(&clone.blocks), table);
    clone.blocks
}

/// The parts that the Rust holds, before any layout of ours.
fn write_blocks(out: &mut impl Write, kinds: &[Kind], blocks: &[Block]) {
    write!(out, "recording {}", block_limit()).unwrap();
    kinds
        .iter()
        .for_each(|kind| write!(out, " {}", kind_number(kind)).unwrap());
    writeln!(out).unwrap();
    for block in blocks {
        assert_eq!(block.start_time, block.time_table[0]);
        let times: Vec<String> = block.time_table.iter().map(Time::to_string).collect();
        writeln!(out, "block {}", times.join(" ")).unwrap();
        for (signal, offset) in block.offsets.iter().enumerate() {
            let Some(offset) = offset else { continue };
            let id = SignalRef::from_index(signal).unwrap();
            let (at, length) = block.get_offset_and_length(id).unwrap();
            let mut data = &block.data[at..at + length];
            let meta = leb128::read::unsigned(&mut data).unwrap();
            assert!(SignalEncodingMetaData::decode(meta).compression == Compression::None);
            let (offset, data) = (offset.0, hex(data));
            writeln!(
                out,
                "signal {signal} offset {offset} meta {meta} stream {data}"
            )
            .unwrap();
        }
    }
}

fn joined(words: impl Iterator<Item = String>) -> String {
    words.map(|word| " ".to_string() + &word).collect()
}

/// One entry as the Rust shows it.
pub(super) fn shown(value: SignalValueRef<'_>) -> String {
    match value {
        SignalValueRef::Event => "event".to_string(),
        SignalValueRef::BitVec(value) => {
            format!("{}:{}", value.states() as u8, value.bit_string())
        }
        SignalValueRef::Real(value) => format!("{:016x}", value.to_bits()),
        SignalValueRef::String(_) => unreachable!("no string signals here"),
    }
}

/// All entries as the Rust shows them.
pub(super) fn shown_values(signal: &Signal) -> Vec<String> {
    signal
        .iter_changes()
        .map(|(_, value)| shown(value))
        .collect()
}

/// What `get_offset` finds at a place of the table, FIRST+COUNT, or `-` for nothing.
fn offset(signal: &Signal, place: usize) -> String {
    signal
        .get_offset(place as TimeTableIdx)
        .map_or("-".to_string(), |at| {
            format!("{}+{}", at.start, at.elements)
        })
}

/// What the `SignalSource` that `finish` answers loads, absent signals left out.
/// It does not tell the class of an event or a real, so the class is asked of a
/// `Reader` on the same blocks; a vector's must be the one that its `Signal` has.
fn write_loads(out: &mut impl Write, kinds: &[Kind], encoder: Encoder) {
    let reader = Reader {
        blocks: finish(encoder.clone()),
    };
    let (mut source, table) = encoder.finish();
    let times = joined(table.iter().map(Time::to_string));
    writeln!(out, "times {}:{times}", table.len()).unwrap();
    let present = (0..kinds.len()).filter(|signal| kinds[*signal].is_some());
    let ids: Vec<SignalRef> = present
        .map(|signal| SignalRef::from_index(signal).unwrap())
        .collect();
    let signals = source.load_signals(&ids, &hierarchy(kinds), false);
    for (id, signal) in ids.iter().zip(&signals) {
        let class = reader.collect_signal_meta_data(*id).max_states;
        assert!(signal.max_states().is_none_or(|own| own == class));
        let indices = signal.time_indices();
        let (number, count) = (id.index(), indices.len());
        write!(
            out,
            "signal {number} entries {count} class {}:",
            class as u8
        )
        .unwrap();
        write!(out, "{}", joined(indices.iter().map(u32::to_string))).unwrap();
        let bytes = Some(hex(entry_bytes(signal))).filter(|bytes| !bytes.is_empty());
        writeln!(out, "{}", joined(bytes.into_iter())).unwrap();
        let values = joined(shown_values(signal).into_iter());
        writeln!(out, "signal {number} values:{values}").unwrap();
        let offsets = joined((0..table.len()).map(|place| offset(signal, place)));
        writeln!(out, "signal {number} offsets:{offsets}").unwrap();
    }
}

/// What is printed.
#[derive(Clone, Copy, PartialEq)]
pub enum Wanted {
    /// Each call's answer and each image.
    Answers,
    /// The blocks that the Rust made.
    Blocks,
    /// What the Rust loads of them.
    Loads,
}

/// A recording under way, and its skipped changes, which the Rust does not count.
struct Recording {
    kinds: Vec<Kind>,
    encoder: Encoder,
    skipped: u32,
}

fn answer(out: &mut impl Write, open: &mut Option<Recording>, call: Call, wanted: Wanted) {
    let word = match (call, open.as_mut()) {
        (Call::Start(limit, kinds), None) => {
            let encoder = start(limit, &kinds);
            *open = Some(Recording {
                kinds,
                encoder,
                skipped: 0,
            });
            "started"
        }
        (Call::Time(now), Some(recording)) => time(&mut recording.encoder, now),
        (Call::Change(signal, value), Some(recording)) => {
            let word = change(&mut recording.encoder, signal, &value);
            recording.skipped += u32::from(word == "skipped");
            word
        }
        (Call::Finish, Some(_)) => {
            let Recording {
                kinds,
                encoder,
                skipped,
            } = open.take().unwrap();
            if wanted == Wanted::Loads {
                return write_loads(out, &kinds, encoder);
            }
            let blocks = finish(encoder);
            if wanted == Wanted::Blocks {
                return write_blocks(out, &kinds, &blocks);
            }
            let kinds: Vec<u32> = kinds.iter().map(kind_number).collect();
            let image = image(&kinds, &blocks);
            writeln!(out, "finished {} skipped {skipped}", image.len()).unwrap();
            return writeln!(out, "image {}", hex(&image)).unwrap();
        }
        _ => panic!("recordings begin with a start and end with a finish"),
    };
    if wanted == Wanted::Answers {
        writeln!(out, "{word}").unwrap();
    }
}

unsafe extern "C" {
    fn dup2(from: i32, to: i32) -> i32;
}

/// Standard output for the answers alone: the Rust prints a warning there at
/// each time that goes back, and such lines are dropped.
pub(super) fn answers_only() -> File {
    let out = std::io::stdout().as_fd().try_clone_to_owned().unwrap();
    let nowhere = File::options().write(true).open("/dev/null").unwrap();
    assert_eq!(unsafe { dup2(nowhere.as_raw_fd(), 1) }, 1);
    out.into()
}

/// Runs the recordings on standard input.
pub fn recordings(wanted: Wanted) {
    assert!(cfg!(debug_assertions), "some refusals are debug assertions");
    let mut out = std::io::BufWriter::new(answers_only());
    let mut open = None;
    for (number, line) in std::io::stdin().lock().lines().enumerate() {
        match call(&line.unwrap()) {
            // the only edition, and the only probe, that the Rust knows
            Some(Call::Edition(1) | Call::Sender(0)) => {}
            Some(Call::Probes(probes)) if probes.iter().all(|probe| *probe == 0) => {}
            Some(Call::Edition(_) | Call::Sender(_) | Call::Probes(_)) | None => {
                out.flush().unwrap();
                eprintln!("oracle: line {} is no call", number + 1);
                std::process::exit(2);
            }
            Some(call) => answer(&mut out, &mut open, call, wanted),
        }
    }
    assert!(open.is_none(), "the last recording has no finish");
    out.flush().unwrap();
}

/// The bench sheet's recording, with an equal time in it, and one without signals.
pub(super) fn selftest() {
    let calls = "start 2 4 1 4\ntime 10\nvcd 0 31\nvcd 1 623178\ntime 20\ntime 20\n\
        raw 1 0 01\nfinish\nstart 0 2\ntime 1\nfinish";
    let expected = "started\ntaken\nrecorded\nrecorded\ntaken\nsame\nrecorded\n\
        finished 67 skipped 0\nimage \
        02000000040000000100000043000000010000000400000\
        02b000000020000000200000001000000030000000a0000\
        0000000000140000000000000000010101060401\n\
        started\ntaken\nfinished 36 skipped 0\nimage \
        00000000020000000100000024000000\
        1400000001000000000000000100000000000000\n";
    let (mut out, mut open) = (Vec::new(), None);
    for line in calls.split('\n') {
        answer(&mut out, &mut open, call(line).unwrap(), Wanted::Answers);
    }
    assert_eq!(String::from_utf8(out).unwrap(), expected);
}
