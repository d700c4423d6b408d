//! Where the Rust parts from document 01, and at a value, skips and joins from document 02, each place by its smallest input. docs/DIFFERENCES.md has the tables;
//! `selftest` runs them.

use super::*;

/// Whether a call panicked, the signal's stream and its top class.
type Left = (bool, String, u8);

fn encoder(tpe: SignalEncoding, times: usize) -> Encoder {
    Encoder {
        time_table: TIMES[..times].to_vec(),
        signals: vec![Some(SignalEncoder::new(tpe, 0))],
        has_new_data: false,
        skipping_time_step: false,
        blocks: Vec::new(),
    }
}

fn left(tpe: SignalEncoding, times: usize, change: Change) -> Left {
    let mut encoder = encoder(tpe, times);
    let id = only_signal();
    let panicked = match change {
        Change::Vcd(value) => panics(|| encoder.vcd_value_change(0, &value)),
        Change::Raw(states, bytes) => panics(|| encoder.raw_value_change(id, &bytes, states)),
        Change::Real(value) => panics(|| encoder.real_change(id, value)),
    };
    let signal = encoder.signals[0].as_ref().unwrap();
    (panicked, hex(&signal.data), signal.max_states as u8)
}

fn vcd(text: &str) -> Change {
    Change::Vcd(text.as_bytes().to_vec())
}

const EVENT: SignalEncoding = SignalEncoding::BitVector(0);

/// What one call at time 0 leaves: whether it panics, the stream, the top class.
fn expect(
    what: &str,
    tpe: SignalEncoding,
    change: Change,
    (panics, stream, class): (bool, &str, u8),
) {
    assert_eq!(
        left(tpe, 1, change),
        (panics, stream.to_string(), class),
        "{what}"
    );
}

fn calls() {
    let (bit, pair, real) = (
        SignalEncoding::BitVector(1),
        SignalEncoding::BitVector(2),
        SignalEncoding::Real,
    );
    let raw = |states: States, bytes: &[u8]| Change::Raw(states, bytes.to_vec());
    let one = "00000000000000f03f"; // 1.0 at time index 0
    expect("a real on width 1", bit, Change::Real(1.0), (false, one, 0));
    expect(
        "a real on an event",
        EVENT,
        Change::Real(1.0),
        (false, one, 0),
    );
    expect("raw on a real", real, raw(States::Two, &[]), (false, "", 0));
    expect(
        "raw on an event",
        EVENT,
        raw(States::Two, &[]),
        (true, "00", 0),
    );
    expect("VCD on a real", real, vcd("r1"), (false, one, 0));
    expect("VCD on a real, not decimal", real, vcd("1"), (true, "", 0));
    expect("width 2, q", pair, vcd("q"), (true, "", 0));
    expect("width 2, empty", pair, vcd(""), (true, "", 0));
    for text in ["u", "W", "-", "b-", "0bw"] {
        expect(text, pair, vcd(text), (true, "", 0));
    }
    expect("an event of two bytes", EVENT, vcd("11"), (true, "", 0));
    expect("raw, no byte", bit, raw(States::Two, &[]), (true, "", 0));
    expect("raw symbol 9", bit, raw(States::Nine, &[9]), (true, "", 2));
    expect(
        "raw symbol 9, width 2",
        pair,
        raw(States::Nine, &[9]),
        (true, "", 2),
    );
    assert!(left(bit, 0, vcd("1")).0, "a change before any time");
}

/// Calls that document 01 refuses for a number: start takes any width, and a signal that is not there panics.
fn numbers() {
    let wide = left(SignalEncoding::BitVector(65_537), 1, vcd("1"));
    assert!(!wide.0, "width 65,537");
    let mut encoder = encoder(SignalEncoding::BitVector(1), 1);
    assert!(
        panics(|| encoder.vcd_value_change(1, b"1")),
        "signal 1 of 1"
    );
    encoder.signals[0] = None;
    assert!(panics(|| encoder.vcd_value_change(0, b"1")), "absent");
    assert!(panics(|| _ = decode_vcd_bit_vec_change(0, b"")), "width 0");
}

fn loaded(tpe: SignalEncoding, stream: &[u8]) -> Signal {
    let meta = SignalMetaData {
        max_states: States::Two,
        blocks: vec![(0, stream, SignalEncodingMetaData::uncompressed(States::Two))],
    };
    load_compressed_signal(meta, only_signal(), tpe)
}

/// Foreign bytes, the Rust's own lookup, and equality of reals.
fn reading() {
    let three = loaded(SignalEncoding::BitVector(2), &[3, 0]);
    assert_eq!(hex(entry_bytes(&three)), "00", "class bits 3 load as Two");
    let top_bits = loaded(SignalEncoding::BitVector(2), &[0, 0x31]);
    assert_eq!(hex(entry_bytes(&top_bits)), "31", "unused top bits stay");
    let twice = loaded(EVENT, &[0, 0]).get_offset(0).unwrap();
    assert_eq!(
        (twice.start, twice.elements),
        (0, 2),
        "the first of two entries at one time"
    );
    let many = loaded(EVENT, &[0; 65_536]).get_offset(0).unwrap();
    assert_eq!((many.start, many.elements), (0, 0), "a count of 16 bits");
    let zeros = [0, 0, 0, 0, 0, 0, 0, 0, 0, 0, 0, 0, 0, 0, 0, 0, 0, 0x80];
    let zeros = loaded(SignalEncoding::Real, &zeros);
    let values: Vec<_> = zeros.iter_changes().map(|(_, value)| value).collect();
    assert!(
        values.len() == 2 && values[0] == values[1],
        "0.0 and -0.0: two entries, yet equal"
    );
}

fn timed(tpe: SignalEncoding, times: &[Time]) -> Encoder {
    let mut encoder = encoder(tpe, 0);
    times.iter().for_each(|time| encoder.time_change(*time));
    encoder
}

/// Where edition 2 of document 02's skip rule parts from edition 1, which is the Rust's.
fn returning() {
    let skips = |times: &[Time]| timed(SignalEncoding::BitVector(1), times).skipping_time_step;
    assert!(skips(&[2, 1, 2]), "an equal time leaves the skip");
    assert!(!skips(&[2, 1, 3]), "a larger time ends it");
}

/// Where document 02's two probes part from the Rust: it has one skip for all.
fn one_sender() {
    let mut encoder = timed(SignalEncoding::BitVector(1), &[2, 1]);
    encoder.vcd_value_change(0, b"1");
    let signal = encoder.signals[0].as_ref().unwrap();
    assert!(signal.data.is_empty(), "a skip, whoever sent the time");
}

/// What document 02 refuses at a join with 15 and 16, and what it takes.
fn appending() {
    let bit = SignalEncoding::BitVector(1);
    let panics_at = |first: &[Time], second: &[Time]| {
        let mut first = timed(bit, first);
        let panicked = panics(|| first.append(timed(bit, second)));
        (panicked, first.blocks.len())
    };
    assert_eq!(panics_at(&[], &[5]), (true, 0), "the first has no block");
    assert_eq!(panics_at(&[], &[]), (true, 0), "neither has a block");
    assert_eq!(panics_at(&[5], &[4]), (true, 1), "order, the first cut");
    assert_eq!(panics_at(&[5], &[5]), (false, 2), "an equal time");
    assert_eq!(panics_at(&[5], &[]), (false, 1), "the second is empty");

    let mut first = timed(bit, &[1]);
    first.append(timed(bit, &[5]));
    first.time_change(2);
    assert_eq!(first.time_table, [1, 2], "goes on at the first's end");
    assert!(panics(|| _ = first.finish()), "a table that falls");
}

/// What document 02 refuses with 14: signals are not compared.
fn appending_unlike() {
    let bit = SignalEncoding::BitVector(1);
    let mut events = timed(EVENT, &[1]);
    let mut other = timed(bit, &[1]);
    other.vcd_value_change(0, b"1");
    events.append(other);
    let reader = Reader {
        blocks: events.blocks,
    };
    let shown = reader.load_signal(only_signal(), EVENT);
    assert_eq!(
        shown.time_indices(),
        [1],
        "a bit read as an event, past the table"
    );

    let mut one = timed(bit, &[1]);
    let mut none = timed(bit, &[]);
    none.signals.clear();
    none.time_change(1);
    one.append(none);
    let reader = Reader { blocks: one.blocks };
    let load = || _ = reader.load_signal(only_signal(), bit);
    assert!(panics(load), "a block without the signal");
}

pub(super) fn selftest() {
    calls();
    numbers();
    reading();
    returning();
    one_sender();
    appending();
    appending_unlike();
}
