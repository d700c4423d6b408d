//! The recording of the bench sheet, refusals, editions of the skip rule, reads with and without opening, and joins; two senders: probes.rs.

use crate::*;

mod probes;

const EDITIONS: [Edition; 2] = [Edition::One, Edition::Two];

/// Widths 1 and 4, B 4; time 10, "1", "b1x"; time 20, second "b0001"; finish.
const SHEET: &str =
    "02000000 04000000 01000000 43000000 01000000 04000000 2B000000 02000000 02000000 01000000 03000000 \
                     0A00000000000000 1400000000000000 00 01 01 01 06 04 01";

fn bytes_of(text: &str) -> Vec<u8> {
    let digits: String = text.split_whitespace().collect();
    (0..digits.len())
        .step_by(2)
        .map(|i| u8::from_str_radix(&digits[i..i + 2], 16).unwrap())
        .collect()
}

fn sheet() -> Vec<u8> {
    sheet_by(Edition::One)
}

fn sheet_by(edition: Edition) -> Vec<u8> {
    let (mut records, mut times) = ([Kind::Vector(1).record(0), Kind::Vector(4).record(0)], [0; 4]);
    let (mut work, mut image) = ([0; 64], [0; 80]);
    let mut recorder = Recorder::new(&mut records, &mut times, &mut work, &mut image);
    assert_eq!(recorder.start(4, edition), Ok(Answer::Started));
    assert_eq!(recorder.vcd(0, 0, b"1"), Err(Refusal(3)));
    assert_eq!(recorder.time(0, 10), Ok(Answer::Taken));
    assert_eq!(recorder.vcd(0, 0, b"1"), Ok(Answer::Recorded));
    assert_eq!(recorder.vcd(0, 1, b"b1x"), Ok(Answer::Recorded));
    assert_eq!(recorder.vcd(0, 2, b"1"), Err(Refusal(4)));
    assert_eq!(recorder.real(0, 1, 0), Err(Refusal(5)));
    assert_eq!(recorder.raw(0, 1, 3, &[0]), Err(Refusal(6)));
    assert_eq!(recorder.time(0, 20), Ok(Answer::Taken));
    assert_eq!(recorder.time(0, 20), Ok(Answer::Same));
    assert_eq!(recorder.vcd(0, 1, b"b0001"), Ok(Answer::Recorded));
    assert_eq!(recorder.finish(), Ok(Answer::Finished(67)));
    assert_eq!(recorder.finish(), Err(Refusal(2)));
    recorder.image().to_vec()
}

#[test]
fn bench_sheet() {
    for edition in EDITIONS {
        assert_eq!(sheet_by(edition), bytes_of(SHEET));
    }
}

#[test]
fn opened_once() {
    let bytes = sheet();
    let image = Image::open(&bytes).unwrap();
    assert_eq!((image.signals(), image.blocks(), image.times()), (2, 1, 2));
    assert_eq!(
        [image.kind(0), image.kind(1), image.kind(2)],
        [Kind::Vector(1), Kind::Vector(4), Kind::Absent]
    );
    let mut times = [7; 3];
    assert_eq!(image.table(&mut times), Ok(2));
    assert_eq!(times, [10, 20, 7]);
    assert_eq!(image.table(&mut times[..1]), Err(Refusal(9)));
    let (mut index, mut entries) = ([9; 3], [9; 6]);
    assert_eq!(
        image.load(1, &mut index, &mut entries),
        Ok(Loaded {
            count: 2,
            states: States::Four
        })
    );
    assert_eq!((index, entries), ([0, 1, 9], [0x40, 0x06, 0x00, 0x01, 9, 9]));
    assert_eq!(image.load(2, &mut index, &mut entries), Err(Refusal(4)));
    assert_eq!(image.stream(0, 1), [0x01, 0x06, 0x04, 0x01]);
    assert!(image.stream(1, 0).is_empty());
}

/// The cursor with so many symbols lent, and these afterwards; with and without opening it answers alike.
fn at(bytes: &[u8], signal: u32, time: u64, room: usize) -> (Result<Cursor, Refusal>, Vec<u8>) {
    let (mut symbols, mut others) = (vec![9; room], vec![9; room]);
    let answer = Image::open(bytes).unwrap().cursor(signal, time, &mut symbols);
    assert_eq!(cursor(bytes, signal, time, &mut others), answer);
    assert_eq!(others, symbols);
    (answer, symbols)
}

fn found(number: u32, time: u64, value: Value) -> Result<Cursor, Refusal> {
    Ok(Cursor::Found { number, time, value })
}

#[test]
fn nothing_before_the_first_change() {
    let bytes = sheet();
    for (signal, width, time) in [(0, 1, 0), (0, 1, 9), (1, 4, 0), (1, 4, 9)] {
        for room in [width, width + 1] {
            assert_eq!(at(&bytes, signal, time, room), (Ok(Cursor::Nothing), vec![9; room]));
        }
        assert_eq!(
            at(&bytes, signal, time, width - 1),
            (Err(Refusal(9)), vec![9; width - 1])
        );
    }
    for time in [10, 19] {
        let first = found(0, 10, Value::Vector(States::Four));
        assert_eq!(at(&bytes, 1, time, 5), (first, vec![0, 0, 1, 2, 9]));
        assert_eq!(at(&bytes, 1, time, 3), (Err(Refusal(9)), vec![9; 3]));
    }
    let second = found(1, 20, Value::Vector(States::Two));
    assert_eq!(at(&bytes, 1, 20, 4), (second, vec![0, 0, 0, 1]));
    assert_eq!(at(&bytes, 1, u64::MAX, 4), (second, vec![0, 0, 0, 1]));
}

/// B 2. Time 3; time 5, an event twice; time 7, after a cut, a real and a vector twice; a vector of width 1 without changes.
#[test]
fn nothing_before_a_first_change_in_a_later_block() {
    let bits = 0x7FF0_0000_0000_0001;
    let bytes = recorded(&[0, numbers::REAL, 2, 1], 2, |r| {
        r.time(0, 3)?;
        r.time(0, 5)?;
        r.vcd(0, 0, b"1")?;
        r.vcd(0, 0, b"1")?;
        r.time(0, 7)?;
        r.real(0, 1, bits)?;
        r.vcd(0, 2, b"0x")?;
        r.vcd(0, 2, b"11")
    });
    for time in [0, 3, 4] {
        assert_eq!(at(&bytes, 0, time, 0), (Ok(Cursor::Nothing), vec![]));
    }
    assert_eq!(at(&bytes, 0, 5, 1), (found(1, 5, Value::Event), vec![9]));
    for time in [0, 5, 6] {
        assert_eq!(at(&bytes, 1, time, 0), (Ok(Cursor::Nothing), vec![]));
        assert_eq!(at(&bytes, 2, time, 2), (Ok(Cursor::Nothing), vec![9, 9]));
    }
    assert_eq!(at(&bytes, 1, 7, 1), (found(0, 7, Value::Real(bits)), vec![9]));
    let last = found(1, 7, Value::Vector(States::Two));
    assert_eq!(at(&bytes, 2, 7, 3), (last, vec![1, 1, 9]));
    for time in [0, 7, u64::MAX] {
        assert_eq!(at(&bytes, 3, time, 1), (Ok(Cursor::Nothing), vec![9]));
        assert_eq!(at(&bytes, 3, time, 0), (Err(Refusal(9)), vec![]));
    }
}

#[test]
fn entries() {
    let kind = Kind::Vector(4);
    assert_eq!(entry_length(kind, States::Four), 2);
    let mut symbols = [9; 4];
    assert_eq!(
        entry_value(&[0x40, 0x06], kind, States::Four, &mut symbols),
        Ok(Entry::Value(Value::Vector(States::Four)))
    );
    assert_eq!(symbols, [0, 0, 1, 2]);
    assert_eq!(
        entry_value(&[0x40], kind, States::Four, &mut symbols),
        Ok(Entry::NoEntry)
    );
    assert_eq!(entry_value(&[], kind, States::Four, &mut []), Err(Refusal(9)));
    let bits = 0x7FF0_0000_0000_0001_u64;
    assert_eq!(
        entry_value(&bits.to_le_bytes(), Kind::Real, States::Two, &mut []),
        Ok(Entry::Value(Value::Real(bits)))
    );
    assert_eq!(
        entry_value(&[], Kind::Vector(0), States::Two, &mut []),
        Ok(Entry::Value(Value::Event))
    );
}

#[test]
fn any_bytes_answer_as_an_image_does() {
    let good = sheet();
    let image = Image::open(&good).unwrap();
    for signal in 0..3 {
        let (mut a, mut b) = (([0; 2], [0; 4]), ([0; 2], [0; 4]));
        assert_eq!(
            load(&good, signal, &mut a.0, &mut a.1),
            image.load(signal, &mut b.0, &mut b.1)
        );
        assert_eq!(a, b);
        assert_eq!(stream(&good, 0, signal), image.stream(0, signal));
        let (mut s, mut t) = ([0; 4], [0; 4]);
        for time in [9, 20] {
            assert_eq!(cursor(&good, signal, time, &mut s), image.cursor(signal, time, &mut t));
            assert_eq!(s, t);
        }
    }
    assert_eq!(table(&good, &mut [0; 2]), image.table(&mut [0; 2]));
    for i in 0..good.len() {
        let mut bad = good.clone();
        bad[i] ^= 0x80;
        if Image::open(&bad).is_none() {
            assert_eq!(table(&bad, &mut [0; 8]), Err(Refusal(11)));
            assert_eq!(load(&bad, 0, &mut [0; 8], &mut [0; 8]), Err(Refusal(11)));
            assert_eq!(cursor(&bad, 0, 0, &mut [0; 8]), Err(Refusal(11)));
            assert!(stream(&bad, 0, 0).is_empty());
        }
    }
    assert!(Image::open(&[]).is_none());
}

#[test]
fn refusals_keep_every_number() {
    for flag in [1, 7, u32::MAX] {
        // distinct numbers, so that a field in another's place shows
        let state = State {
            closed: flag,
            limit: 21,
            signals: 22,
            held: 23,
            work: u64::MAX,
            image: 24,
            blocks: 25,
            skip: !flag,
            skipped: 26,
            edition: 27,
            skip_1: 28,
            skipped_1: 29,
        };
        let (mut records, mut times, mut work, mut image) = ([5; 1], [6; 2], [7; 3], [8; 4]);
        let mut recorder = Recorder::resume(state, &mut records, &mut times, &mut work, &mut image);
        assert_eq!(recorder.time(0, 1), Err(Refusal(2)));
        assert_eq!(recorder.vcd(0, 0, b"1"), Err(Refusal(2)));
        assert_eq!(recorder.finish(), Err(Refusal(2)));
        assert_eq!(recorder.start(1, Edition::Two), Err(Refusal(1)));
        assert_eq!(recorder.state(), state);
        assert_eq!((records, times, work, image), ([5; 1], [6; 2], [7; 3], [8; 4]));
    }
}

#[test]
fn a_flag_keeps_its_number_or_becomes_one() {
    let (mut records, mut times, mut work, mut image) = ([0; 1], [0; 2], [0; 32], [0; 64]);
    let mut recorder = Recorder::new(&mut records, &mut times, &mut work, &mut image);
    assert_eq!(recorder.start(2, Edition::One), Ok(Answer::Started));
    assert_eq!(recorder.time(0, 5), Ok(Answer::Taken));
    assert_eq!(recorder.time(0, 4), Ok(Answer::Back));
    assert_eq!(recorder.state().skip, 1);
    let state = State {
        skip: 7,
        ..recorder.state()
    };
    let mut recorder = Recorder::resume(state, &mut records, &mut times, &mut work, &mut image);
    assert_eq!(recorder.vcd(0, 0, b""), Ok(Answer::Skipped));
    assert_eq!((recorder.state().skip, recorder.skipped()), (7, [1, 0]));
    assert_eq!(recorder.time(0, 6), Ok(Answer::Taken));
    assert_eq!(recorder.state().skip, 0);
    assert_eq!(recorder.finish().map(|_| recorder.state().closed), Ok(1));
}

/// What these calls on an event answer (v is a change), how many changes of each probe were skipped, and the image left.
fn slips(edition: Edition) -> (Vec<Answer>, [u32; 2], Vec<u8>) {
    let (mut records, mut times, mut work, mut image) = ([0; 1], [0; 2], [0; 32], [0; 64]);
    let mut recorder = Recorder::new(&mut records, &mut times, &mut work, &mut image);
    assert_eq!(recorder.start(2, edition), Ok(Answer::Started));
    let said = "10 5 v 10 v 10 v 9 9 v".split(' ').map(|word| match word.parse() {
        Ok(time) => recorder.time(0, time).unwrap(),
        Err(_) => recorder.vcd(0, 0, b"1").unwrap(),
    });
    let said = said.collect();
    recorder.finish().unwrap();
    (said, recorder.skipped(), recorder.image().to_vec())
}

#[test]
fn an_equal_time_leaves_a_skip_in_edition_1() {
    use Answer::*;
    let (said, skipped, image) = slips(Edition::One);
    assert_eq!(
        said,
        [Taken, Back, Skipped, Same, Skipped, Same, Skipped, Back, Back, Skipped]
    );
    assert_eq!(skipped, [4, 0]);
    assert_eq!(shown(&image, 0), (States::Nine, vec![], vec![], vec![10]));
}

#[test]
fn an_equal_time_ends_a_skip_in_edition_2() {
    use Answer::*;
    let (said, skipped, image) = slips(Edition::Two);
    assert_eq!(
        said,
        [Taken, Back, Skipped, Same, Recorded, Same, Recorded, Back, Back, Skipped]
    );
    assert_eq!(skipped, [2, 0]);
    assert_eq!(shown(&image, 0), (States::Two, vec![0, 0], vec![], vec![10]));
}

/// B 2. Equal times without a skip, before and after a cut, and a skip that a later time ends.
#[test]
fn without_an_equal_time_in_a_skip_editions_are_alike() {
    let [one, two] = EDITIONS.map(|edition| {
        recorded_by(edition, &[0, numbers::REAL, 2], 2, |r| {
            r.time(0, 3)?;
            r.time(0, 3)?;
            r.vcd(0, 0, b"1")?;
            r.time(0, 5)?;
            r.vcd(0, 2, b"1x")?;
            r.time(0, 7)?;
            r.time(0, 7)?;
            r.real(0, 1, 1)?;
            r.time(0, 6)?;
            r.vcd(0, 0, b"1")?;
            r.time(0, 9)?;
            r.vcd(0, 2, b"11")
        })
    });
    assert_eq!(one, two);
    let times = vec![3, 5, 7, 9];
    assert_eq!(shown(&two, 0), (States::Two, vec![0], vec![], times.clone()));
    assert_eq!(
        shown(&two, 1),
        (States::Two, vec![2], 1_u64.to_le_bytes().to_vec(), times.clone())
    );
    assert_eq!(shown(&two, 2), (States::Four, vec![1, 3], vec![0x46, 0x03], times));
}

/// The types have no other edition, the C interface has.
#[test]
fn only_editions_1_and_2_start() {
    let state = State {
        closed: 1,
        skipped: 5,
        edition: 2,
        skip_1: 1,
        skipped_1: 6,
        ..State::default()
    };
    for edition in [0, 1, 2, 3, u32::MAX] {
        let (mut records, times, mut image) = ([7 << 40], [6; 2], [8; 20]);
        let (r, t, i) = (records.as_mut_ptr(), times.as_ptr(), image.as_mut_ptr());
        // Safety: the arrays are borrowed, and each is one of its own.
        let done = unsafe { ffi::wejumo_start(state, 2, 1, edition, r, 1, t, 2, i, 20) };
        if edition == 1 || edition == 2 {
            let skips = [done.state.skipped, done.state.skip_1, done.state.skipped_1];
            assert_eq!(
                (done.answer, done.state.edition, skips),
                (numbers::STARTED, edition, [0; 3])
            );
        } else {
            assert_eq!((done.answer, done.value, done.state), (0, 1, state));
            assert_eq!((records, times, image), ([7 << 40], [6; 2], [8; 20]));
        }
    }
}

/// Records, times, work and image.
type Buffers = ([u64; 2], [u64; 2], [u8; 64], [u8; 128]);

/// The state and the buffers after a start, the time 5, a change and this time.
fn left_after(edition: Edition, last: u64) -> (State, Buffers) {
    let (mut records, mut times, mut work, mut image) = ([1, Kind::Real.record(0)], [0; 2], [0; 64], [0; 128]);
    let mut recorder = Recorder::new(&mut records, &mut times, &mut work, &mut image);
    assert_eq!(recorder.start(2, edition), Ok(Answer::Started));
    assert_eq!(recorder.time(0, 5), Ok(Answer::Taken));
    assert_eq!(recorder.vcd(0, 0, b"1"), Ok(Answer::Recorded));
    recorder.time(0, last).unwrap();
    (recorder.state(), (records, times, work, image))
}

/// Each call on a state is refused with this number, and leaves state and buffers.
fn all_refused(state: State, buffers: &Buffers, number: u32) {
    let (mut records, mut times, mut work, mut image) = *buffers;
    let mut recorder = Recorder::resume(state, &mut records, &mut times, &mut work, &mut image);
    for time in [4, 5, 6, 7] {
        assert_eq!(recorder.time(0, time), Err(Refusal(number)));
    }
    assert_eq!(recorder.vcd(0, 0, b"1"), Err(Refusal(number)));
    assert_eq!(recorder.raw(0, 0, 0, &[1]), Err(Refusal(number)));
    assert_eq!(recorder.real(0, 1, 0), Err(Refusal(number)));
    assert_eq!(recorder.finish(), Err(Refusal(number)));
    assert_eq!(recorder.state(), state);
    assert_eq!((records, times, work, image), *buffers);
}

/// Without a skip and in one.
#[test]
fn an_altered_edition_is_told() {
    for last in [6, 4] {
        for (state, buffers) in EDITIONS.map(|edition| left_after(edition, last)) {
            for edition in [0, 3, u32::MAX] {
                let altered = State { edition, ..state };
                all_refused(altered, &buffers, 10);
                all_refused(State { closed: 1, ..altered }, &buffers, 2);
            }
        }
    }
}

#[test]
fn no_width_is_taken_for_another_kind() {
    for width in [65_537, 0xFFFF_FFFD, 0xFFFF_FFFE, 0xFFFF_FFFF] {
        let (mut records, mut times, mut work, mut image) = ([Kind::Vector(width).record(0)], [0; 2], [0; 32], [0; 64]);
        let mut recorder = Recorder::new(&mut records, &mut times, &mut work, &mut image);
        assert_eq!(recorder.start(2, Edition::One), Err(Refusal(1)));
    }
}

/// The symbols that the cursor shows of one value.
fn symbols_of(width: u32, value: &[u8]) -> Vec<u8> {
    let (answer, symbols) = at(&of_times(width, &[(0, value)]), 0, 0, width as usize);
    assert_eq!(answer, found(0, 0, Value::Vector(States::Nine)));
    symbols
}

#[test]
fn short_vectors_extend() {
    assert_eq!(symbols_of(2, b"u"), [5, 5]);
    assert_eq!(symbols_of(2, b"U"), [5, 5]);
    assert_eq!(symbols_of(3, b"w1"), [6, 6, 1]);
    assert_eq!(symbols_of(4, b"-"), [8; 4]);
    assert_eq!(symbols_of(3, b"b-x"), [8, 8, 2]);
    assert_eq!(symbols_of(4, b"0bw"), [6; 4]);
    let mut wide = [6; 17];
    wide[16] = 2;
    assert_eq!(symbols_of(17, b"BWx"), wide);
}

#[test]
fn h_and_l_do_not_extend() {
    let (mut records, mut times, mut work, mut image) = ([Kind::Vector(3).record(0)], [0; 2], [0; 32], [0; 64]);
    let mut recorder = Recorder::new(&mut records, &mut times, &mut work, &mut image);
    assert_eq!(recorder.start(2, Edition::One), Ok(Answer::Started));
    assert_eq!(recorder.time(0, 5), Ok(Answer::Taken));
    let state = recorder.state();
    for value in [b"h".as_slice(), b"H", b"l", b"l1", b"bL", b"0bh"] {
        assert_eq!(recorder.vcd(0, 0, value), Err(Refusal(6)));
        assert_eq!(recorder.state(), state);
    }
    assert_eq!(recorder.vcd(0, 0, b"hl1"), Ok(Answer::Recorded));
    assert_eq!(
        (records, work[8..11].to_vec()),
        ([Kind::Vector(3).record(0) + (2 << 40)], vec![2, 4, 0x71])
    );
}

#[test]
fn a_sum_keeps_every_byte() {
    assert_eq!(sum(&[]), 0);
    assert_eq!(sum(&[1, 255, 7]), 263);
}

/// The image of a recording: its kinds by number, B, and its calls, none of which is refused.
fn recorded(kinds: &[u32], limit: u32, calls: impl Fn(&mut Recorder) -> Result<Answer, Refusal>) -> Vec<u8> {
    recorded_by(Edition::One, kinds, limit, calls)
}

fn recorded_by(
    edition: Edition, kinds: &[u32], limit: u32, calls: impl Fn(&mut Recorder) -> Result<Answer, Refusal>,
) -> Vec<u8> {
    let mut records: Vec<u64> = kinds.iter().map(|kind| Kind::from_number(*kind).record(0)).collect();
    let (mut times, mut work, mut image) = ([0; 4], [0; 64], [0; 256]);
    let mut recorder = Recorder::new(&mut records, &mut times, &mut work, &mut image);
    assert_eq!(recorder.start(limit, edition), Ok(Answer::Started));
    calls(&mut recorder).unwrap();
    recorder.finish().unwrap();
    recorder.image().to_vec()
}

/// No time was taken, so it has no block.
fn empty(kinds: &[u32], limit: u32) -> Vec<u8> {
    recorded(kinds, limit, |_| Ok(Answer::Started))
}

/// One signal of a kind, B 2, and one change at each time.
fn of_times(kind: u32, changes: &[(u64, &[u8])]) -> Vec<u8> {
    recorded(&[kind], 2, |r| {
        changes.iter().try_fold(Answer::Started, |_, (time, value)| {
            r.time(0, *time)?;
            r.vcd(0, 0, value)
        })
    })
}

/// Joined into an output of so many bytes, what is past the total being untouched, and all of it where the join is refused.
fn joined_in(first: &[u8], second: &[u8], room: usize) -> Result<Vec<u8>, Refusal> {
    let mut out: Vec<u8> = (0..room).map(|place| 0x5A ^ place as u8).collect();
    let before = out.clone();
    let answer = join(first, second, &mut out);
    let total = answer.unwrap_or(0) as usize;
    assert_eq!(out[total..], before[total..]);
    out.truncate(total);
    answer.map(|_| out)
}

/// The class and the kept entries of a signal, and the combined table.
type Shown = (States, Vec<u32>, Vec<u8>, Vec<u64>);

fn shown(bytes: &[u8], signal: u32) -> Shown {
    let image = Image::open(bytes).unwrap();
    let (mut index, mut entries, mut times) = (vec![9; 8], vec![9; 16], vec![9; 8]);
    let loaded = image.load(signal, &mut index, &mut entries).unwrap();
    index.truncate(loaded.count as usize);
    entries.truncate(index.len() * entry_length(image.kind(signal), loaded.states));
    let length = image.table(&mut times).unwrap();
    times.truncate(length as usize);
    (loaded.states, index, entries, times)
}

/// Widths 1 and 2, B 4. First: time 1, "1"; time 5, second 11 with claim Nine. Then: time 5, "1" and "11"; time 9, "0".
const JOINED: &str =
    "02000000 04000000 02000000 6B000000 01000000 02000000 29000000 02000000 02000000 01000000 03000000 \
     0100000000000000 0500000000000000 00 01 02 04 03 2A000000 02000000 02000000 01000000 04000000 \
     0500000000000000 0900000000000000 00 01 10 00 00 03";

#[test]
fn a_join_drops_repeats_over_the_seam() {
    let first = recorded(&[1, 2], 4, |r| {
        r.time(0, 1)?;
        r.vcd(0, 0, b"1")?;
        r.time(0, 5)?;
        r.raw(0, 1, 2, &[0x11])
    });
    let second = recorded(&[1, 2], 4, |r| {
        r.time(0, 5)?;
        r.vcd(0, 0, b"1")?;
        r.vcd(0, 1, b"11")?;
        r.time(0, 9)?;
        r.vcd(0, 0, b"0")
    });
    let whole = bytes_of(JOINED);
    for room in 0..120 {
        let wanted = if room < 107 { Err(Refusal(8)) } else { Ok(whole.clone()) };
        assert_eq!(joined_in(&first, &second, room), wanted, "{room}");
    }
    assert_eq!(
        shown(&whole, 0),
        (States::Two, vec![0, 2], vec![0x01, 0x00], vec![1, 5, 9])
    );
    // the largest class byte, which is not the last
    assert_eq!(
        shown(&whole, 1),
        (States::Nine, vec![1], vec![0x00, 0x03], vec![1, 5, 9])
    );
}

#[test]
fn three_joined_at_one_time() {
    let one = of_times(0, &[(5, b"1")]);
    let two = joined_in(&one, &one, 200).unwrap();
    let three = joined_in(&two, &one, 200).unwrap();
    assert_eq!(joined_in(&one, &two, 200).as_ref(), Ok(&three));
    assert_eq!(three.len(), 98);
    assert_eq!(shown(&three, 0), (States::Two, vec![0, 0, 0], vec![], vec![5]));
    assert_eq!(at(&three, 0, 4, 0), (Ok(Cursor::Nothing), vec![]));
    assert_eq!(at(&three, 0, 5, 0), (found(2, 5, Value::Event), vec![]));
}

#[test]
fn a_join_with_a_gap() {
    let (first, second) = (
        recorded(&[1], 2, |r| {
            r.time(0, 1)?;
            r.vcd(0, 0, b"0")?;
            r.time(0, 2)
        }),
        of_times(1, &[(7, b"x")]),
    );
    let joined = joined_in(&first, &second, 200).unwrap();
    assert_eq!(
        shown(&joined, 0),
        (States::Four, vec![0, 2], vec![0x00, 0x42], vec![1, 2, 7])
    );
    assert_eq!(at(&joined, 0, 0, 1), (Ok(Cursor::Nothing), vec![9]));
    let first = found(0, 1, Value::Vector(States::Two));
    assert_eq!(at(&joined, 0, 6, 1), (first, vec![0]));
}

/// So much room is enough, and one byte less is not.
fn needs(first: &[u8], second: &[u8], room: usize) -> Vec<u8> {
    assert_eq!(joined_in(first, second, room - 1), Err(Refusal(8)));
    joined_in(first, second, room).unwrap()
}

#[test]
fn a_join_needs_its_total() {
    let first = of_times(1, &[(1, b"0"), (6, b"1")]);
    assert_eq!(needs(&first, &empty(&[1], 2), first.len()), first);
    for time in [6, 7, u64::MAX] {
        let second = of_times(1, &[(time, b"0")]);
        let total = first.len() + second.len() - 20; // one head
        assert_eq!(needs(&first, &second, total).len(), total);
    }
}

/// Each refusal where later ones would fit too: in one of the rooms the output has no byte.
#[test]
fn refusals_of_a_join_in_order() {
    let (early, before_end, late) = (
        of_times(1, &[(1, b"0"), (6, b"1")]),
        of_times(1, &[(5, b"0")]),
        of_times(1, &[(7, b"x")]),
    );
    let (none, no_signal, of_limit_3) = (empty(&[1], 2), empty(&[], 2), recorded(&[1], 3, |r| r.time(0, 1)));
    let (short, mut other_total) = (&early[..early.len() - 1], early.clone());
    other_total[12] += 1;
    let cases: [(&[u8], &[u8], u32); 19] = [
        (&[], &[], 11),
        (short, &of_limit_3, 11),
        (&of_limit_3, short, 11),
        (&other_total, &of_limit_3, 11),
        (&none, &other_total, 11),
        (&none, &of_limit_3, 14),
        (&late, &of_limit_3, 14),
        (&early, &empty(&[1], 3), 14),
        (&none, &empty(&[2], 2), 14),
        (&none, &empty(&[1, 1], 2), 14),
        (&no_signal, &none, 14),
        (&empty(&[1, 0], 2), &empty(&[1, u32::MAX], 2), 14),
        (&late, &of_times(2, &[(1, b"0")]), 14),
        (&none, &none, 15),
        (&none, &early, 15),
        (&no_signal, &no_signal, 15),
        (&late, &early, 16),
        (&early, &before_end, 16),
        (&early, &early, 16),
    ];
    for (number, (first, second, refusal)) in cases.into_iter().enumerate() {
        for room in [0, 200] {
            assert_eq!(joined_in(first, second, room), Err(Refusal(refusal)), "case {number}");
        }
    }
}
