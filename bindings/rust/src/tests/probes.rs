//! Two senders: whose skip it is, 18 in each of its places, both counts, and an image that tells no probe.

use super::*;
use Answer::*;

const BIT: Kind = Kind::Vector(1);
const SENDERS_OF_NONE: [u32; 3] = [2, 256, u32::MAX];

type Said = Result<Answer, Refusal>;

/// A recording and its lent memory between two calls.
#[derive(Clone, Debug, PartialEq)]
struct Unit {
    state: State,
    records: Vec<u64>,
    times: Vec<u64>,
    work: Vec<u8>,
    image: Vec<u8>,
}

impl Unit {
    /// Of signals of these kinds and probes, with room for so many bytes of work.
    fn lent(signals: &[(Kind, u8)], work: usize) -> Unit {
        Unit {
            state: State::default(),
            records: signals.iter().map(|(kind, probe)| kind.record(*probe)).collect(),
            times: vec![0; 3],
            work: vec![0; work],
            image: vec![0; 256],
        }
    }

    /// Started with B 3.
    fn new(edition: Edition, signals: &[(Kind, u8)]) -> Unit {
        let mut unit = Unit::lent(signals, 64);
        assert_eq!(unit.call(|r| r.start(3, edition)), Ok(Started));
        unit
    }

    /// A refused call leaves all memory.
    fn call(&mut self, call: impl FnOnce(&mut Recorder) -> Said) -> Said {
        let before = self.clone();
        let mut recorder = Recorder::resume(
            self.state,
            &mut self.records,
            &mut self.times,
            &mut self.work,
            &mut self.image,
        );
        let said = call(&mut recorder);
        self.state = recorder.state();
        if said.is_err() {
            assert_eq!(*self, before);
        }
        said
    }

    fn time(&mut self, sender: u32, time: u64) -> Said {
        self.call(|r| r.time(sender, time))
    }

    fn vcd(&mut self, sender: u32, signal: u32, value: &[u8]) -> Said {
        self.call(|r| r.vcd(sender, signal, value))
    }

    /// All three changes of a signal.
    fn changes(&mut self, sender: u32, signal: u32) -> [Said; 3] {
        [
            self.vcd(sender, signal, b"1"),
            self.call(|r| r.raw(sender, signal, 0, &[1])),
            self.call(|r| r.real(sender, signal, 1)),
        ]
    }

    fn skipped(&self) -> [u32; 2] {
        [self.state.skipped, self.state.skipped_1]
    }

    fn finished(&mut self) -> Vec<u8> {
        let Ok(Finished(total)) = self.call(|r| r.finish()) else {
            panic!("not finished")
        };
        self.image[..total as usize].to_vec()
    }
}

fn refused(number: u32) -> Said {
    Err(Refusal(number))
}

/// Signals 0 and 1 are of the probes of their numbers, signal 2 is absent.
#[test]
fn each_answer_to_two_senders() {
    let mut unit = Unit::new(Edition::One, &[(BIT, 0), (BIT, 1), (Kind::Absent, 1)]);
    assert_eq!(unit.time(2, 5), refused(18));
    assert_eq!(unit.time(0, 5), Ok(Taken));
    assert_eq!(unit.time(1, 5), Ok(Same));
    assert_eq!(unit.time(1, 4), Ok(Back));
    assert_eq!(unit.vcd(1, 9, b"q"), Ok(Skipped));
    assert_eq!(unit.vcd(1, 0, b"1"), Ok(Skipped));
    // a time of probe 0 leaves the skip of probe 1
    assert_eq!(unit.time(0, 6), Ok(Taken));
    assert_eq!(unit.vcd(1, 1, b"1"), Ok(Skipped));
    assert_eq!(unit.vcd(0, 2, b"1"), refused(4));
    assert_eq!(unit.vcd(1, 2, b"1"), Ok(Skipped));
    assert_eq!(unit.time(1, 6), Ok(Same));
    assert_eq!(unit.time(1, 7), Ok(Taken));
    assert_eq!(unit.vcd(0, 2, b"1"), refused(4));
    assert_eq!(unit.vcd(1, 2, b"1"), refused(4));
    assert_eq!(unit.vcd(1, 0, b"1"), refused(18));
    assert_eq!(unit.skipped(), [0, 4]);
    let image = unit.finished();
    for signal in [0, 1] {
        assert_eq!(shown(&image, signal), (States::Nine, vec![], vec![], vec![5, 6, 7]));
    }
}

/// Both probes skip at once, and each ends its own.
#[test]
fn a_skip_is_of_its_sender() {
    for edition in EDITIONS {
        let mut unit = Unit::new(edition, &[(BIT, 0), (BIT, 1)]);
        assert_eq!(unit.time(1, 5), Ok(Taken));
        assert_eq!(unit.time(0, 4), Ok(Back));
        assert_eq!(unit.vcd(0, 0, b"1"), Ok(Skipped));
        assert_eq!(unit.vcd(1, 1, b"1"), Ok(Recorded));
        assert_eq!(unit.time(1, 3), Ok(Back));
        assert_eq!(unit.vcd(1, 1, b"x"), Ok(Skipped));
        assert_eq!((unit.state.skip, unit.state.skip_1), (1, 1));
        assert_eq!(unit.time(1, 6), Ok(Taken));
        assert_eq!((unit.state.skip, unit.state.skip_1), (1, 0));
        assert_eq!(unit.vcd(0, 0, b"1"), Ok(Skipped));
        assert_eq!(unit.vcd(1, 1, b"0"), Ok(Recorded));
        assert_eq!(unit.time(0, 7), Ok(Taken));
        assert_eq!(unit.vcd(0, 0, b"1"), Ok(Recorded));
        assert_eq!(unit.skipped(), [2, 1]);
        let (image, times) = (unit.finished(), vec![5, 6, 7]);
        assert_eq!(shown(&image, 0), (States::Two, vec![2], vec![1], times.clone()));
        assert_eq!(shown(&image, 1), (States::Two, vec![0, 1], vec![1, 0], times));
    }
}

/// A sender above 1 is nobody's: its changes are not counted in a skip of probe 1, and its times neither end nor begin one.
#[test]
fn a_sender_of_none_has_no_skip() {
    for edition in EDITIONS {
        let mut unit = Unit::new(edition, &[(BIT, 0), (BIT, 1)]);
        assert_eq!(unit.time(1, 5), Ok(Taken));
        assert_eq!(unit.time(1, 4), Ok(Back));
        for sender in [2, u32::MAX] {
            assert_eq!(unit.changes(sender, 1), [refused(18); 3]);
            for time in [3, 5, 9] {
                assert_eq!(unit.time(sender, time), refused(18));
            }
        }
        assert_eq!(unit.vcd(1, 1, b"1"), Ok(Skipped));
        assert_eq!(unit.vcd(0, 0, b"1"), Ok(Recorded));
        assert_eq!(unit.skipped(), [0, 1]);
    }
}

/// What the last change answers, and the counts: a skip of probe 1, and equal times of probe 0 and then of probe 1.
fn returned(edition: Edition) -> (Said, [u32; 2]) {
    let mut unit = Unit::new(edition, &[(BIT, 0), (BIT, 1)]);
    assert_eq!(unit.time(0, 5), Ok(Taken));
    assert_eq!(unit.time(1, 4), Ok(Back));
    assert_eq!(unit.vcd(1, 1, b"1"), Ok(Skipped));
    assert_eq!(unit.time(0, 5), Ok(Same));
    assert_eq!(unit.vcd(1, 1, b"1"), Ok(Skipped));
    assert_eq!(unit.vcd(0, 0, b"1"), Ok(Recorded));
    assert_eq!(unit.time(0, 6), Ok(Taken));
    assert_eq!(unit.vcd(1, 1, b"1"), Ok(Skipped));
    // equal to a time that probe 0 sent
    assert_eq!(unit.time(1, 6), Ok(Same));
    (unit.vcd(1, 1, b"1"), unit.skipped())
}

#[test]
fn an_equal_time_ends_the_skip_of_its_sender_in_edition_2() {
    assert_eq!(returned(Edition::One), (Ok(Skipped), [0, 4]));
    assert_eq!(returned(Edition::Two), (Ok(Recorded), [0, 3]));
}

/// The state as the calls before left it, and with its first group of 10 altered.
#[test]
fn a_sender_of_none_is_told_after_2_and_before_10() {
    for edition in EDITIONS {
        let mut unit = Unit::new(edition, &[(BIT, 0), (Kind::Real, 1)]);
        for held in [false, true] {
            let mut altered = unit.clone();
            altered.state.limit = 1;
            for sender in SENDERS_OF_NONE {
                for unit in [&mut unit, &mut altered] {
                    assert_eq!(unit.time(sender, 5), refused(18));
                    assert_eq!(unit.changes(sender, 0), [refused(18); 3]);
                    assert_eq!(unit.changes(sender, 9), [refused(18); 3]);
                }
                let mut closed = altered.clone();
                closed.state.closed = 1;
                assert_eq!(closed.time(sender, 5), refused(2));
                assert_eq!(closed.changes(sender, 0), [refused(2); 3]);
            }
            for sender in [0, 1] {
                assert_eq!(altered.time(sender, 5), refused(10));
                assert_eq!(altered.changes(sender, 0), [refused(10); 3]);
            }
            assert_eq!(altered.call(|r| r.finish()), refused(10));
            if !held {
                assert_eq!(unit.changes(0, 0), [refused(3); 3]);
                assert_eq!(unit.time(0, 5), Ok(Taken));
            }
        }
    }
}

/// Signals 0 and 1 are of the probes of their numbers; signal 2 is absent, signal 3 is none.
#[test]
fn a_signal_of_the_other_is_told_after_4_and_before_5() {
    let signals = [(Kind::Real, 0), (BIT, 1), (Kind::Absent, 0)];
    // of enough work, and of none
    for work in [64, 0] {
        let mut unit = Unit::lent(&signals, work);
        assert_eq!(unit.call(|r| r.start(3, Edition::One)), Ok(Started));
        assert_eq!(unit.time(1, 5), Ok(Taken));
        assert_eq!(unit.changes(1, 0), [refused(18); 3]);
        assert_eq!(unit.changes(0, 1), [refused(18); 3]);
        assert_eq!(unit.vcd(0, 1, b"q"), refused(18));
        for (sender, signal) in [(0, 2), (1, 2), (0, 3), (1, 3)] {
            assert_eq!(unit.changes(sender, signal), [refused(4); 3]);
        }
        let own = if work > 0 { Ok(Recorded) } else { refused(7) };
        assert_eq!(unit.changes(0, 0), [refused(5), refused(5), own]);
        assert_eq!(unit.changes(1, 1), [own, own, refused(5)]);
        assert_eq!(unit.vcd(1, 1, b"q"), refused(6));
    }
}

#[test]
fn a_record_of_no_probe_is_told_to_both() {
    let mut unit = Unit::new(Edition::One, &[(BIT, 0), (BIT, 1)]);
    assert_eq!(unit.time(0, 5), Ok(Taken));
    assert_eq!(unit.vcd(0, 0, b"1"), Ok(Recorded));
    unit.records[0] += 7 << 32;
    unit.records[1] = Kind::Absent.record(7);
    for sender in [0, 1] {
        assert_eq!(unit.changes(sender, 0), [refused(18); 3]);
        assert_eq!(unit.changes(sender, 1), [refused(4); 3]);
    }
    let image = unit.finished();
    assert_eq!(shown(&image, 0), (States::Two, vec![0], vec![1], vec![5]));
}

/// All numbers of a probe that a record has, in its first or its last signal; index and class are those that a start sets to 0.
#[test]
fn only_probes_0_and_1_start() {
    for probe in 0..=255 {
        for signals in [[(BIT, probe), (BIT, 0)], [(Kind::Absent, 1), (Kind::Real, probe)]] {
            let mut unit = Unit::lent(&signals, 64);
            unit.records.iter_mut().for_each(|record| *record += 7 << 40);
            let said = unit.call(|r| r.start(3, Edition::Two));
            assert_eq!(said, if probe < 2 { Ok(Started) } else { refused(1) });
            if probe < 2 {
                assert_eq!(unit.records, Unit::lent(&signals, 64).records);
            }
        }
    }
}

/// Each stays at its top by itself, and a flag keeps its number.
#[test]
fn two_counts() {
    let top = u32::MAX;
    let mut unit = Unit::new(Edition::One, &[(BIT, 0), (BIT, 1)]);
    assert_eq!(unit.time(0, 5), Ok(Taken));
    assert_eq!(unit.time(0, 4), Ok(Back));
    assert_eq!(unit.time(1, 4), Ok(Back));
    (unit.state.skip, unit.state.skip_1) = (7, 8);
    (unit.state.skipped, unit.state.skipped_1) = (3, top - 1);
    for counts in [[4, top], [5, top]] {
        for sender in [0, 1] {
            assert_eq!(unit.vcd(sender, 9, b"q"), Ok(Skipped));
        }
        assert_eq!(unit.skipped(), counts);
    }
    unit.state.skipped = top;
    unit.state.skipped_1 = 0;
    for count in [1, 2] {
        for sender in [0, 1] {
            assert_eq!(unit.vcd(sender, 0, b"1"), Ok(Skipped));
        }
        assert_eq!(unit.skipped(), [top, count]);
    }
    assert_eq!((unit.state.skip, unit.state.skip_1), (7, 8));
    assert_eq!(unit.time(1, 6), Ok(Taken));
    assert_eq!((unit.state.skip, unit.state.skip_1), (7, 0));
    unit.finished();
    assert_eq!(unit.skipped(), [top, 2]);
}

/// The bench sheet's recording, its signals and its times sent by either probe.
#[test]
fn an_image_tells_no_probe() {
    for probes in 0..16 {
        let by = |place: u32| probes >> place & 1;
        let mut unit = Unit::lent(&[(BIT, by(0) as u8), (Kind::Vector(4), by(1) as u8)], 64);
        unit.times.push(0);
        assert_eq!(unit.call(|r| r.start(4, Edition::One)), Ok(Started));
        assert_eq!(unit.time(by(2), 10), Ok(Taken));
        assert_eq!(unit.vcd(by(0), 0, b"1"), Ok(Recorded));
        assert_eq!(unit.vcd(by(1), 1, b"b1x"), Ok(Recorded));
        assert_eq!(unit.time(by(3), 20), Ok(Taken));
        assert_eq!(unit.vcd(by(1), 1, b"b0001"), Ok(Recorded));
        assert_eq!(unit.finished(), bytes_of(SHEET));
    }
}

/// The work buffer is of both: its end is the only way, with that of the image, by which values of probe 0 can change an answer to probe 1.
#[test]
fn a_full_work_buffer_is_of_both() {
    let signals = [(Kind::Vector(4), 0), (Kind::Vector(4), 1)];
    for (value, said, then) in [(b"1", Ok(Recorded), refused(7)), (b"q", refused(6), Ok(Recorded))] {
        let mut unit = Unit::lent(&signals, 18);
        assert_eq!(unit.call(|r| r.start(3, Edition::One)), Ok(Started));
        assert_eq!(unit.time(0, 5), Ok(Taken));
        assert_eq!(unit.vcd(0, 0, value), said);
        assert_eq!(unit.vcd(1, 1, b"1"), then);
    }
}
