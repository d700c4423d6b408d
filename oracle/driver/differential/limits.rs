//! The limits: widths, B, S, times near 2^64, special reals, the skipped counts, and the image limit on mapped memory that stays untouched, and joins to that total, one of which is written.

use crate::compare::{Compared, Tally, agree, recording};
use crate::generate::{Generator, REALS, long};
use crate::join::u32_at;
use crate::memory::{Answer, Record, Recording, Skip, State};
use crate::ours::{self, Source};
use crate::paper::IMAGE_LIMIT;
use crate::random::Random;
use crate::refusals::Refusals;
use wellen::oracle::whole::{ABSENT, REAL, Step, Value};

/// Widths around the limit, in all classes and notations, over several blocks; so many recordings one after the other.
fn wide(random: &mut Random, count: usize) -> Vec<Recording> {
    let width = random.of(&[65_536, 65_536, 65_535, 65_533]);
    let limit = random.of(&[2, 65_535]);
    let mut generator = Generator::new(random, vec![width, 1]);
    let recording = |_| {
        generator.restart();
        let mut steps = Vec::new();
        for _ in 0..5 {
            steps.push(generator.time(true));
            steps.push(generator.change());
            steps.push(generator.change());
        }
        steps.push(Step::Finish);
        generator.recording(limit, steps)
    };
    (0..count).map(recording).collect()
}

/// Every special real after every other, and repeated across a cut.
fn reals(limit: u16) -> Recording {
    let mut steps = Vec::new();
    let pairs = REALS
        .iter()
        .flat_map(|first| REALS.iter().map(move |second| [*first, *second]));
    for (time, bits) in pairs.flatten().enumerate() {
        steps.push(Step::Time(0, time as u64));
        steps.push(Step::Change(0, 0, Value::Real(bits)));
        steps.push(Step::Change(0, 0, Value::Real(bits)));
    }
    steps.push(Step::Finish);
    Recording::plain(limit, vec![REAL], steps)
}

fn at_times(limit: u16, times: &[u64]) -> Recording {
    let change = || Step::Change(0, 0, Value::Vcd(b"1x".to_vec()));
    let calls = times.iter().flat_map(|time| [Step::Time(0, *time), change()]);
    Recording::plain(limit, vec![2], calls.chain([Step::Finish]).collect())
}

/// Times at the top, with equal and earlier ones between.
fn late(limit: u16) -> Recording {
    let top = u64::MAX;
    let times = [
        0,
        top - 4,
        top - 3,
        top - 3,
        0,
        top - 3,
        top - 2,
        top - 1,
        top,
        top - 1,
        top,
        0,
        top,
    ];
    at_times(limit, &times)
}

/// 65,536 signals, changes on the first and the last, from this time on.
fn many(first: u64) -> Recording {
    let bit = |signal: u32, value: &[u8]| Step::Change(0, signal, Value::Vcd(value.to_vec()));
    let kinds = (0..65_536).map(|n| if n % 3 == 1 { ABSENT } else { 1 }).collect();
    let steps = vec![
        Step::Time(0, first),
        bit(0, b"1"),
        bit(65_535, b"x"),
        Step::Time(0, first + 1),
        Step::Time(0, first + 2),
        bit(65_535, b"x"),
        Step::Finish,
    ];
    Recording::plain(2, kinds, steps)
}

pub fn recordings(random: &mut Random, longs: usize, tally: &mut Tally) -> Compared {
    for limit in [2, 3, 65_535] {
        recording(&late(limit), 1, random, tally).map_err(|e| format!("late times: {e}"))?;
        recording(&reals(limit), 1, random, tally).map_err(|e| format!("reals: {e}"))?;
    }
    recording(&many(1), 1, random, tally).map_err(|e| format!("65,536 signals: {e}"))?;
    for _ in 0..12 {
        recording(&wide(random, 1)[0], 1, random, tally).map_err(|e| format!("wide: {e}"))?;
    }
    for _ in 0..longs {
        let r = long(random);
        recording(&r, 4096, random, tally).map_err(|e| format!("long: {e}"))?;
    }
    Ok(())
}

/// Recordings at the limits, one after the other: one time, the last times, 65,536 signals, B times and the widest vectors.
pub fn restarted(random: &mut Random, wides: usize) -> Vec<Vec<Recording>> {
    let top = u64::MAX;
    let last = u64::from(u16::MAX) - 1;
    let full: Vec<u64> = (0..=last).collect();
    let mut all = vec![
        vec![at_times(2, &[5]); 4],
        vec![at_times(2, &[0]), at_times(2, &[0, top]), at_times(2, &[top])],
        vec![late(3), at_times(3, &[top]), at_times(3, &[top, top, 0])],
        vec![many(1), many(3)],
        vec![at_times(65_535, &full), at_times(65_535, &[last, last + 2])],
    ];
    all.extend((0..wides).map(|_| wide(random, 2)));
    all
}

// Mapped memory.

unsafe extern "C" {
    fn mmap(at: *mut u8, length: usize, protection: i32, flags: i32, file: i32, offset: i64) -> *mut u8;
    fn munmap(at: *mut u8, length: usize) -> i32;
    fn mincore(at: *mut u8, length: usize, out: *mut u8) -> i32;
}

const PAGE: usize = 4096;

/// Zeros that take no memory until they are written (x86-64 Linux).
struct Mapped(*mut u8, usize);

impl Mapped {
    fn new(length: usize) -> Self {
        let (read_write, private_anonymous_no_reserve) = (3, 0x4022);
        let at = unsafe {
            mmap(
                std::ptr::null_mut(),
                length,
                read_write,
                private_anonymous_no_reserve,
                -1,
                0,
            )
        };
        assert!(at as isize != -1, "no address space");
        Mapped(at, length)
    }

    fn bytes(&mut self, length: usize) -> &mut [u8] {
        assert!(length <= self.1);
        unsafe { std::slice::from_raw_parts_mut(self.0, length) }
    }

    /// How many pages were touched.
    fn touched(&self) -> usize {
        let mut pages = vec![0; self.1.div_ceil(PAGE)];
        assert_eq!(unsafe { mincore(self.0, self.1, pages.as_mut_ptr()) }, 0);
        pages.iter().filter(|page| **page & 1 == 1).count()
    }
}

impl Drop for Mapped {
    fn drop(&mut self) {
        unsafe { munmap(self.0, self.1) };
    }
}

const MOST: usize = IMAGE_LIMIT as usize;

/// An event's record at the start of a block.
fn event() -> u64 {
    ours::stored(&Record {
        kind: 0,
        index: 0,
        top: 0,
        probe: 0,
    })
}

/// Image buffers of the limit and one byte more: 1 at a start, 10 at every other call.
pub fn image_limit(tally: &mut Refusals) -> Compared {
    let mut mapped = Mapped::new(MOST + PAGE);
    let (mut records, mut times) = ([event()], [0; 2]);
    let before = State {
        closed: true,
        ..State::default()
    };
    let mut state = before;
    let answer = ours::start_on(&mut state, 2, 1, 1, &mut records, &mut times, mapped.bytes(MOST + 1));
    agree("start over the limit", answer, Answer::Refused(1))?;
    tally.count(&["1 image buffer over the limit"]);
    agree("state, pages touched", (state, mapped.touched()), (before, 0))?;
    let answer = ours::start_on(&mut state, 2, 1, 1, &mut records, &mut times, mapped.bytes(MOST));
    agree("start at the limit", answer, Answer::Started)?;
    agree("pages touched", mapped.touched(), 1)?;
    let mut m = (state, records, times, [0; 64]);
    let change = Step::Change(0, 0, Value::Vcd(Vec::new()));
    let answers = [Answer::Taken, Answer::Recorded, Answer::Finished(46)];
    for (call, done) in [Step::Time(0, 5), change, Step::Finish].iter().zip(answers) {
        let before = m;
        let answer = ours::step_on(&mut m.0, &mut m.1, &mut m.2, &mut m.3, mapped.bytes(MOST + 1), call);
        agree("call over the limit", answer, Answer::Refused(10))?;
        tally.count(&["10 image buffer over the limit"]);
        agree("memory, pages touched", (m, mapped.touched()), (before, 1))?;
        let answer = ours::step_on(&mut m.0, &mut m.1, &mut m.2, &mut m.3, mapped.bytes(MOST), call);
        agree("call at the limit", answer, done)?;
    }
    agree("pages touched", mapped.touched(), 1)
}

/// A block that ends with the buffer's last byte, and one byte before it does not fit: 8.
pub fn last_byte(tally: &mut Refusals) -> Compared {
    let mut mapped = Mapped::new(MOST);
    for (used, fits) in [(MOST - 31, true), (MOST - 24, true), (MOST - 23, false)] {
        let (mut records, mut times, mut work) = ([event()], [9, 0], [0; 64]);
        let mut state = State {
            limit: 2,
            signals: 1,
            held: 1,
            image: used as u32,
            edition: 1,
            ..State::default()
        };
        let before = state;
        let image = mapped.bytes(MOST);
        let answer = ours::step_on(&mut state, &mut records, &mut times, &mut work, image, &Step::Finish);
        if fits {
            agree(
                "finish at the end of the buffer",
                answer,
                Answer::Finished(used as u32 + 24),
            )?;
        } else {
            agree("finish past the end", answer, Answer::Refused(8))?;
            tally.count(&["8 block exceeds the unused image bytes"]);
            agree("state", state, before)?;
        }
    }
    agree("pages touched, the first and the last", mapped.touched(), 2)
}

/// Writes an image of one block, with one event at each byte of its data.
fn put_events(image: &mut [u8]) {
    let length = image.len() as u32;
    for (at, number) in [1, 2, 1, length, 0, length - 20, 1, 1, 1].iter().enumerate() {
        image[4 * at..4 * at + 4].copy_from_slice(&u32::to_le_bytes(*number));
    }
}

/// An image of the limit is accepted (and has more entries than are lent room for), one of a byte more is not. The first takes seconds.
pub fn largest_image(accepted_too: bool) -> Compared {
    let mut mapped = Mapped::new(MOST + PAGE);
    let image = mapped.bytes(MOST + 1);
    put_events(image);
    agree("opener over the limit", ours::open(image), false)?;
    agree(
        "load over the limit",
        Source::Bytes(image).load(0, &mut [0; 4], &mut []),
        Err(11),
    )?;
    if accepted_too {
        let image = mapped.bytes(MOST);
        put_events(image);
        let Some(source) = ours::sources(image).pop() else {
            unreachable!()
        };
        agree("opener at the limit", matches!(source, Source::Opened(_)), true)?;
        agree("load at the limit", source.load(0, &mut [0; 4], &mut []), Err(9))?;
    }
    let small = mapped.bytes(1000);
    put_events(small);
    agree("the same image, small", ours::open(small), true)
}

/// Joins to a total of the limit, and to one byte more: 8. `whole`: to nearly twice the limit too.
pub fn joined_total(whole: bool, tally: &mut Refusals) -> Compared {
    let (mut mapped, mut out) = (Mapped::new(MOST), Mapped::new(2 * MOST));
    let first = mapped.bytes(MOST - 26);
    put_events(first);
    let (mut second, mut longer) = ([0; 46], [0; 47]);
    put_events(&mut second);
    put_events(&mut longer);
    let over: [(&[u8], bool); 2] = [(&longer, true), (first, whole)];
    for (second, _) in over.into_iter().filter(|(_, asked)| *asked) {
        let answer = ours::join(first, second, out.bytes(2 * MOST));
        agree("join over the limit", answer, Err(8))?;
        tally.count(&["8 joined image over the limit"]);
        agree("pages touched", out.touched(), 0)?;
    }
    let out = out.bytes(MOST + 1);
    out[MOST] = 7;
    let answer = ours::join(first, &second, out);
    agree("join at the limit", answer, Ok(MOST as u32))?;
    agree("S and B", &out[..8], &first[..8])?;
    agree("N and total", (u32_at(out, 8), u32_at(out, 12)), (2, MOST as u32))?;
    agree("first image", out[16..first.len()] == first[16..], true)?;
    let end = [&second[20..], &[7]].concat();
    agree("second image and a byte past it", &out[first.len()..], &end[..])
}

/// "32 bits, then the count stays at its top", in an edition: that of one probe, while the other's counts on.
pub fn skipped_count(edition: u32, probe: usize) -> Compared {
    let (mut records, mut times, mut work, mut image) = ([event()], [9, 0], [0; 64], [0; 64]);
    let skip = |count| Skip { on: true, count };
    let mut state = State {
        limit: 2,
        signals: 1,
        held: 1,
        image: 20,
        edition,
        ..State::default()
    };
    state.skips[probe] = skip(u32::MAX - 1);
    state.skips[1 - probe] = skip(0);
    for count in 1..4 {
        for sender in [0, 1] {
            let call = Step::Change(sender, 77, Value::Raw(9, Vec::new()));
            let answer = ours::step_on(&mut state, &mut records, &mut times, &mut work, &mut image, &call);
            agree("skipped", answer, Answer::Skipped)?;
        }
        let both = [state.skips[probe], state.skips[1 - probe]];
        agree("counts", both, [skip(u32::MAX), skip(count)])?;
    }
    Ok(())
}
