//! The opener by the third demand's own words, as document 02 extends them: "left by a list of calls, or joined from accepted images". For
//! each block, calls are read off its bytes by the layout alone and made on the recorder of paper.rs; what these recordings leave is joined
//! (join.rs), and must be the same bytes.

use crate::history::History;
use crate::join::joined;
use crate::memory::{Answer, Memory, Recording};
use crate::paper;
use crate::value::{class_of, packed, packed_length, unpacked};
use wellen::oracle::whole::{ABSENT, REAL, Step, Value};

/// Bytes taken from the front.
struct Bytes<'a>(&'a [u8]);

impl<'a> Bytes<'a> {
    fn take(&mut self, count: usize) -> Option<&'a [u8]> {
        let (taken, rest) = self.0.split_at_checked(count)?;
        self.0 = rest;
        Some(taken)
    }

    fn u32(&mut self) -> Option<u32> {
        Some(u32::from_le_bytes(self.take(4)?.try_into().unwrap()))
    }

    fn u64(&mut self) -> Option<u64> {
        Some(u64::from_le_bytes(self.take(8)?.try_into().unwrap()))
    }

    /// LEB128, shortest or not.
    fn leb128(&mut self) -> Option<u64> {
        let mut value: u64 = 0;
        for shift in (0..63).step_by(7) {
            let byte = self.take(1)?[0];
            value |= u64::from(byte % 128) << shift;
            if byte < 128 {
                return Some(value);
            }
        }
        None
    }
}

/// d and the value of one change, given with the claim of its part.
fn change(bytes: &mut Bytes, kind: u32, claim: u32) -> Option<(u64, Value)> {
    let number = bytes.leb128()?;
    let (d, symbols) = match kind {
        0 => return Some((number, Value::Vcd(Vec::new()))),
        REAL => return Some((number, Value::Real(bytes.u64()?))),
        1 => (number / 16, vec![(number % 16) as u8]),
        width => {
            let class = (number % 4) as u32;
            if class > 2 {
                return None;
            }
            let packed = bytes.take(packed_length(width, class) as usize)?;
            (number / 4, unpacked(packed, width, class))
        }
    };
    if class_of(&symbols) > claim || claim > 2 {
        return None;
    }
    Some((d, Value::Raw(claim, packed(&symbols, claim))))
}

/// Puts the changes of a part into `at`, by time index.
fn part(data: &[u8], signal: u32, kind: u32, at: &mut [Vec<Step>]) -> Option<()> {
    if kind == ABSENT || paper::too_wide(kind) {
        return None;
    }
    let mut bytes = Bytes(data);
    let claim = u32::from(bytes.take(1)?[0]);
    let mut index: u64 = 0;
    while !bytes.0.is_empty() {
        let (d, value) = change(&mut bytes, kind, claim)?;
        index = index.checked_add(d)?;
        at.get_mut(usize::try_from(index).ok()?)?
            .push(Step::Change(0, signal, value));
    }
    Some(())
}

/// The calls of a recording that leaves this block.
fn block(bytes: &mut Bytes, kinds: &[u32]) -> Option<Vec<Step>> {
    let (size, count, signals) = (bytes.u32()?, bytes.u32()?, bytes.u32()?);
    let offsets = (0..signals).map(|_| bytes.u32()).collect::<Option<Vec<u32>>>()?;
    let times = (0..count).map(|_| bytes.u64()).collect::<Option<Vec<u64>>>()?;
    let before = 12 + 4 * offsets.len() + 8 * times.len();
    let data = bytes.take((size as usize).checked_sub(before)?)?;
    let mut at = vec![Vec::new(); times.len()];
    let present = || (0..offsets.len()).filter(|signal| offsets[*signal] != 0);
    let mut ends = present().skip(1).map(|signal| offsets[signal] as usize - 1);
    for signal in present() {
        let end = ends.next().unwrap_or(data.len());
        let piece = data.get(offsets[signal] as usize - 1..end)?;
        part(piece, signal as u32, *kinds.get(signal)?, &mut at)?;
    }
    let steps = times.into_iter().zip(at);
    let steps = steps.flat_map(|(time, changes)| [vec![Step::Time(0, time)], changes].concat());
    Some(steps.chain([Step::Finish]).collect())
}

/// A recording for each block; of an image without blocks, one without times.
fn read_off(image: &[u8]) -> Option<Vec<Recording>> {
    let mut bytes = Bytes(image);
    let (signals, limit, blocks, _) = (bytes.u32()?, bytes.u32()?, bytes.u32()?, bytes.u32()?);
    let kinds = (0..signals).map(|_| bytes.u32()).collect::<Option<Vec<u32>>>()?;
    let limit = u16::try_from(limit).ok()?;
    // an image tells nothing of the edition and of probes, and these calls have no skip
    let recording = |steps| Recording::plain(limit, kinds.clone(), steps);
    if blocks == 0 {
        return Some(vec![recording(vec![Step::Finish])]);
    }
    (0..blocks).map(|_| block(&mut bytes, &kinds).map(recording)).collect()
}

/// What a recording leaves, if none of its calls is refused.
fn left(r: &Recording, room: usize) -> Option<Vec<u8>> {
    let limit = u32::from(r.limit);
    let mut m = Memory {
        times: vec![0; limit as usize], // zeros cost least
        ..Memory::fresh(&r.kinds, 0, 16 * room, room)
    };
    paper::start(&mut m, limit, r.kinds.len() as u32, r.edition).ok()?;
    let mut last = Answer::Started;
    for step in &r.steps {
        last = paper::step(&mut m, step).ok()?;
    }
    let Answer::Finished(total) = last else { return None };
    m.image.truncate(total as usize);
    Some(m.image)
}

/// The recordings, one for each block, and their history, if the bytes are an image.
pub fn opened(image: &[u8]) -> Option<(Vec<Recording>, History)> {
    let recordings = read_off(image)?;
    let mut all: Option<(Vec<u8>, History)> = None;
    for r in &recordings {
        let (bytes, history) = (left(r, image.len())?, History::of(r));
        all = Some(match all {
            None => (bytes, history),
            Some((before, earlier)) => (joined(&before, &bytes, image.len()).ok()?, earlier.followed(&history)),
        });
    }
    let (bytes, history) = all?;
    (bytes == image).then_some((recordings, history))
}
