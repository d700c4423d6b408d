//! Document 02, 'Joining two recordings', read a second time: the refusals in their order, and the bytes.

use crate::opener::opened;
use crate::paper::{IMAGE_LIMIT, Turned, head, turn};

pub fn u32_at(image: &[u8], at: usize) -> u32 {
    u32::from_le_bytes(image[at..at + 4].try_into().unwrap())
}

fn u64_at(image: &[u8], at: usize) -> u64 {
    u64::from_le_bytes(image[at..at + 8].try_into().unwrap())
}

/// What a join looks at.
struct Parts<'a> {
    limit: u32,
    kinds: Vec<u32>,
    /// N.
    count: u32,
    blocks: &'a [u8],
    first_time: Option<u64>,
    last_time: Option<u64>,
}

/// By the layout, of an accepted image.
fn parts(image: &[u8]) -> Parts<'_> {
    let signals = u32_at(image, 0) as usize;
    let start = 16 + 4 * signals;
    let (mut at, mut first_time, mut last_time) = (start, None, None);
    while at < image.len() {
        let (size, times) = (u32_at(image, at) as usize, u32_at(image, at + 4) as usize);
        let time = |place: usize| u64_at(image, at + 12 + 4 * signals + 8 * place);
        first_time = first_time.or(Some(time(0)));
        last_time = Some(time(times - 1));
        at += size;
    }
    Parts {
        limit: u32_at(image, 4),
        kinds: (0..signals).map(|signal| u32_at(image, 16 + 4 * signal)).collect(),
        count: u32_at(image, 8),
        blocks: &image[start..],
        first_time,
        last_time,
    }
}

/// Two accepted images as one of at most `room` bytes: "head of the first with N summed and the new total, then the blocks in order".
pub fn joined(first: &[u8], second: &[u8], room: usize) -> Result<Vec<u8>, Turned> {
    let (a, b) = (parts(first), parts(second));
    let kinds = a.kinds.iter().zip(&b.kinds);
    turn(
        14,
        &[
            (a.kinds.len() != b.kinds.len(), "14 S differs"),
            (a.limit != b.limit, "14 B differs"),
            (kinds.into_iter().any(|(a, b)| a != b), "14 a kind differs"),
        ],
    )?;
    turn(15, &[(a.count == 0, "15 the first has no block")])?;
    let early = b.first_time.is_some() && b.first_time < a.last_time;
    turn(16, &[(early, "16 the second starts before the first ends")])?;
    let total = first.len() + b.blocks.len();
    turn(
        8,
        &[
            (total > room, "8 joined image exceeds the output"),
            (total as u64 > IMAGE_LIMIT, "8 joined image over the limit"),
        ],
    )?;
    let head = head(a.limit, a.count + b.count, total as u32, &a.kinds);
    Ok([&head, a.blocks, b.blocks].concat())
}

/// Any two byte strings, with what the opener says of each.
pub struct Pair<'a> {
    pub first: &'a [u8],
    pub second: &'a [u8],
    accepted: (bool, bool),
}

impl<'a> Pair<'a> {
    pub fn new(first: &'a [u8], second: &'a [u8]) -> Self {
        Pair {
            first,
            second,
            accepted: (opened(first).is_some(), opened(second).is_some()),
        }
    }

    pub fn join(&self, room: usize) -> Result<Vec<u8>, Turned> {
        turn(
            11,
            &[
                (!self.accepted.0, "11 the first is no image"),
                (!self.accepted.1, "11 the second is no image"),
            ],
        )?;
        joined(self.first, self.second, room)
    }
}
