//! Damaged images: the opener must accept what the reading of opener.rs accepts. An accepted one is loaded, recorded again on both sides, block
//! by block, and joined again; of a refused one nothing can be read.

use crate::compare::{Compared, Tally, agree, read};
use crate::generate::{Generator, kinds, restarts, small_kind};
use crate::join::{joined, u32_at};
use crate::joins::{appended, recorded};
use crate::memory::{BYTE, NUMBER, Recording, TIME};
use crate::opener::opened;
use crate::ours::{self, Source};
use crate::random::Random;
use wellen::oracle::whole::whole;

#[derive(Default)]
pub struct Damaged {
    pub images: u64,
    pub accepted: u64,
}

fn put(image: &mut [u8], at: usize, number: u32) {
    image[at..at + 4].copy_from_slice(&number.to_le_bytes());
}

/// Where the blocks of a sound image begin.
fn blocks(image: &[u8]) -> Vec<usize> {
    let mut at = 16 + 4 * u32_at(image, 0) as usize;
    let mut found = Vec::new();
    while at < image.len() {
        found.push(at);
        at += u32_at(image, at) as usize;
    }
    found
}

/// Where the numbers of 32 bits stand.
fn fields(image: &[u8]) -> Vec<usize> {
    let signals = u32_at(image, 0) as usize;
    let head = (0..4 + signals).map(|field| 4 * field);
    let in_block = |at: usize| (0..3 + signals).map(move |field| at + 4 * field);
    head.chain(blocks(image).into_iter().flat_map(in_block)).collect()
}

fn stranger(image: &[u8]) -> Compared {
    let (mut times, mut index, mut bytes) = ([TIME; 4], [NUMBER; 4], [BYTE; 8]);
    let source = Source::Bytes(image);
    agree("table of no image", source.table(&mut times), Err(11))?;
    agree("load of no image", source.load(0, &mut index, &mut bytes), Err(11))?;
    agree("cursor of no image", source.cursor(0, 0, 0, &mut bytes), Err(11))?;
    agree("stream of no image", source.stream(0, 0).len(), 0)?;
    agree("outputs", (times, index, bytes), ([TIME; 4], [NUMBER; 4], [BYTE; 8]))
}

/// One image, sound or not.
fn judged(image: &[u8], random: &mut Random, tally: &mut Tally, seen: &mut Damaged) -> Compared {
    seen.images += 1;
    let expected = opened(image);
    agree(
        "opener of ours and of the papers",
        ours::open(image),
        expected.is_some(),
    )?;
    let Some((recordings, history)) = expected else {
        if seen.images % 16 == 0 {
            stranger(image)?;
            tally.reader_refusals += 3;
        }
        return Ok(());
    };
    seen.accepted += 1;
    read(image, &recordings[0].kinds, &history, random, tally)?;
    agree("image recorded again", &again(&recordings, random, tally)?[..], image)
}

/// Recordings made by ours and by the Rust, joined by ours and appended by the Rust.
fn again(recordings: &[Recording], random: &mut Random, tally: &mut Tally) -> Result<Vec<u8>, String> {
    let mut all = recorded(&recordings[0], random, tally)?;
    for r in &recordings[1..] {
        let next = recorded(r, random, tally)?;
        let mut out = vec![BYTE; all.image.len() + next.image.len()];
        let total = ours::join(&all.image, &next.image, &mut out).map_err(|number| format!("join again: {number}"))?;
        out.truncate(total as usize);
        all = appended(&all, &next, out, random, tally)?;
    }
    Ok(all.image)
}

/// Every bit turned, every cut, bytes put in and taken out everywhere, every field at values that matter.
fn single_edits(image: &[u8], random: &mut Random, judge: &mut dyn FnMut(&[u8], &mut Random) -> Compared) -> Compared {
    for at in 0..image.len() {
        for bit in 0..8 {
            let mut other = image.to_vec();
            other[at] ^= 1 << bit;
            judge(&other, random)?;
        }
        judge(&image[..at], random)?;
        judge(&[&image[..at], &image[at + 1..]].concat(), random)?;
        let any = random.next() as u8;
        let byte = random.of(&[0, 1, 128, any]);
        judge(&[&image[..at], &[byte], &image[at..]].concat(), random)?;
    }
    judge(&[image, &[0]].concat(), random)?;
    for at in fields(image) {
        let old = u32_at(image, at);
        for new in [
            old.wrapping_add(1),
            old.wrapping_sub(1),
            0,
            1,
            2,
            65_535,
            65_536,
            65_537,
            u32::MAX,
            u32::MAX - 1,
        ] {
            let mut other = image.to_vec();
            put(&mut other, at, new);
            judge(&other, random)?;
        }
    }
    Ok(())
}

/// A byte more or less somewhere in the last block, or the last block left out, the numbers following.
fn resized(image: &[u8], random: &mut Random) -> Vec<u8> {
    let starts = blocks(image);
    let Some(last) = starts.last().copied() else {
        return image.to_vec();
    };
    if random.chance(15) {
        let mut fewer = image[..last].to_vec();
        let blocks = u32_at(image, 8) - 1;
        put(&mut fewer, 8, blocks);
        put(&mut fewer, 12, last as u32);
        return fewer;
    }
    let data = last + 12 + 4 * u32_at(image, 0) as usize + 8 * u32_at(image, last + 4) as usize;
    let mut other = image.to_vec();
    let (at, any) = (random.from_to(data, image.len()), random.next() as u8);
    match random.below(3) {
        0 if at < image.len() => {
            other.remove(at);
        }
        1 => other.splice(at..at, random.bytes(2)).for_each(drop),
        _ => other.insert(at, random.of(&[0, 1, 4, any])),
    }
    let (size, total) = ((other.len() - last) as u32, other.len() as u32);
    put(&mut other, last, size);
    put(&mut other, 12, total);
    other
}

/// Two edits, the first of which often leaves an image.
fn double_edit(image: &[u8], random: &mut Random) -> Vec<u8> {
    let mut other = if random.chance(70) {
        resized(image, random)
    } else {
        image.to_vec()
    };
    for _ in 0..random.from_to(0, 2) {
        if other.len() > 16 {
            let at = random.from_to(16, other.len() - 1);
            let (bit, any) = (1 << random.below(8), random.next() as u8);
            other[at] = random.of(&[other[at] ^ bit, other[at].wrapping_add(1), any]);
        }
    }
    other
}

/// What a recording leaves.
fn left(r: &Recording) -> Vec<u8> {
    let made = whole(r.edition, r.limit, &r.kinds, &r.probes, &r.steps);
    made.expect("no refusal").image
}

/// One recording, often of several blocks.
fn lone(random: &mut Random) -> Vec<u8> {
    let limit = random.of(&[2, 2, 3, 3, 5, 65_535]);
    let kinds = kinds(random, small_kind);
    let calls = random.from_to(2, 16);
    let mut generator = Generator::new(random, kinds);
    let steps = generator.calls(calls, 40);
    left(&generator.recording(limit, steps))
}

/// Two or three recordings joined, as far as they can be.
fn several(random: &mut Random) -> Vec<u8> {
    let count = random.from_to(2, 3);
    let images = restarts(random, count).iter().map(left).collect::<Vec<_>>();
    let both = |first: Vec<u8>, second: Vec<u8>| joined(&first, &second, usize::MAX).unwrap_or(second);
    images.into_iter().reduce(both).expect("two or more")
}

/// A small sound image.
fn sound(random: &mut Random) -> Vec<u8> {
    loop {
        let image = if random.chance(50) {
            lone(random)
        } else {
            several(random)
        };
        if image.len() <= 150 {
            return image;
        }
    }
}

/// A sound image with all single edits, and some double ones.
pub fn item(random: &mut Random, tally: &mut Tally, seen: &mut Damaged) -> Compared {
    let image = sound(random);
    let mut judge = |image: &[u8], random: &mut Random| {
        judged(image, random, tally, seen).map_err(|e| {
            let hex: String = image.iter().map(|byte| format!("{byte:02x}")).collect();
            format!("{e}\nimage {hex}")
        })
    };
    judge(&image, random)?;
    single_edits(&image, random, &mut judge)?;
    for _ in 0..300 {
        let other = double_edit(&image, random);
        judge(&other, random)?;
    }
    Ok(())
}
