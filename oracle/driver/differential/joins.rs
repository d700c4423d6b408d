//! Joins on all sides: recordings made by the Rust and by ours, appended by the Rust and joined by ours, and document 02 read a second time.

use crate::compare::{Compared, Tally, agree, none, read, recording, rust, smaller};
use crate::generate::restarts;
use crate::history::History;
use crate::join::Pair;
use crate::limits;
use crate::memory::{BYTE, Recording, difference};
use crate::ours;
use crate::random::Random;
use crate::refusals::Refusals;
use wellen::oracle::whole::{Made, made};

/// What was compared.
#[derive(Default)]
pub struct Joins {
    pub tally: Tally,
    /// Joins that the Rust made too; those where the times meet, and those with an empty second.
    pub joined: u64,
    pub meeting: u64,
    pub empty: u64,
    /// Calls of ours, and those refused.
    pub calls: u64,
    pub refused: u64,
}

/// A recording or a join: what ours left, what it says, and what the Rust holds.
#[derive(Clone)]
pub struct Side {
    kinds: Vec<u32>,
    pub image: Vec<u8>,
    history: History,
    rust: Made,
}

/// A recording, compared on all sides; memory seldom in a long one.
pub fn recorded(r: &Recording, random: &mut Random, tally: &mut Tally) -> Result<Side, String> {
    let every = if r.steps.len() > 2000 { 4096 } else { 1 };
    Ok(Side {
        kinds: r.kinds.clone(),
        image: recording(r, every, random, tally)?,
        history: History::of(r),
        rust: made(r.edition, r.limit, &r.kinds, &r.probes, &r.steps).ok_or("the Rust panics")?,
    })
}

/// The first image with the second appended by the Rust, where the images are joined already.
pub fn appended(
    first: &Side,
    second: &Side,
    image: Vec<u8>,
    random: &mut Random,
    tally: &mut Tally,
) -> Result<Side, String> {
    let side = Side {
        kinds: first.kinds.clone(),
        image,
        history: first.history.followed(&second.history),
        rust: first.rust.appended(&second.rust).ok_or("the Rust panics at append")?,
    };
    read(&side.image, &side.kinds, &side.history, random, tally)?;
    let whole = side.rust.clone().whole().ok_or("the Rust panics after append")?;
    rust(&whole, &side.image, &side.kinds, &side.history)?;
    Ok(side)
}

/// Which neighbours are joined next.
#[derive(Clone, Copy)]
enum Grouping {
    Left,
    Right,
    Any,
}

struct Comparison<'a> {
    random: &'a mut Random,
    seen: &'a mut Joins,
    refusals: &'a mut Refusals,
}

impl Comparison<'_> {
    /// One join by ours and by document 02, with so many bytes lent. A refusal leaves them, and nothing past the total is written.
    fn in_room(&mut self, pair: &Pair, room: usize) -> Result<Option<Vec<u8>>, String> {
        let mut out = vec![BYTE; room];
        let answer = ours::join(pair.first, pair.second, &mut out);
        self.seen.calls += 1;
        match pair.join(room) {
            Ok(image) => {
                agree("join", answer, Ok(image.len() as u32))?;
                let (written, rest) = out.split_at(image.len());
                none("joined image", difference("byte", written, &image))?;
                agree("bytes past the total", rest, &vec![BYTE; rest.len()])?;
                Ok(Some(image))
            }
            Err(turned) => {
                self.seen.refused += 1;
                self.refusals.count(&turned.why);
                agree("refused join", answer, Err(turned.number))?;
                agree("output after a refusal", out, vec![BYTE; room])?;
                Ok(None)
            }
        }
    }

    /// One join with more room than needed, none, exactly so much, one byte less, and less.
    fn joined(&mut self, first: &[u8], second: &[u8]) -> Result<Option<Vec<u8>>, String> {
        let pair = Pair::new(first, second);
        let enough = first.len() + second.len() + self.random.below(9);
        let image = self.in_room(&pair, enough)?;
        self.in_room(&pair, 0)?;
        if let Some(image) = &image {
            self.in_room(&pair, image.len())?;
            self.in_room(&pair, image.len() - 1)?;
            let short = self.random.below(image.len());
            self.in_room(&pair, short)?;
        }
        Ok(image)
    }

    /// Joins neighbours until one is left, and says whether all were joined. Of two that cannot be, the first stays if it has a block.
    fn grouped(&mut self, sides: &[Side], grouping: Grouping) -> Result<(Vec<u8>, bool), String> {
        let (mut sides, mut all) = (sides.to_vec(), true);
        while sides.len() > 1 {
            let at = match grouping {
                Grouping::Left => 0,
                Grouping::Right => sides.len() - 2,
                Grouping::Any => self.random.below(sides.len() - 1),
            };
            let second = sides.remove(at + 1);
            let first = &sides[at];
            if let Some(image) = self.joined(&first.image, &second.image)? {
                let (end, start) = (first.history.times.last(), second.history.times.first());
                self.seen.joined += 1;
                self.seen.meeting += u64::from(end == start);
                self.seen.empty += u64::from(start.is_none());
                sides[at] = appended(first, &second, image, self.random, &mut self.seen.tally)?;
            } else {
                all = false;
                if first.history.times.is_empty() {
                    sides[at] = second;
                }
            }
        }
        Ok((sides.remove(0).image, all))
    }

    /// Pairs in any order, one with itself among them, and one with a byte changed.
    fn strangers(&mut self, sides: &[Side]) -> Compared {
        for _ in 0..2 {
            let mut any = || sides[self.random.below(sides.len())].image.clone();
            let (mut first, mut second) = (any(), any());
            self.joined(&first, &second)?;
            let spoilt = if self.random.chance(50) {
                &mut first
            } else {
                &mut second
            };
            let (at, byte) = (self.random.below(spoilt.len()), self.random.next() as u8);
            spoilt[at] = self.random.of(&[spoilt[at] ^ 1, spoilt[at].wrapping_add(1), byte]);
            self.joined(&first, &second)?;
        }
        Ok(())
    }

    fn all(&mut self, recordings: &[Recording]) -> Compared {
        let mut sides = Vec::new();
        for r in recordings {
            sides.push(recorded(r, self.random, &mut self.seen.tally)?);
        }
        self.strangers(&sides)?;
        let groupings: &[Grouping] = match sides.len() {
            2 => &[Grouping::Left],
            3 => &[Grouping::Left, Grouping::Right],
            _ => &[Grouping::Left, Grouping::Right, Grouping::Any],
        };
        let mut images = Vec::new();
        for grouping in groupings {
            let (image, all) = self.grouped(&sides, *grouping)?;
            images.extend(all.then_some(image));
        }
        let same = images.iter().all(|image| *image == images[0]);
        agree("images of all groupings are one", same, true)
    }
}

/// Leaves out calls of each recording while the sides still differ.
fn smallest(recordings: &[Recording]) -> Vec<Recording> {
    let differ = |recordings: &[Recording], seed| {
        let mut comparison = Comparison {
            random: &mut Random::new("smaller", seed, 0),
            seen: &mut Joins::default(),
            refusals: &mut Refusals::new(),
        };
        comparison.all(recordings).is_err()
    };
    let differs = |recordings: &[Recording]| (0..8).any(|seed| differ(recordings, seed));
    let mut least = recordings.to_vec();
    for at in 0..least.len() {
        let others = least.clone();
        least[at] = smaller(&least[at], |r| {
            let mut fewer = others.clone();
            fewer[at] = r.clone();
            differs(&fewer)
        });
    }
    least
}

/// Recordings, joined in several groupings.
fn compared(recordings: &[Recording], random: &mut Random, seen: &mut Joins, refusals: &mut Refusals) -> Compared {
    let mut comparison = Comparison { random, seen, refusals };
    comparison.all(recordings).map_err(|e| {
        let least = smallest(recordings);
        format!("{e}{}", least.iter().map(|r| format!("\n{r}")).collect::<String>())
    })
}

/// At the limits.
pub fn limits(random: &mut Random, wides: usize, seen: &mut Joins, refusals: &mut Refusals) -> Compared {
    let all = limits::restarted(random, wides);
    all.iter()
        .try_for_each(|recordings| compared(recordings, random, seen, refusals))
}

/// Two to four recordings.
pub fn item(random: &mut Random, seen: &mut Joins, refusals: &mut Refusals) -> Compared {
    let count = random.of(&[2, 2, 3, 3, 4]);
    let recordings = restarts(random, count);
    compared(&recordings, random, seen, refusals)
}
