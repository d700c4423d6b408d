//! The wave memory and the real Rust on the same calls. oracle/README.md says what is compared.

mod compare;
mod damaged;
mod generate;
mod history;
mod join;
mod joins;
mod limits;
mod memory;
mod opener;
mod ours;
mod pairs;
mod paper;
mod random;
mod refusals;
mod value;
mod values;

use compare::{Compared, Tally, agree};
use damaged::Damaged;
use joins::Joins;
use memory::Recording;
use pairs::Pairs;
use random::Random;
use refusals::Refusals;
use std::fs::File;
use std::io::{Read, Write};
use std::time::Instant;
use values::Values;
use wellen::oracle::whole::{Value, quiet, sheets};

/// How much of each group is run.
struct Size {
    name: &'static str,
    /// All texts and bytes of the small widths, not only the shorter ones; an image of the largest length.
    whole: bool,
    values: u64,
    recordings: u64,
    longs: usize,
    mixed: u64,
    editions: u64,
    probes: u64,
    pairs: u64,
    altered: u64,
    joins: u64,
    wides: u64,
    damaged: u64,
}

const SIZES: [Size; 2] = [
    Size {
        name: "bounded",
        whole: false,
        values: 40_000,
        recordings: 16_000,
        longs: 1,
        mixed: 6_000,
        editions: 6_000,
        probes: 6_000,
        pairs: 4_000,
        altered: 6_000,
        joins: 6_000,
        wides: 1,
        damaged: 40,
    },
    Size {
        name: "full",
        whole: true,
        values: 200_000,
        recordings: 100_000,
        longs: 20,
        mixed: 30_000,
        editions: 60_000,
        probes: 60_000,
        pairs: 40_000,
        altered: 60_000,
        joins: 60_000,
        wides: 8,
        damaged: 400,
    },
];

struct Run {
    out: File,
    begun: Instant,
    seed: u64,
    values: Values,
    tally: Tally,
    /// Of edition 2, and of two probes in either edition.
    second: Tally,
    two: Tally,
    pairs: Pairs,
    refusals: Refusals,
    joins: Joins,
    damaged: Damaged,
}

impl Run {
    fn new(out: File, seed: u64) -> Self {
        Run {
            out,
            begun: Instant::now(),
            seed,
            values: Values::default(),
            tally: Tally::default(),
            second: Tally::default(),
            two: Tally::default(),
            pairs: Pairs::default(),
            refusals: Refusals::new(),
            joins: Joins::default(),
            damaged: Damaged::default(),
        }
    }

    fn say(&mut self, line: &str) {
        writeln!(self.out, "{line}").unwrap();
    }

    fn value(&mut self, kind: u32, index: u32, value: &Value) -> Compared {
        values::value(kind, index, value, &mut self.values).map_err(|e| {
            let r = values::as_recording(kind, index, value);
            format!("{}: {e}\n{r}", values::shown(kind, index, value))
        })
    }

    fn recording(&mut self, r: &Recording, random: &mut Random) -> Compared {
        let tally = if r.for_rust() {
            &mut self.tally
        } else if r.of_one() {
            &mut self.second
        } else {
            &mut self.two
        };
        let result = compare::recording(r, 1, random, tally);
        result.map(|_| ()).map_err(|e| {
            let differs = |r: &Recording| {
                let mut random = Random::new("smaller", 0, 0);
                compare::recording(r, 1, &mut random, &mut Tally::default()).is_err()
            };
            format!("{e}\n{}", compare::smaller(r, differs))
        })
    }

    /// Edition 2, half of the recordings with refused calls between.
    fn edition_2(&mut self, random: &mut Random) -> Compared {
        if random.chance(50) {
            return refusals::mixed(random, 2, false, &mut self.second);
        }
        let r = generate::recording(random, 2, false);
        self.recording(&r, random)
    }

    /// Two probes in either edition, half of the recordings with refused calls between.
    fn two_probes(&mut self, random: &mut Random) -> Compared {
        let edition = random.of(&[1, 2]);
        if random.chance(50) {
            return refusals::mixed(random, edition, true, &mut self.two);
        }
        let r = generate::recording(random, edition, true);
        self.recording(&r, random)
    }

    /// One item of a group that has items.
    fn item(&mut self, group: &str, item: u64) -> Compared {
        let random = &mut Random::new(group, self.seed, item);
        match group {
            "values" => {
                let (kind, index, value) = values::random_value(random);
                self.value(kind, index, &value)
            }
            "recordings" => {
                let r = generate::recording(random, 1, false);
                self.recording(&r, random)
            }
            "mixed" => refusals::mixed(random, 1, false, &mut self.tally),
            "editions" => self.edition_2(random),
            "probes" => self.two_probes(random),
            "pairs" => pairs::item(random, &mut self.pairs),
            "altered" => refusals::altered(random, &mut self.refusals),
            "joined-limits" => joins::limits(random, item as usize, &mut self.joins, &mut self.refusals),
            "joins" => joins::item(random, &mut self.joins, &mut self.refusals),
            "damaged" => damaged::item(random, &mut self.tally, &mut self.damaged),
            "limits" => limits::recordings(random, item as usize, &mut self.tally),
            _ => Err(format!("no group {group}")),
        }
    }

    fn items(&mut self, group: &str, count: u64) -> Compared {
        (0..count).try_for_each(|item| self.one(group, item))
    }

    fn one(&mut self, group: &str, item: u64) -> Compared {
        let seed = self.seed;
        self.item(group, item).map_err(|e| {
            format!(
                "MISMATCH in {group}, seed {seed}, item {item}\nreplay: differential replay {group} {seed} {item}\n{e}"
            )
        })
    }

    /// Says what has passed, with the seconds since the beginning.
    fn passed(&mut self, what: String) {
        let seconds = self.begun.elapsed().as_secs_f64();
        self.say(&format!("{seconds:5.1} s {what}"));
    }

    fn all(&mut self, size: &Size) -> Compared {
        values::exhaustive(size.whole, &mut |kind, index, value| self.value(kind, index, value))?;
        self.passed(format!("single values, exhaustively: {}", self.values.asked()));
        self.items("values", size.values)?;
        let (asked, bad, left_out) = (self.values.asked(), self.values.bad, self.values.left_out);
        self.passed(format!(
            "single values: {asked} ({bad} bad, {left_out} without the Rust: u, w or - extends them)"
        ));
        self.items("recordings", size.recordings)?;
        self.passed(recorded(&self.tally));
        self.items("mixed", size.mixed)?;
        self.passed(format!("with refused calls between: {}", recorded(&self.tally)));
        self.one("limits", size.longs as u64)?;
        self.passed(format!("with the limits: {}", recorded(&self.tally)));
        self.editions(size.editions)?;
        self.probes(size.probes)?;
        self.pairs(size.pairs)?;
        self.items("altered", size.altered)?;
        let (calls, refused) = (self.refusals.calls, self.refusals.refused);
        self.passed(format!("calls on states altered and not: {calls}, {refused} refused"));
        self.fixed(size.whole)?;
        self.passed(
            "image limit and joined totals on mapped memory, S of 65,536, skipped counts at their tops".to_string(),
        );
        self.items("joins", size.joins)?;
        self.passed(self.joined());
        self.one("joined-limits", size.wides)?;
        self.passed(format!("with the limits: {}", self.joined()));
        self.items("damaged", size.damaged)?;
        let Damaged { images, accepted } = self.damaged;
        self.passed(format!(
            "damaged images: {images}, {accepted} accepted, loaded and recorded again"
        ));
        self.conditions()
    }

    fn editions(&mut self, count: u64) -> Compared {
        self.items("editions", count)?;
        let (told, returned) = (recorded(&self.second), self.second.returned);
        self.passed(format!(
            "edition 2, without the Rust: {told}; {returned} skips ended by an equal time"
        ));
        agree("an equal time ended a skip", returned > 0, true)
    }

    fn probes(&mut self, count: u64) -> Compared {
        self.items("probes", count)?;
        let (told, returned, beside) = (recorded(&self.two), self.two.returned, self.two.beside);
        self.passed(format!(
            "two probes, without the Rust: {told}; {beside} changes recorded in a skip of the other probe, {returned} skips ended by an equal time"
        ));
        agree("one probe recorded in a skip of the other", beside > 0, true)
    }

    fn pairs(&mut self, count: u64) -> Compared {
        self.items("pairs", count)?;
        let p = &self.pairs;
        let told = format!(
            "pairs of lists that differ in the values of probe 0: {}, {} with another answer to probe 0, {} with another image; of probe 1, by each of two ways to read: {} signals, {} entries, {} cursors; {} left out, as a run met 7 or 8; {} calls in all",
            p.compared, p.answers, p.images, p.signals, p.entries, p.cursors, p.left_out, p.tally.calls
        );
        let (enough, answers, images, entries) = (p.compared > p.left_out, p.answers, p.images, p.entries);
        self.passed(told);
        agree("most pairs are compared", enough, true)?;
        agree("a pair has another answer to probe 0", answers > 0, true)?;
        agree("a pair has another image", images > 0, true)?;
        agree("a signal of probe 1 has entries", entries > 0, true)
    }

    fn fixed(&mut self, whole: bool) -> Compared {
        refusals::signals(&mut self.refusals)?;
        for (edition, probe) in [(1, 0), (1, 1), (2, 0), (2, 1)] {
            limits::skipped_count(edition, probe)?;
        }
        limits::image_limit(&mut self.refusals)?;
        limits::last_byte(&mut self.refusals)?;
        limits::largest_image(whole)?;
        limits::joined_total(whole, &mut self.refusals)
    }

    fn joined(&self) -> String {
        let (j, t) = (&self.joins, &self.joins.tally);
        format!(
            "joins: {} ({} at an equal time, {} with an empty second) of {} recordings, {} signals loaded, {} entries, {} cursors ({} before a signal's first change); {} calls, {} refused",
            j.joined, j.meeting, j.empty, t.recordings, t.signals, t.entries, t.cursors, t.early, j.calls, j.refused
        )
    }

    /// Every condition of the papers must have been the only one of a refusal.
    fn conditions(&mut self) -> Compared {
        let lines: Vec<String> = self
            .refusals
            .alone
            .iter()
            .map(|(name, count)| format!("    {count:8} {name}"))
            .collect();
        self.say("refusals by the one condition that held:");
        lines.iter().for_each(|line| self.say(line));
        match self.refusals.alone.iter().find(|(_, count)| **count == 0) {
            Some((name, _)) => Err(format!("never met alone: {name}")),
            None => Ok(()),
        }
    }

    fn calls(&mut self, text: &str) -> Compared {
        let sheets = sheets(text).ok_or("a line is no call")?;
        for (edition, limit, kinds, probes, steps) in sheets {
            let random = &mut Random::new("calls", self.seed, 0);
            let r = Recording {
                edition,
                limit,
                kinds,
                probes,
                steps,
            };
            self.recording(&r, random)?;
        }
        self.say(&recorded(&self.tally));
        self.say(&format!("edition 2, without the Rust: {}", recorded(&self.second)));
        self.say(&format!("two probes, without the Rust: {}", recorded(&self.two)));
        Ok(())
    }
}

fn recorded(t: &Tally) -> String {
    format!(
        "recordings: {} ({} of several blocks), {} calls, {} blocks, {} signals loaded, {} entries, {} cursors ({} before a signal's first change), {} refusals of the reader",
        t.recordings, t.several_blocks, t.calls, t.blocks, t.signals, t.entries, t.cursors, t.early, t.reader_refusals
    )
}

fn number(word: &str) -> u64 {
    word.parse().expect("a number")
}

fn asked(run: &mut Run, words: &[&str]) -> Compared {
    match words {
        ["replay", group, seed, item, ..] => {
            run.seed = number(seed);
            run.one(group, number(item))
        }
        ["calls", ..] => {
            let mut text = String::new();
            std::io::stdin().read_to_string(&mut text).unwrap();
            run.calls(&text)
        }
        [name, rest @ ..] if SIZES.iter().any(|size| size.name == *name) => {
            run.seed = rest.first().map_or(1, |seed| number(seed));
            run.say(&format!("differential runs, {name}, seed {}", run.seed));
            run.all(SIZES.iter().find(|size| size.name == *name).unwrap())
        }
        _ => {
            let forms = [
                "bounded|full [SEED]",
                "replay GROUP SEED ITEM [whole]",
                "calls [whole] <CALLS",
            ];
            forms.iter().for_each(|form| eprintln!("usage: differential {form}"));
            std::process::exit(2);
        }
    }
}

fn main() {
    let words: Vec<String> = std::env::args().skip(1).collect();
    let words: Vec<&str> = words.iter().map(String::as_str).collect();
    let mut run = Run::new(quiet(), 1);
    let Err(mismatch) = asked(&mut run, &words) else {
        return run.say("differential runs: no mismatch");
    };
    // a wide value's line is long
    let shown = if words.last() == Some(&"whole") {
        usize::MAX
    } else {
        200
    };
    let cut = |line: &str| line.chars().take(shown).collect::<String>();
    mismatch.lines().for_each(|line| run.say(&cut(line)));
    run.say("differential runs: MISMATCH");
    std::process::exit(1);
}
