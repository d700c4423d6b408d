//! Measures our wave memory and the Rust's on the same calls, in one process, and prints the tables of docs/BENCHMARKS.md.

mod clock;
mod cursor;
mod ours;
mod symbols;
mod workload;

use clock::{Pairs, Spread, timed};
use ours::Ours;
use std::hint::black_box;
use wejumo::{Image, Kind, States, entry_length};
use wellen::oracle::bench::{Loader, Recording, Signals, loaded};
use workload::{Call, REAL, Values, Workload};

const TWO: Values = Values::Vcd { four: 0, nine: 0 };
const MIXED: Values = Values::Vcd { four: 10, nine: 5 };

fn workloads() -> Vec<Workload> {
    let all = |kind: u32, count: usize| vec![kind; count];
    let many = (0..65_536).map(|s| [1, 1, 1, 8, 32][s % 5]).collect();
    let every = (0..1_000).map(|s| [1, 1, 8, 32, 64, 0, REAL, 256][s % 8]).collect();
    vec![
        Workload::new(
            "width 1",
            65_535,
            all(1, 64),
            10_000,
            20,
            Values::Vcd { four: 5, nine: 1 },
        ),
        Workload::new("width 1, blocks of 500 times", 500, all(1, 64), 10_000, 20, TWO),
        Workload::new("width 8", 65_535, all(8, 64), 10_000, 20, TWO),
        Workload::new("width 64", 65_535, all(64, 64), 2_000, 20, TWO),
        Workload::new("width 1,024", 65_535, all(1_024, 32), 500, 10, TWO),
        Workload::new("width 1,024, all classes", 65_535, all(1_024, 32), 500, 10, MIXED),
        Workload::new(
            "width 1,024, raw",
            65_535,
            all(1_024, 32),
            2_000,
            20,
            Values::Raw { claim: 0 },
        ),
        Workload::new(
            "width 1,024, raw, claim Nine",
            65_535,
            all(1_024, 32),
            500,
            10,
            Values::Raw { claim: 2 },
        ),
        Workload::new("events", 65_535, all(0, 64), 10_000, 20, TWO),
        Workload::new("reals", 65_535, all(REAL, 64), 10_000, 20, TWO),
        Workload::new("65,536 signals", 65_535, many, 10_000, 40, TWO),
        Workload::new("1,000 signals of all kinds", 65_535, every, 10_000, 10, MIXED),
    ]
}

/// The Rust's recording up to its finish.
fn recorded(signals: &Signals, w: &Workload) -> Recording {
    let mut r = Recording::start(signals);
    for call in &w.calls {
        match *call {
            Call::Time(time) => r.time(time),
            Call::Vcd(signal, at, length) => r.vcd(signal, w.part(at, length)),
            Call::Raw(signal, claim, at, length) => r.raw(signal, claim.into(), w.part(at, length)),
            Call::Real(signal, bits) => r.real(signal, bits),
        }
    }
    r
}

/// Both sides of a workload: our buffers, and the Rust's signals and loader. They have made the same bytes.
struct Sides {
    w: Workload,
    ours: Ours,
    image: Vec<u8>,
    signals: Signals,
    loader: Loader,
    index: Vec<u32>,
    bytes: Vec<u8>,
}

impl Sides {
    fn new(w: Workload) -> Sides {
        let signals = Signals::new(w.limit, &w.kinds);
        let mut ours = Ours::new(&w);
        let length = ours.record(&w);
        let mut rust = recorded(&signals, &w);
        rust.finish();
        let loader = rust.loader();
        let image = ours.image(length).to_vec();
        assert!(image == loader.image(&w.kinds), "{}: images differ", w.name);
        let (mut entries, mut bytes) = (0, 0);
        for signal in loader.load_all(&signals) {
            entries += loaded(&signal).0.len();
            bytes += loaded(&signal).1.len();
        }
        let sides = Sides {
            w,
            ours,
            image,
            signals,
            loader,
            index: vec![1; entries],
            bytes: vec![1; bytes],
        };
        sides.same_loads();
        sides
    }

    /// Every signal is loaded alike.
    fn same_loads(&self) {
        let (mut index, mut bytes) = (self.index.clone(), self.bytes.clone());
        let image = Image::open(&self.image).expect("an image");
        for (signal, theirs) in self.loader.load_all(&self.signals).iter().enumerate() {
            let (indices, entries) = loaded(theirs);
            let answer = image.load(signal as u32, &mut index, &mut bytes).expect("loaded");
            assert!(answer.count as usize == indices.len() && index[..indices.len()] == *indices);
            assert!(bytes[..entries.len()] == *entries, "{}: signal {signal}", self.w.name);
        }
    }

    fn recording(&mut self, repetitions: usize) -> Pairs {
        let Sides { w, ours, signals, .. } = self;
        let rust = || {
            timed(|| {
                let mut r = recorded(signals, w);
                r.finish();
                r
            })
            .0
        };
        Pairs::measure(repetitions, || timed(|| ours.record(w)).0, rust)
    }

    fn cutting(&mut self, repetitions: usize) -> Pairs {
        let Sides { w, ours, signals, .. } = self;
        let (state, before) = ours.unfinished(w);
        let rust = recorded(signals, w);
        let cut = || {
            let mut r = rust.clone();
            timed(|| r.finish()).0
        };
        let our_cut = || {
            ours.restore(&before);
            timed(|| ours.finish(state)).0
        };
        Pairs::measure(repetitions, our_cut, cut)
    }

    fn opening(&self, repetitions: usize) -> Pairs {
        let image = &self.image[..];
        Pairs::measure(
            repetitions,
            || timed(|| Image::open(image).is_some()).0,
            || timed(|| wejumo::sum(image)).0,
        )
    }

    /// The first signal with changes, `turns` times a measurement.
    fn loading(&mut self, repetitions: usize, turns: usize, opened: bool) -> Pairs {
        let bytes = &self.image[..];
        let image = Image::open(bytes).unwrap();
        let signal = first_changed(&image);
        let (index, out) = (&mut self.index, &mut self.bytes);
        let one = || {
            let said = match opened {
                true => image.load(black_box(signal), index, out),
                false => wejumo::load(black_box(bytes), signal, index, out),
            };
            said.unwrap()
        };
        let ours = repeated(turns, one);
        let rust = repeated(turns, || self.loader.load(&self.signals, black_box(signal)));
        Pairs::measure(repetitions, ours, rust)
    }

    fn loading_all(&mut self, repetitions: usize) -> Pairs {
        let bytes = &self.image[..];
        let (index, out) = (&mut self.index, &mut self.bytes);
        let ours = || timed(|| load_all(bytes, &self.w.kinds, index, out)).0;
        let rust = || timed(|| self.loader.load_all(&self.signals)).0;
        Pairs::measure(repetitions, ours, rust)
    }

    /// The image of the same calls made again from the last time on, and both images joined, as the Rust's `append` leaves them.
    fn again(&mut self) -> (Vec<u8>, Vec<u8>) {
        let w = self.w.again();
        let length = self.ours.record(&w);
        let second = self.ours.image(length).to_vec();
        let mut rust = recorded(&self.signals, &self.w);
        rust.append(recorded(&self.signals, &w));
        let wanted = rust.loader().image(&w.kinds);
        let mut out = vec![1; wanted.len()];
        assert_eq!(wejumo::join(&self.image, &second, &mut out), Ok(wanted.len() as u32));
        assert!(out == wanted, "{}: joined images differ", w.name);
        (second, out)
    }

    /// Against opening both and copying as many bytes: `append` moves a list of blocks, and neither copies nor tests a byte.
    fn joining(&self, second: &[u8], out: &mut [u8], repetitions: usize) -> Pairs {
        let first = &self.image[..];
        let mut copy = out.to_vec();
        let plain = || {
            assert!(Image::open(first).is_some() && Image::open(second).is_some());
            let (front, rest) = copy.split_at_mut(first.len());
            front.copy_from_slice(first);
            rest.copy_from_slice(&second[second.len() - rest.len()..]);
        };
        let ours = || timed(|| wejumo::join(first, second, out)).0;
        Pairs::measure(repetitions, ours, repeated(1, plain))
    }
}

/// The first signal with changes in the first block.
fn first_changed(image: &Image) -> u32 {
    let changed = |signal: &u32| !image.stream(0, *signal).is_empty();
    (0..image.signals()).find(changed).expect("a signal with changes")
}

fn repeated<T>(turns: usize, mut work: impl FnMut() -> T) -> impl FnMut() -> u64 {
    move || {
        timed(|| {
            for _ in 0..turns {
                black_box(work());
            }
        })
        .0
    }
}

/// Opens once, and loads each signal behind the one before it.
fn load_all(bytes: &[u8], kinds: &[u32], index: &mut [u32], out: &mut [u8]) -> usize {
    let image = Image::open(bytes).expect("an image");
    let (mut entries, mut used) = (0, 0);
    for (signal, kind) in kinds.iter().enumerate() {
        let answer = image
            .load(signal as u32, &mut index[entries..], &mut out[used..])
            .expect("loaded");
        let each = entry_length(Kind::from_number(*kind), answer.states);
        entries += answer.count as usize;
        used += answer.count as usize * each;
    }
    used
}

fn shown(s: &Spread) -> String {
    format!("{:.2} ({:.2} to {:.2})", s.median, s.low, s.high)
}

fn mark(s: &Spread, aim: f64) -> &'static str {
    if s.median <= aim { "met" } else { "missed" }
}

fn row(name: &str, pairs: &Pairs, each: f64, aim: Option<f64>) {
    let ratio = pairs.ratio();
    let met = aim.map_or("", |aim| mark(&ratio, aim));
    let (ours, rust) = (pairs.ours() / each, pairs.other() / each);
    println!("| {name} | {ours:.1} | {rust:.1} | {} | {met} |", shown(&ratio));
}

fn head(title: &str, columns: &str) {
    println!("\n{title}\n\n| workload | {columns} |");
    println!("|{}", "---|".repeat(columns.matches('|').count() + 2));
}

fn openings(sides: &[Sides]) {
    head(
        "## Opening",
        "bytes | ours, MB/s | plain loop, MB/s | ours / plain loop | aim: at most 4 for wide vectors",
    );
    for s in sides {
        let pairs = s.opening(51);
        let (ratio, length) = (pairs.ratio(), s.image.len() as f64);
        let met = if (64..REAL).contains(&s.w.kinds[0]) {
            mark(&ratio, 4.0)
        } else {
            ""
        };
        let (open, sum) = (length * 1000.0 / pairs.ours(), length * 1000.0 / pairs.other());
        println!(
            "| {} | {} | {open:.0} | {sum:.0} | {} | {met} |",
            s.w.name,
            s.image.len(),
            shown(&ratio)
        );
    }
}

fn joins(sides: &mut [Sides]) {
    head(
        "## Joining",
        "bytes | ours, µs | opening both and copying, µs | ours / these | ",
    );
    for s in sides {
        let (second, mut out) = s.again();
        let name = format!("{} | {}", s.w.name, out.len());
        row(&name, &s.joining(&second, &mut out, 31), 1_000.0, None);
    }
}

fn tables(only: Option<&str>) {
    let wanted = |w: &Workload| only.is_none_or(|name| w.name == name);
    let mut sides: Vec<Sides> = workloads().into_iter().filter(wanted).map(Sides::new).collect();
    let per_change = "ours, ns a change | Rust, ns a change | ours / Rust | aim: at most 1";
    head("## Recording", per_change);
    for s in &mut sides {
        row(&s.w.name.clone(), &s.recording(31), s.w.changes as f64, Some(1.0));
    }
    head("## Cutting", "ours, µs a cut | Rust, µs a cut | ours / Rust | ");
    for s in &mut sides {
        row(&s.w.name.clone(), &s.cutting(31), 1_000.0, None);
    }
    openings(&sides);
    joins(&mut sides);
    head(
        "## Loading one signal of an opened image",
        "ours, µs | Rust, µs | ours / Rust | aim: at most 1",
    );
    for s in &mut sides {
        row(&s.w.name.clone(), &s.loading(51, 20, true), 20_000.0, Some(1.0));
    }
    head(
        "## Loading one signal, opening included",
        "ours, µs | Rust (opens nothing), µs | ours / Rust | ",
    );
    for s in &mut sides {
        row(&s.w.name.clone(), &s.loading(15, 1, false), 1_000.0, None);
    }
    head("## Opening once and loading all signals", per_change);
    for s in &mut sides {
        row(&s.w.name.clone(), &s.loading_all(31), s.w.changes as f64, Some(1.0));
    }
    cursor::table(&sides);
}

fn cursors() {
    let wanted = |w: &Workload| cursor::WORKLOADS.contains(&&w.name[..]);
    let sides: Vec<Sides> = workloads().into_iter().filter(wanted).map(Sides::new).collect();
    assert_eq!(sides.len(), cursor::WORKLOADS.len(), "a workload of the cursor's is gone");
    cursor::table(&sides);
}

fn flat_row(name: &str, s: &mut Sides, repetitions: usize) {
    let each = s.w.changes as f64;
    let record = s.recording(repetitions);
    let open = s.opening(repetitions);
    let load = s.loading_all(repetitions);
    let numbers = [record.ours(), record.other(), open.ours(), load.ours(), load.other()];
    let columns: Vec<String> = numbers.iter().map(|n| format!("{:.1}", n / each)).collect();
    println!("| {name} | {} | {} |", s.image.len(), columns.join(" | "));
}

fn flatness() {
    let columns =
        "bytes | recording, ours | recording, Rust | opening, ours | opening and loading all, ours | loading all, Rust";
    head(
        "## Cost of a change by the number of signals\n\nWidth 1, 1,000,000 changes; ns a change.",
        columns,
    );
    for signals in [10, 100, 1_000, 10_000, 65_536] {
        let w = Workload::new("", 65_535, vec![1; signals], 50_000, 20, TWO);
        flat_row(&signals.to_string(), &mut Sides::new(w), 7);
    }
    head(
        "## Cost of a change by the number of changes\n\n100 signals of width 1, ten changes at each time; ns a change.",
        columns,
    );
    for changes in [1_000, 10_000, 100_000, 1_000_000, 10_000_000] {
        let w = Workload::new("", 65_535, vec![1; 100], changes / 10, 10, TWO);
        flat_row(
            &changes.to_string(),
            &mut Sides::new(w),
            if changes > 1_000_000 { 3 } else { 15 },
        );
    }
}

fn main() {
    let words: Vec<String> = std::env::args().skip(1).collect();
    let words: Vec<&str> = words.iter().map(String::as_str).collect();
    match words[..] {
        [] => {
            tables(None);
            symbols::table();
            flatness();
        }
        ["cursor"] => cursors(),
        ["symbols"] => symbols::table(),
        ["flatness"] => flatness(),
        [name] => tables(Some(name)),
        _ => panic!("usage: bench [WORKLOAD | cursor | symbols | flatness]"),
    }
}
