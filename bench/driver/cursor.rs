//! The cursor in an opened image, beside what the Rust does for the same question: it loads the signal and looks up a place of the table.

use crate::clock::{Pairs, Spread};
use crate::{Sides, first_changed, head, mark, repeated};
use std::hint::black_box;
use wejumo::{Cursor, Image, Value};
use wellen::oracle::bench::value_at;
use wellen::oracle::whole::shown_at;

/// The workloads of the table.
pub const WORKLOADS: [&str; 3] = ["width 1", "width 64", "events"];

const TURNS: usize = 20;

fn table_of(image: &Image) -> Vec<u64> {
    let mut times = vec![0; image.times() as usize];
    image.table(&mut times).expect("room for the table");
    times
}

/// A value as the Rust shows it.
fn word(value: Value, symbols: &[u8]) -> String {
    match value {
        Value::Event => "event".to_string(),
        Value::Real(bits) => format!("{bits:016x}"),
        Value::Vector(states) => {
            let letters = symbols.iter().map(|symbol| b"01xzhuwl-"[*symbol as usize] as char);
            format!("{}:{}", states as u8, letters.collect::<String>())
        }
    }
}

/// With three digits: near the start of a table a cursor takes less than a hundredth of a load.
fn shown(s: &Spread) -> String {
    format!("{:.3} ({:.3} to {:.3})", s.median, s.low, s.high)
}

/// The entry's number, its time and its value.
fn found_at(image: &Image, signal: u32, time: u64, symbols: &mut [u8]) -> Option<(u32, u64, String)> {
    match image.cursor(signal, time, symbols).expect("room for the symbols") {
        Cursor::Found { number, time, value } => Some((number, time, word(value, symbols))),
        Cursor::Nothing => None,
    }
}

/// One signal of a workload, and the table.
struct Asked<'a> {
    sides: &'a Sides,
    image: Image<'a>,
    signal: u32,
    width: usize,
    times: Vec<u64>,
}

impl<'a> Asked<'a> {
    fn new(sides: &'a Sides) -> Asked<'a> {
        let image = Image::open(&sides.image).expect("an image");
        let signal = first_changed(&image);
        Asked {
            sides,
            image,
            signal,
            width: sides.w.kinds[signal as usize] as usize,
            times: table_of(&image),
        }
    }

    /// At every time of the table both show the same entry or none, and before the first time ours shows none.
    fn same_entries(&self) {
        let loaded = self.sides.loader.load(&self.sides.signals, self.signal);
        let mut symbols = vec![0; self.width];
        for (place, time) in self.times.iter().enumerate() {
            let ours = found_at(&self.image, self.signal, *time, &mut symbols);
            let rust = shown_at(&loaded, place as u32);
            let rust = rust.map(|(number, place, value)| (number, self.times[place as usize], value));
            assert_eq!(ours, rust, "{}: cursor at {time}", self.sides.w.name);
        }
        let before = self.times[0] - 1;
        assert_eq!(found_at(&self.image, self.signal, before, &mut symbols), None);
    }

    /// Against loading and looking up, and against looking up in what was loaded before.
    fn asking(&self, place: usize) -> (Pairs, Pairs) {
        let (image, loader, signals) = (&self.image, &self.sides.loader, &self.sides.signals);
        let (signal, time, place) = (self.signal, self.times[place], place as u32);
        let cursor = || {
            let mut symbols = vec![1; self.width];
            repeated(TURNS, move || {
                image.cursor(black_box(signal), black_box(time), &mut symbols)
            })
        };
        let loading = repeated(TURNS, || {
            let loaded = loader.load(signals, black_box(signal));
            black_box(value_at(&loaded, black_box(place))).is_some()
        });
        let loaded = loader.load(signals, signal);
        let looking = repeated(TURNS, || value_at(&loaded, black_box(place)));
        (
            Pairs::measure(51, cursor(), loading),
            Pairs::measure(51, cursor(), looking),
        )
    }

    fn rows(&self) {
        let last = self.times.len() - 1;
        for (name, place) in [("first time", 0), ("middle", last / 2), ("last time", last)] {
            let (pairs, looking) = self.asking(place);
            let each = |nanoseconds: f64| nanoseconds / TURNS as f64;
            let ratio = pairs.ratio();
            println!(
                "| {} | {name} | {:.0} | {:.0} | {} | {} | {:.0} |",
                self.sides.w.name,
                each(pairs.ours()),
                each(pairs.other()),
                shown(&ratio),
                mark(&ratio, 1.0),
                each(looking.other())
            );
        }
    }
}

/// Nothing where none of the workloads is measured.
pub fn table(sides: &[Sides]) {
    let measured: Vec<Asked> = sides
        .iter()
        .filter(|s| WORKLOADS.contains(&&s.w.name[..]))
        .map(Asked::new)
        .collect();
    if measured.is_empty() {
        return;
    }
    head(
        "## Cursor in an opened image",
        "asked at | ours, ns | Rust: loading and `get_offset`, ns | ours / Rust | aim: at most 1 | Rust: `get_offset` of a loaded signal, ns",
    );
    for asked in &measured {
        asked.same_entries();
        asked.rows();
    }
}
