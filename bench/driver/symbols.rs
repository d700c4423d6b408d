//! Recording of text by its symbols: 0 and 1 alone, and others, in whole texts and in one that is extended.

use crate::workload::{Values, Workload};
use crate::{Sides, head, mark, shown};

const TEXTS: [(&str, Values); 5] = [
    ("0 1", Values::Letters(b"01")),
    ("x all over", Values::Letters(b"x")),
    ("0 1 x z", Values::Letters(b"01xz")),
    ("all nine", Values::Letters(b"01xzhuwl-")),
    ("bx, extended", Values::Short(b'x')),
];

/// A width with its name, and the times and the changes at each that are recorded.
const WIDTHS: [(u32, &str, usize, usize); 3] = [
    (8, "8", 10_000, 20),
    (64, "64", 2_000, 20),
    (1_024, "1,024", 500, 10),
];

pub fn table() {
    head(
        "## Recording text by its symbols",
        "ours, ns a change | Rust, ns a change | ours / Rust | aim: at most 1 | ours, ns a symbol | aim: at most 2 from width 64 on",
    );
    for (width, shown, times, each) in WIDTHS {
        for (text, values) in TEXTS {
            let name = format!("width {shown}, {text}");
            let w = Workload::new(&name, 65_535, vec![width; 32], times, each, values);
            row(&mut Sides::new(w), width);
        }
    }
}

fn row(s: &mut Sides, width: u32) {
    let pairs = s.recording(31);
    let (ratio, changes) = (pairs.ratio(), s.w.changes as f64);
    let (ours, rust) = (pairs.ours() / changes, pairs.other() / changes);
    let symbol = ours / width as f64;
    let met = if width < 64 {
        ""
    } else if symbol <= 2.0 {
        "met"
    } else {
        "missed"
    };
    println!(
        "| {} | {ours:.1} | {rust:.1} | {} | {} | {symbol:.2} | {met} |",
        s.w.name,
        shown(&ratio),
        mark(&ratio, 1.0)
    );
}
