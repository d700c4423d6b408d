//! Safe calls of the wave memory: a recorder over lent buffers, and images, read and joined.
//!
//! Every duty that include/wejumo.h names, but for the stack, is met by the types: a Rust slice is not null, aligned and of its length, a `&mut` overlaps
//! nothing, and nothing writes a borrowed slice. What the functions do is proved in crates/interface; nothing is decided here.
//!
//! The calls of one thread need the stack that docs/ARCHITECTURE.md names.

mod ffi;
mod image;
mod numbers;
mod recorder;

pub use ffi::State;
pub use image::{
    cursor, entry_length, entry_value, join, load, stream, sum, table, Cursor, Entry, Image, Loaded, Value,
};
pub use recorder::{Answer, Edition, Recorder};

/// The number of a refusal: 1 to 11, 14 to 16 of a join, and 18 of a sender.
#[derive(Clone, Copy, Debug, PartialEq, Eq)]
pub struct Refusal(pub u32);

/// What a signal holds.
#[derive(Clone, Copy, Debug, PartialEq, Eq)]
pub enum Kind {
    /// A vector of a width; an event has width 0.
    Vector(u32),
    Real,
    Absent,
}

impl Kind {
    /// Its number, as a record or a head stores it. Of widths that no start takes, the last two numbers are not used: they are real and absent.
    pub fn number(self) -> u32 {
        match self {
            Kind::Vector(width) => width.min(numbers::REAL - 1),
            Kind::Real => numbers::REAL,
            Kind::Absent => numbers::ABSENT,
        }
    }

    pub fn from_number(number: u32) -> Kind {
        match number {
            numbers::ABSENT => Kind::Absent,
            numbers::REAL => Kind::Real,
            width => Kind::Vector(width),
        }
    }

    /// The record of a signal of this kind before a start, with the probe that sends its changes; a start refuses any but 0 and 1.
    pub fn record(self, probe: u8) -> u64 {
        u64::from(self.number()) + (u64::from(probe) << 32)
    }
}

/// How many states a symbol can have.
#[derive(Clone, Copy, Debug, PartialEq, Eq, PartialOrd, Ord)]
pub enum States {
    Two,
    Four,
    Nine,
}

impl States {
    fn from_number(number: u32) -> States {
        match number {
            numbers::TWO => States::Two,
            numbers::FOUR => States::Four,
            _ => States::Nine,
        }
    }

    fn number(self) -> u32 {
        self as u32
    }
}

#[cfg(test)]
mod tests;
