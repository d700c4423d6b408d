//! Images, the calls that read any bytes, and joining two images.

use crate::ffi::{self, Content, CursorAnswer, EntryAnswer, JoinAnswer, LoadAnswer, Part, TableAnswer};
use crate::{numbers, Kind, Refusal, States};

/// The number of kept entries and the signal's class.
#[derive(Clone, Copy, Debug, PartialEq, Eq)]
pub struct Loaded {
    pub count: u32,
    pub states: States,
}

/// The content of an entry. A vector's symbols stand in the call's buffer, as many as its width.
#[derive(Clone, Copy, Debug, PartialEq)]
pub enum Value {
    Event,
    /// The value's own class.
    Vector(States),
    /// A real by its bits (`f64::from_bits`).
    Real(u64),
}

/// What the cursor answers: an entry's number, its time and its content.
#[derive(Clone, Copy, Debug, PartialEq)]
pub enum Cursor {
    Found {
        number: u32,
        time: u64,
        value: Value,
    },
    /// No entry is at or before the time: the time is before the signal's first change, or it has none. No symbol is written.
    Nothing,
}

/// What the bytes of an entry say.
#[derive(Clone, Copy, Debug, PartialEq)]
pub enum Entry {
    Value(Value),
    /// They are no entry of such a signal.
    NoEntry,
}

impl Value {
    fn from(content: Content) -> Value {
        match content.form {
            numbers::IS_VECTOR => Value::Vector(States::from_number(content.value_class)),
            numbers::IS_REAL => Value::Real(content.bits),
            _ => Value::Event,
        }
    }
}

fn loaded(answer: LoadAnswer) -> Result<Loaded, Refusal> {
    match answer.answer {
        numbers::LOADED => Ok(Loaded {
            count: answer.value,
            states: States::from_number(answer.signal_class),
        }),
        _ => Err(Refusal(answer.value)),
    }
}

fn tabled(answer: TableAnswer) -> Result<u32, Refusal> {
    match answer.answer {
        numbers::TABLE => Ok(answer.value),
        _ => Err(Refusal(answer.value)),
    }
}

fn pointed(answer: CursorAnswer) -> Result<Cursor, Refusal> {
    match answer.answer {
        numbers::FOUND => Ok(Cursor::Found {
            number: answer.value,
            time: answer.time,
            value: Value::from(answer.content),
        }),
        numbers::NOTHING => Ok(Cursor::Nothing),
        _ => Err(Refusal(answer.value)),
    }
}

fn part(image: &[u8], part: Part) -> &[u8] {
    &image[part.from..part.from + part.length]
}

/// Bytes that the opener accepted. They stay borrowed, so nothing changes them, and no later call opens them again.
#[derive(Clone, Copy, Debug)]
pub struct Image<'a> {
    bytes: &'a [u8],
}

impl<'a> Image<'a> {
    /// Opens: none where the bytes are no image.
    pub fn open(bytes: &'a [u8]) -> Option<Image<'a>> {
        // Safety: the slice is borrowed.
        let accepted = unsafe { ffi::wejumo_open(bytes.as_ptr(), bytes.len()) };
        (accepted == 1).then_some(Image { bytes })
    }

    pub fn bytes(&self) -> &'a [u8] {
        self.bytes
    }

    // Safety of the calls below: only `open` makes an Image, and only of bytes that the opener accepted; they are borrowed since. The
    // outputs are borrowed mutably, so they overlap nothing.

    pub fn signals(&self) -> u32 {
        unsafe { ffi::wejumo_opened_signals(self.bytes.as_ptr(), self.bytes.len()) }
    }

    pub fn blocks(&self) -> u32 {
        unsafe { ffi::wejumo_opened_blocks(self.bytes.as_ptr(), self.bytes.len()) }
    }

    /// The length of the combined table.
    pub fn times(&self) -> u32 {
        unsafe { ffi::wejumo_opened_times(self.bytes.as_ptr(), self.bytes.len()) }
    }

    /// Absent past the signals too.
    pub fn kind(&self, signal: u32) -> Kind {
        Kind::from_number(unsafe { ffi::wejumo_opened_kind(self.bytes.as_ptr(), self.bytes.len(), signal) })
    }

    /// Writes the indices and the bytes of a signal's kept entries. 4, 9.
    pub fn load(&self, signal: u32, index: &mut [u32], bytes: &mut [u8]) -> Result<Loaded, Refusal> {
        loaded(unsafe {
            ffi::wejumo_opened_load(
                self.bytes.as_ptr(),
                self.bytes.len(),
                signal,
                index.as_mut_ptr(),
                index.len(),
                bytes.as_mut_ptr(),
                bytes.len(),
            )
        })
    }

    /// Writes the combined table and answers its length. 9.
    pub fn table(&self, out: &mut [u64]) -> Result<u32, Refusal> {
        tabled(unsafe { ffi::wejumo_opened_table(self.bytes.as_ptr(), self.bytes.len(), out.as_mut_ptr(), out.len()) })
    }

    /// The stream of a signal in a block, without its class byte; empty where there is none.
    pub fn stream(&self, block: u32, signal: u32) -> &'a [u8] {
        part(self.bytes, unsafe {
            ffi::wejumo_opened_stream(self.bytes.as_ptr(), self.bytes.len(), block, signal)
        })
    }

    /// The last entry at or before a time; nothing before the first change. A vector's width of symbols must fit, even for nothing. 4, 9.
    pub fn cursor(&self, signal: u32, time: u64, symbols: &mut [u8]) -> Result<Cursor, Refusal> {
        pointed(unsafe {
            ffi::wejumo_opened_cursor(
                self.bytes.as_ptr(),
                self.bytes.len(),
                signal,
                time,
                symbols.as_mut_ptr(),
                symbols.len(),
            )
        })
    }
}

// Safety of the calls below: slices are borrowed, outputs mutably.

/// Loads a signal of any bytes. 11, 4, 9.
pub fn load(image: &[u8], signal: u32, index: &mut [u32], bytes: &mut [u8]) -> Result<Loaded, Refusal> {
    loaded(unsafe {
        ffi::wejumo_load(
            image.as_ptr(),
            image.len(),
            signal,
            index.as_mut_ptr(),
            index.len(),
            bytes.as_mut_ptr(),
            bytes.len(),
        )
    })
}

/// The combined table of any bytes. 11, 9.
pub fn table(image: &[u8], out: &mut [u64]) -> Result<u32, Refusal> {
    tabled(unsafe { ffi::wejumo_table(image.as_ptr(), image.len(), out.as_mut_ptr(), out.len()) })
}

/// The stream of a signal in a block of any bytes; empty where there is none.
pub fn stream(image: &[u8], block: u32, signal: u32) -> &[u8] {
    part(image, unsafe {
        ffi::wejumo_stream(image.as_ptr(), image.len(), block, signal)
    })
}

/// The last entry at or before a time, of any bytes; nothing before the first change. 11, 4, 9.
pub fn cursor(image: &[u8], signal: u32, time: u64, symbols: &mut [u8]) -> Result<Cursor, Refusal> {
    pointed(unsafe {
        ffi::wejumo_cursor(
            image.as_ptr(),
            image.len(),
            signal,
            time,
            symbols.as_mut_ptr(),
            symbols.len(),
        )
    })
}

/// Writes one image of the blocks of both to the start of an output, and answers its total. 11, 14, 15, 16, 8.
pub fn join(first: &[u8], second: &[u8], out: &mut [u8]) -> Result<u32, Refusal> {
    let answer: JoinAnswer = unsafe {
        ffi::wejumo_join(
            first.as_ptr(),
            first.len(),
            second.as_ptr(),
            second.len(),
            out.as_mut_ptr(),
            out.len(),
        )
    };
    match answer.answer {
        numbers::JOINED => Ok(answer.value),
        _ => Err(Refusal(answer.value)),
    }
}

/// The sum of the bytes, of which 64 bits are kept.
pub fn sum(bytes: &[u8]) -> u64 {
    unsafe { ffi::wejumo_sum(bytes.as_ptr(), bytes.len()) }
}

/// How many bytes each entry of such a signal takes.
pub fn entry_length(kind: Kind, states: States) -> usize {
    unsafe { ffi::wejumo_entry_length(kind.number(), states.number()) }
}

/// The bytes of one entry of such a signal. 9.
pub fn entry_value(bytes: &[u8], kind: Kind, states: States, symbols: &mut [u8]) -> Result<Entry, Refusal> {
    let answer: EntryAnswer = unsafe {
        ffi::wejumo_entry_value(
            bytes.as_ptr(),
            bytes.len(),
            kind.number(),
            states.number(),
            symbols.as_mut_ptr(),
            symbols.len(),
        )
    };
    match answer.answer {
        numbers::ENTRY => Ok(Entry::Value(Value::from(answer.content))),
        numbers::NO_ENTRY => Ok(Entry::NoEntry),
        _ => Err(Refusal(answer.value)),
    }
}
