//! The functions and structs of include/wejumo.h. A slice is a pointer, never null, and a length.

#[repr(C)]
#[derive(Clone, Copy, Debug, Default, PartialEq, Eq)]
pub struct State {
    pub closed: u32,
    pub limit: u32,
    pub signals: u32,
    pub held: u32,
    pub work: u64,
    pub image: u32,
    pub blocks: u32,
    pub skip: u32,
    pub skipped: u32,
    pub edition: u32,
    pub skip_1: u32,
    pub skipped_1: u32,
}

#[repr(C)]
pub struct Outcome {
    pub answer: u32,
    pub value: u32,
    pub state: State,
}

#[repr(C)]
pub struct LoadAnswer {
    pub answer: u32,
    pub value: u32,
    pub signal_class: u32,
}

#[repr(C)]
pub struct TableAnswer {
    pub answer: u32,
    pub value: u32,
}

#[repr(C)]
pub struct JoinAnswer {
    pub answer: u32,
    pub value: u32,
}

#[repr(C)]
pub struct Part {
    pub from: usize,
    pub length: usize,
}

#[repr(C)]
pub struct Content {
    pub form: u32,
    pub value_class: u32,
    pub bits: u64,
}

#[repr(C)]
pub struct CursorAnswer {
    pub answer: u32,
    pub value: u32,
    pub time: u64,
    pub content: Content,
}

#[repr(C)]
pub struct EntryAnswer {
    pub answer: u32,
    pub value: u32,
    pub content: Content,
}

macro_rules! layout {
    ($name:ident, $size:expr, $($field:ident $offset:expr),+) => {
        const _: () = assert!(std::mem::size_of::<$name>() == $size);
        $(const _: () = assert!(std::mem::offset_of!($name, $field) == $offset);)+
    };
}

const _: () = assert!(usize::BITS == 64);
layout!(State, 56, closed 0, limit 4, signals 8, held 12, work 16, image 24, blocks 28, skip 32, skipped 36, edition 40, skip_1 44, skipped_1 48);
layout!(Outcome, 64, answer 0, value 4, state 8);
layout!(LoadAnswer, 12, answer 0, value 4, signal_class 8);
layout!(TableAnswer, 8, answer 0, value 4);
layout!(JoinAnswer, 8, answer 0, value 4);
layout!(Part, 16, from 0, length 8);
layout!(Content, 16, form 0, value_class 4, bits 8);
layout!(CursorAnswer, 32, answer 0, value 4, time 8, content 16);
layout!(EntryAnswer, 24, answer 0, value 4, content 8);

extern "C" {
    pub fn wejumo_start(
        state: State, limit: u32, signals: u32, edition: u32, records: *mut u64, records_length: usize,
        times: *const u64, times_length: usize, image: *mut u8, image_length: usize,
    ) -> Outcome;
    pub fn wejumo_time_change(
        state: State, records: *mut u64, records_length: usize, times: *mut u64, times_length: usize, work: *const u8,
        work_length: usize, image: *mut u8, image_length: usize, sender: u32, time: u64,
    ) -> Outcome;
    pub fn wejumo_vcd_value_change(
        state: State, records: *mut u64, records_length: usize, times: *const u64, times_length: usize, work: *mut u8,
        work_length: usize, image: *const u8, image_length: usize, sender: u32, signal: u32, value: *const u8,
        value_length: usize,
    ) -> Outcome;
    pub fn wejumo_raw_value_change(
        state: State, records: *mut u64, records_length: usize, times: *const u64, times_length: usize, work: *mut u8,
        work_length: usize, image: *const u8, image_length: usize, sender: u32, signal: u32, claim: u32,
        value: *const u8, value_length: usize,
    ) -> Outcome;
    pub fn wejumo_real_change(
        state: State, records: *mut u64, records_length: usize, times: *const u64, times_length: usize, work: *mut u8,
        work_length: usize, image: *const u8, image_length: usize, sender: u32, signal: u32, bits: u64,
    ) -> Outcome;
    pub fn wejumo_finish(
        state: State, records: *mut u64, records_length: usize, times: *mut u64, times_length: usize, work: *const u8,
        work_length: usize, image: *mut u8, image_length: usize,
    ) -> Outcome;

    pub fn wejumo_open(image: *const u8, image_length: usize) -> u32;
    pub fn wejumo_load(
        image: *const u8, image_length: usize, signal: u32, index: *mut u32, index_length: usize, bytes: *mut u8,
        bytes_length: usize,
    ) -> LoadAnswer;
    pub fn wejumo_table(image: *const u8, image_length: usize, out: *mut u64, out_length: usize) -> TableAnswer;
    pub fn wejumo_stream(image: *const u8, image_length: usize, block: u32, signal: u32) -> Part;
    pub fn wejumo_cursor(
        image: *const u8, image_length: usize, signal: u32, time: u64, symbols: *mut u8, symbols_length: usize,
    ) -> CursorAnswer;
    pub fn wejumo_entry_length(kind: u32, signal_class: u32) -> usize;
    pub fn wejumo_entry_value(
        bytes: *const u8, bytes_length: usize, kind: u32, signal_class: u32, symbols: *mut u8, symbols_length: usize,
    ) -> EntryAnswer;

    pub fn wejumo_join(
        first: *const u8, first_length: usize, second: *const u8, second_length: usize, out: *mut u8, out_length: usize,
    ) -> JoinAnswer;

    pub fn wejumo_sum(bytes: *const u8, bytes_length: usize) -> u64;

    pub fn wejumo_opened_signals(image: *const u8, image_length: usize) -> u32;
    pub fn wejumo_opened_blocks(image: *const u8, image_length: usize) -> u32;
    pub fn wejumo_opened_times(image: *const u8, image_length: usize) -> u32;
    pub fn wejumo_opened_kind(image: *const u8, image_length: usize, signal: u32) -> u32;
    pub fn wejumo_opened_load(
        image: *const u8, image_length: usize, signal: u32, index: *mut u32, index_length: usize, bytes: *mut u8,
        bytes_length: usize,
    ) -> LoadAnswer;
    pub fn wejumo_opened_table(image: *const u8, image_length: usize, out: *mut u64, out_length: usize) -> TableAnswer;
    pub fn wejumo_opened_stream(image: *const u8, image_length: usize, block: u32, signal: u32) -> Part;
    pub fn wejumo_opened_cursor(
        image: *const u8, image_length: usize, signal: u32, time: u64, symbols: *mut u8, symbols_length: usize,
    ) -> CursorAnswer;
}
