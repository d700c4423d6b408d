//! Numbers of include/wejumo.h under its names, without their prefix. tests/numbers compares them.

pub const REAL: u32 = 0xFFFF_FFFE;
pub const ABSENT: u32 = 0xFFFF_FFFF;

pub const EDITION_1: u32 = 1;
pub const EDITION_2: u32 = 2;

pub const TWO: u32 = 0;
pub const FOUR: u32 = 1;

pub const STARTED: u32 = 1;
pub const TAKEN: u32 = 2;
pub const SAME: u32 = 3;
pub const BACK: u32 = 4;
pub const RECORDED: u32 = 5;
pub const SKIPPED: u32 = 6;
pub const FINISHED: u32 = 7;
pub const LOADED: u32 = 8;
pub const TABLE: u32 = 9;
pub const FOUND: u32 = 10;
pub const NOTHING: u32 = 11;
pub const ENTRY: u32 = 12;
pub const NO_ENTRY: u32 = 13;
pub const JOINED: u32 = 14;

pub const IS_VECTOR: u32 = 1;
pub const IS_REAL: u32 = 2;
