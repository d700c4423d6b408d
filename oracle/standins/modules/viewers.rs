//! Stand-in: the names that the file readers mention. Never reached.

use crate::WellenError;
use std::sync::Arc;
use std::sync::atomic::AtomicU64;

pub type ProgressCount = Arc<AtomicU64>;

impl From<crate::vcd::VcdParseError> for WellenError {
    fn from(_error: crate::vcd::VcdParseError) -> Self {
        unreachable!("stand-in")
    }
}

impl From<fst_reader::ReaderError> for WellenError {
    fn from(_error: fst_reader::ReaderError) -> Self {
        unreachable!("stand-in")
    }
}
