//! A child of the module `signal`: sees what a loaded signal keeps to itself.

use super::{ChangeData, Signal};

/// The stored bytes of all entries, one entry after the other.
pub(crate) fn entry_bytes(signal: &Signal) -> &[u8] {
    match &signal.data.0 {
        ChangeData::FixedLength { bytes, .. } => bytes,
        ChangeData::VariableLength(_) => unreachable!("no string signals here"),
    }
}
