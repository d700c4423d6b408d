//! rustc-hash 1 with the name that version 2 adds.

pub use original::*;

pub type FxBuildHasher = std::hash::BuildHasherDefault<FxHasher>;
