//! Stand-in: nothing of it is named elsewhere.
