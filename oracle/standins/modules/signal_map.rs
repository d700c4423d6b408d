//! Stand-in for signal/map. Never reached.

pub struct SignalMap;
