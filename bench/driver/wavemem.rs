//! A grandchild of the module `wavemem`: the Rust's calls as the bench makes them, on its private types.

use super::*;

/// The limit B, the encodings of the signals, and the hierarchy that `Encoder::new` reads.
pub struct Signals {
    limit: u16,
    encodings: Vec<SignalEncoding>,
    hierarchy: Hierarchy,
}

impl Signals {
    /// By the kinds' numbers: a width, or FFFFFFFE for a real.
    pub fn new(limit: u32, kinds: &[u32]) -> Signals {
        let encoding = |kind: &u32| match *kind {
            0xffff_fffe => SignalEncoding::Real,
            width => SignalEncoding::BitVector(width),
        };
        let encodings: Vec<SignalEncoding> = kinds.iter().map(encoding).collect();
        let mut builder = HierarchyBuilder::default();
        for encoding in &encodings {
            builder.new_signal(*encoding);
        }
        Signals {
            limit: limit as u16,
            encodings,
            hierarchy: builder.finish(),
        }
    }
}

/// A recording of the Rust.
#[derive(Clone)]
pub struct Recording(Encoder);

impl Recording {
    /// The limit is one number for all recordings, so each sets its own.
    #[inline]
    pub fn start(signals: &Signals) -> Recording {
        set_block_limit(signals.limit);
        Recording(Encoder::new(&signals.hierarchy))
    }

    #[inline]
    pub fn time(&mut self, time: u64) {
        self.0.time_change(time);
    }

    #[inline]
    pub fn vcd(&mut self, signal: u32, value: &[u8]) {
        self.0.vcd_value_change(signal.into(), value);
    }

    #[inline]
    pub fn raw(&mut self, signal: u32, claim: u32, value: &[u8]) {
        let states = [States::Two, States::Four, States::Nine][claim as usize];
        self.0
            .raw_value_change(SignalRef::from_index(signal as usize).unwrap(), value, states);
    }

    #[inline]
    pub fn real(&mut self, signal: u32, bits: u64) {
        self.0
            .real_change(SignalRef::from_index(signal as usize).unwrap(), f64::from_bits(bits));
    }

    /// What `finish` does before it combines the time tables.
    #[inline]
    pub fn finish(&mut self) {
        self.0.finish_block();
    }

    /// Behind a recording that has a block, one that starts at or after its end; the Rust only asserts both.
    pub fn append(&mut self, later: Recording) {
        self.0.append(later.0);
    }

    pub fn loader(self) -> Loader {
        Loader(Reader { blocks: self.0.blocks })
    }
}

/// What `finish` hands out to load from.
pub struct Loader(Reader);

impl Loader {
    #[inline]
    pub fn load(&self, signals: &Signals, signal: u32) -> Signal {
        let id = SignalRef::from_index(signal as usize).unwrap();
        self.0.load_signal(id, signals.encodings[signal as usize])
    }

    pub fn load_all(&self, signals: &Signals) -> Vec<Signal> {
        (0..signals.encodings.len() as u32)
            .map(|signal| self.load(signals, signal))
            .collect()
    }

    /// The bytes of all blocks, in the image's layout.
    pub fn image(&self, kinds: &[u32]) -> Vec<u8> {
        image(kinds, &self.0.blocks)
    }
}

/// The value that a loaded signal has at a place of the table: that of the last entry there, of which there are fewer than 65,536.
#[inline]
pub fn value_at(signal: &Signal, place: u32) -> Option<SignalValueRef<'_>> {
    let found = signal.get_offset(place)?;
    Some(signal.get_value_at(&found, found.elements - 1))
}

/// The indices and the entry bytes of a loaded signal.
pub fn loaded(signal: &Signal) -> (&[u32], &[u8]) {
    (signal.time_indices(), entry_bytes(signal))
}
