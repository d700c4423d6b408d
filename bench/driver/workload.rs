//! Recordings to measure: kinds and a list of calls, made by a generator of numbers from the workload's own shape.

pub const REAL: u32 = 0xffff_fffe;

#[derive(Clone, Copy)]
pub enum Call {
    Time(u64),
    /// A signal, and where its text lies.
    Vcd(u32, u32, u32),
    /// A signal, a claim, and where its bytes lie.
    Raw(u32, u8, u32, u32),
    Real(u32, u64),
}

#[derive(Clone)]
pub struct Workload {
    pub name: String,
    pub limit: u32,
    pub kinds: Vec<u32>,
    pub calls: Vec<Call>,
    /// Texts and raw bytes.
    pub pool: Vec<u8>,
    pub changes: usize,
}

/// Marsaglia's xorshift of 64 bits.
pub struct Random(u64);

impl Random {
    pub fn new(seed: u64) -> Random {
        Random(seed.wrapping_mul(0x9e37_79b9_7f4a_7c15) | 1)
    }

    pub fn next(&mut self) -> u64 {
        self.0 ^= self.0 << 13;
        self.0 ^= self.0 >> 7;
        self.0 ^= self.0 << 17;
        self.0
    }

    pub fn below(&mut self, n: usize) -> usize {
        (self.next() >> 11) as usize % n
    }
}

/// The values that a workload's vectors take.
#[derive(Clone, Copy)]
pub enum Values {
    /// VCD text; of a hundred values, so many have an x or z, and so many an h, u, w, l or -.
    Vcd { four: usize, nine: usize },
    /// VCD text of these letters at random.
    Letters(&'static [u8]),
    /// VCD text of one letter, which is extended to the width.
    Short(u8),
    /// Packed bytes with a claim, which is also the values' class where it is Two.
    Raw { claim: u8 },
}

impl Workload {
    /// `times` times with `each` changes at each, of signals that are picked at random.
    pub fn new(name: &str, limit: u32, kinds: Vec<u32>, times: usize, each: usize, values: Values) -> Workload {
        let mut w = Workload {
            name: name.to_string(),
            limit,
            kinds,
            calls: Vec::new(),
            pool: Vec::new(),
            changes: times * each,
        };
        let random = &mut Random::new(7);
        let mut time = 0;
        for _ in 0..times {
            time += 1 + random.below(10) as u64;
            w.calls.push(Call::Time(time));
            for _ in 0..each {
                let signal = random.below(w.kinds.len()) as u32;
                w.change(signal, values, random);
            }
        }
        w
    }

    /// The same calls, from the last time on.
    pub fn again(&self) -> Workload {
        let mut w = self.clone();
        let times = |call: &Call| match call {
            Call::Time(time) => Some(*time),
            _ => None,
        };
        let first = self.calls.iter().find_map(times).expect("a time");
        let last = self.calls.iter().rev().find_map(times).expect("a time");
        for call in &mut w.calls {
            if let Call::Time(time) = call {
                *time += last - first;
            }
        }
        w
    }

    fn change(&mut self, signal: u32, values: Values, random: &mut Random) {
        let kind = self.kinds[signal as usize];
        let at = self.pool.len() as u32;
        if kind == REAL {
            let value = random.below(1_000_000) as f64 / 128.0;
            self.calls.push(Call::Real(signal, value.to_bits()));
            return;
        }
        match values {
            Values::Vcd { .. } if kind == 0 => {
                self.pool.push(b'1');
                self.calls.push(Call::Vcd(signal, at, 1));
            }
            Values::Vcd { four, nine } => {
                self.text(kind as usize, four, nine, random);
                self.calls.push(Call::Vcd(signal, at, self.pool.len() as u32 - at));
            }
            Values::Letters(letters) => {
                self.pool.push(b'b');
                let letters = (0..kind).map(|_| letters[random.below(letters.len())]);
                self.pool.extend(letters);
                self.calls.push(Call::Vcd(signal, at, 1 + kind));
            }
            Values::Short(letter) => {
                self.pool.extend([b'b', letter]);
                self.calls.push(Call::Vcd(signal, at, 2));
            }
            Values::Raw { claim } => {
                self.packed(kind as usize, claim, random);
                self.calls
                    .push(Call::Raw(signal, claim, at, self.pool.len() as u32 - at));
            }
        }
    }

    fn text(&mut self, width: usize, four: usize, nine: usize, random: &mut Random) {
        let at = self.pool.len();
        if width > 1 {
            self.pool.push(b'b');
        }
        for _ in 0..width {
            self.pool.push(b"01"[random.below(2)]);
        }
        let percent = random.below(100);
        let last = self.pool.len() - 1 - random.below(width.min(self.pool.len() - at));
        if percent < nine {
            self.pool[last] = b"huwl-"[random.below(5)];
        } else if percent < nine + four {
            self.pool[last] = b"xz"[random.below(2)];
        }
    }

    fn packed(&mut self, width: usize, claim: u8, random: &mut Random) {
        let bits = 1 << claim;
        let length = (width * bits).div_ceil(8);
        // every second and fourth bit 0: symbols of class Two in a wider claim
        let mask = [0xff, 0x55, 0x11][claim as usize];
        let unused = length * 8 - width * bits;
        for place in 0..length {
            let byte = random.next() as u8 & mask;
            self.pool.push(if place == 0 { byte & (0xff >> unused) } else { byte });
        }
    }
}
