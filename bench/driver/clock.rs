//! Time of this thread on a processor, so that other programs cost little of it, and what several measurements say.

#[repr(C)]
struct Timespec {
    seconds: i64,
    nanoseconds: i64,
}

unsafe extern "C" {
    fn clock_gettime(clock: i32, time: *mut Timespec) -> i32;
}

const THREAD_CPU: i32 = 3;

/// Nanoseconds of processor time that this thread has used.
fn now() -> u64 {
    let mut time = Timespec {
        seconds: 0,
        nanoseconds: 0,
    };
    assert_eq!(unsafe { clock_gettime(THREAD_CPU, &mut time) }, 0);
    time.seconds as u64 * 1_000_000_000 + time.nanoseconds as u64
}

/// Nanoseconds that `work` takes.
pub fn timed<T>(work: impl FnOnce() -> T) -> (u64, T) {
    let start = now();
    let result = std::hint::black_box(work());
    (now() - start, result)
}

/// Measurements in nanoseconds, two a pair: ours, and what it is held against.
#[derive(Default)]
pub struct Pairs(Vec<(u64, u64)>);

/// A median between its quartiles.
pub struct Spread {
    pub low: f64,
    pub median: f64,
    pub high: f64,
}

fn spread(mut numbers: Vec<f64>) -> Spread {
    numbers.sort_by(f64::total_cmp);
    let at = |part: usize| numbers[(numbers.len() - 1) * part / 4];
    Spread {
        low: at(1),
        median: at(2),
        high: at(3),
    }
}

impl Pairs {
    /// Takes turns, so that neither side is always the first.
    pub fn measure(repetitions: usize, mut ours: impl FnMut() -> u64, mut other: impl FnMut() -> u64) -> Pairs {
        // Once before, so that code and buffers have been touched.
        ours();
        other();
        let mut pairs = Pairs::default();
        for turn in 0..repetitions {
            let pair = if turn % 2 == 0 {
                let first = ours();
                (first, other())
            } else {
                let second = other();
                (ours(), second)
            };
            pairs.0.push(pair);
        }
        pairs
    }

    /// Ours through the other.
    pub fn ratio(&self) -> Spread {
        spread(self.0.iter().map(|pair| pair.0 as f64 / pair.1 as f64).collect())
    }

    pub fn ours(&self) -> f64 {
        spread(self.0.iter().map(|pair| pair.0 as f64).collect()).median
    }

    pub fn other(&self) -> f64 {
        spread(self.0.iter().map(|pair| pair.1 as f64).collect()).median
    }
}
