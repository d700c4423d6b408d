//! Our side: lent buffers that are made once for a workload and touched before the first measurement, and not cleared between two.

use crate::workload::{Call, Workload};
use wejumo::{Answer, Edition, Kind, Recorder, State};

/// It sends all, as the Rust knows no other.
const PROBE: u8 = 0;

/// The records and the first time.
pub type Overwritten = (Vec<u64>, u64);

pub struct Ours {
    records: Vec<u64>,
    times: Vec<u64>,
    work: Vec<u8>,
    image: Vec<u8>,
}

impl Ours {
    pub fn new(w: &Workload) -> Ours {
        Ours {
            records: w
                .kinds
                .iter()
                .map(|kind| Kind::from_number(*kind).record(PROBE))
                .collect(),
            times: vec![1; w.limit as usize],
            work: vec![1; w.room()],
            image: vec![1; 16 + 4 * w.kinds.len() + w.room() + w.blocks() * (12 + 4 * w.kinds.len())],
        }
    }

    fn recorder(&mut self, state: State) -> Recorder<'_> {
        Recorder::resume(
            state,
            &mut self.records,
            &mut self.times,
            &mut self.work,
            &mut self.image,
        )
    }

    /// Start, calls and finish; the image's length.
    pub fn record(&mut self, w: &Workload) -> usize {
        let mut r = self.recorder(State::default());
        r.start(w.limit, Edition::One).expect("started");
        calls(&mut r, w);
        match r.finish() {
            Ok(Answer::Finished(total)) => total as usize,
            _ => panic!("not finished"),
        }
    }

    /// The state before a finish, and what a cut overwrites: the records and the first time.
    pub fn unfinished(&mut self, w: &Workload) -> (State, Overwritten) {
        let mut r = self.recorder(State::default());
        r.start(w.limit, Edition::One).expect("started");
        calls(&mut r, w);
        (r.state(), (self.records.clone(), self.times[0]))
    }

    /// A cut by a finish.
    pub fn finish(&mut self, state: State) {
        self.recorder(state).finish().expect("finished");
    }

    pub fn restore(&mut self, before: &Overwritten) {
        self.records.copy_from_slice(&before.0);
        self.times[0] = before.1;
    }

    pub fn image(&self, length: usize) -> &[u8] {
        &self.image[..length]
    }
}

fn calls(r: &mut Recorder, w: &Workload) {
    let sender = PROBE.into();
    for call in &w.calls {
        let said = match *call {
            Call::Time(time) => r.time(sender, time),
            Call::Vcd(signal, at, length) => r.vcd(sender, signal, w.part(at, length)),
            Call::Raw(signal, claim, at, length) => r.raw(sender, signal, claim.into(), w.part(at, length)),
            Call::Real(signal, bits) => r.real(sender, signal, bits),
        };
        assert!(said.is_ok());
    }
}

impl Workload {
    pub fn part(&self, at: u32, length: u32) -> &[u8] {
        &self.pool[at as usize..(at + length) as usize]
    }

    /// No more bytes than these are recorded; a short text is extended to its signal's width.
    pub fn room(&self) -> usize {
        let each = |call: &Call| match *call {
            Call::Vcd(signal, _, length) => 19 + length.max(self.kinds[signal as usize]),
            Call::Raw(_, _, _, length) => 19 + length,
            Call::Time(_) | Call::Real(..) => 19,
        };
        self.calls.iter().map(|call| each(call) as usize).sum()
    }

    /// At most so many blocks are cut.
    pub fn blocks(&self) -> usize {
        let times = self.calls.iter().filter(|call| matches!(call, Call::Time(_))).count();
        times / (self.limit as usize - 1) + 1
    }
}
