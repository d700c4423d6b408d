//! The recorder.

use crate::ffi::{self, Outcome, State};
use crate::{numbers, Refusal};

/// Editions of the skip rule. A time below the last one starts a skip of the probe that sent it: the changes that this probe sends are counted,
/// not recorded, until one of its times ends the skip.
#[derive(Clone, Copy, Debug, PartialEq, Eq)]
pub enum Edition {
    /// Only a time above the last one ends a skip.
    One,
    /// A time equal to the last one ends it too.
    Two,
}

impl Edition {
    fn number(self) -> u32 {
        match self {
            Edition::One => numbers::EDITION_1,
            Edition::Two => numbers::EDITION_2,
        }
    }
}

/// What a call of the recorder answers, unless it is refused.
#[derive(Clone, Copy, Debug, PartialEq, Eq)]
pub enum Answer {
    Started,
    Taken,
    Same,
    Back,
    Recorded,
    Skipped,
    /// The total bytes of the image: so many at the start of the image buffer.
    Finished(u32),
}

/// A recording over lent buffers: a record of each signal, times for a block, work for a block, the image.
///
/// Two probes, 0 and 1, send times and changes; another sender, and a change of a signal whose record does not name its sender, is refused with 18.
/// A time is held against the last one, and a change falls at the last one, whoever sent that.
///
/// A refused call leaves state and buffers as they were.
pub struct Recorder<'a> {
    state: State,
    records: &'a mut [u64],
    times: &'a mut [u64],
    work: &'a mut [u8],
    image: &'a mut [u8],
}

impl<'a> Recorder<'a> {
    /// Lends the buffers; nothing is recorded before a start. `records` holds `Kind::record` of each signal.
    pub fn new(records: &'a mut [u64], times: &'a mut [u64], work: &'a mut [u8], image: &'a mut [u8]) -> Recorder<'a> {
        Recorder::resume(State::default(), records, times, work, image)
    }

    /// Goes on from a state that `state` gave; the buffers may be anything, as the calls judge them.
    pub fn resume(
        state: State, records: &'a mut [u64], times: &'a mut [u64], work: &'a mut [u8], image: &'a mut [u8],
    ) -> Recorder<'a> {
        Recorder {
            state,
            records,
            times,
            work,
            image,
        }
    }

    pub fn state(&self) -> State {
        self.state
    }

    /// How many changes were skipped, of each probe.
    pub fn skipped(&self) -> [u32; 2] {
        [self.state.skipped, self.state.skipped_1]
    }

    /// The used bytes of the image buffer: the image, after a finish.
    pub fn image(&self) -> &[u8] {
        let used = (self.state.image as usize).min(self.image.len());
        &self.image[..used]
    }

    /// At most `limit` times a block, by an edition of the skip rule; a signal for each record.
    pub fn start(&mut self, limit: u32, edition: Edition) -> Result<Answer, Refusal> {
        // More records than a u32 counts are more than a start takes; then the number is not that of the records, and it is refused.
        let signals = u32::try_from(self.records.len()).unwrap_or(u32::MAX);
        // Safety: the slices are borrowed, and each is a field of its own.
        let done = unsafe {
            ffi::wejumo_start(
                self.state,
                limit,
                signals,
                edition.number(),
                self.records.as_mut_ptr(),
                self.records.len(),
                self.times.as_ptr(),
                self.times.len(),
                self.image.as_mut_ptr(),
                self.image.len(),
            )
        };
        self.keep(done)
    }

    pub fn time(&mut self, sender: u32, time: u64) -> Result<Answer, Refusal> {
        // Safety: as for start.
        let done = unsafe {
            ffi::wejumo_time_change(
                self.state,
                self.records.as_mut_ptr(),
                self.records.len(),
                self.times.as_mut_ptr(),
                self.times.len(),
                self.work.as_ptr(),
                self.work.len(),
                self.image.as_mut_ptr(),
                self.image.len(),
                sender,
                time,
            )
        };
        self.keep(done)
    }

    /// A value in VCD text.
    pub fn vcd(&mut self, sender: u32, signal: u32, value: &[u8]) -> Result<Answer, Refusal> {
        // Safety: as for start; `value` is borrowed beside them.
        let done = unsafe {
            ffi::wejumo_vcd_value_change(
                self.state,
                self.records.as_mut_ptr(),
                self.records.len(),
                self.times.as_ptr(),
                self.times.len(),
                self.work.as_mut_ptr(),
                self.work.len(),
                self.image.as_ptr(),
                self.image.len(),
                sender,
                signal,
                value.as_ptr(),
                value.len(),
            )
        };
        self.keep(done)
    }

    /// Packed symbols, with the class that they claim.
    pub fn raw(&mut self, sender: u32, signal: u32, claim: u32, value: &[u8]) -> Result<Answer, Refusal> {
        // Safety: as for vcd.
        let done = unsafe {
            ffi::wejumo_raw_value_change(
                self.state,
                self.records.as_mut_ptr(),
                self.records.len(),
                self.times.as_ptr(),
                self.times.len(),
                self.work.as_mut_ptr(),
                self.work.len(),
                self.image.as_ptr(),
                self.image.len(),
                sender,
                signal,
                claim,
                value.as_ptr(),
                value.len(),
            )
        };
        self.keep(done)
    }

    /// A real, by its bits (`f64::to_bits`).
    pub fn real(&mut self, sender: u32, signal: u32, bits: u64) -> Result<Answer, Refusal> {
        // Safety: as for start.
        let done = unsafe {
            ffi::wejumo_real_change(
                self.state,
                self.records.as_mut_ptr(),
                self.records.len(),
                self.times.as_ptr(),
                self.times.len(),
                self.work.as_mut_ptr(),
                self.work.len(),
                self.image.as_ptr(),
                self.image.len(),
                sender,
                signal,
                bits,
            )
        };
        self.keep(done)
    }

    pub fn finish(&mut self) -> Result<Answer, Refusal> {
        // Safety: as for start.
        let done = unsafe {
            ffi::wejumo_finish(
                self.state,
                self.records.as_mut_ptr(),
                self.records.len(),
                self.times.as_mut_ptr(),
                self.times.len(),
                self.work.as_ptr(),
                self.work.len(),
                self.image.as_mut_ptr(),
                self.image.len(),
            )
        };
        self.keep(done)
    }

    fn keep(&mut self, done: Outcome) -> Result<Answer, Refusal> {
        self.state = done.state;
        Ok(match done.answer {
            numbers::STARTED => Answer::Started,
            numbers::TAKEN => Answer::Taken,
            numbers::SAME => Answer::Same,
            numbers::BACK => Answer::Back,
            numbers::RECORDED => Answer::Recorded,
            numbers::SKIPPED => Answer::Skipped,
            numbers::FINISHED => Answer::Finished(done.value),
            _ => return Err(Refusal(done.value)),
        })
    }
}
