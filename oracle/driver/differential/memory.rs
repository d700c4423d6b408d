//! What a recording stands in between two calls: its state, the signals' records and the lent buffers.

use std::fmt::{self, Display, Formatter};
use wellen::oracle::whole::{ABSENT, REAL, Step, Value, of_probe_0};

/// Of one probe: whether its changes are skipped, and how many were.
#[derive(Clone, Copy, Debug, Default, PartialEq)]
pub struct Skip {
    pub on: bool,
    pub count: u32,
}

#[derive(Clone, Copy, Debug, Default, PartialEq)]
pub struct State {
    pub closed: bool,
    /// B.
    pub limit: u32,
    /// S.
    pub signals: u32,
    /// Times in the table.
    pub held: u32,
    /// Used bytes of the work buffer.
    pub work: u64,
    /// Used bytes of the image buffer.
    pub image: u32,
    /// N.
    pub blocks: u32,
    /// Of the skip rule.
    pub edition: u32,
    /// By probe.
    pub skips: [Skip; 2],
}

#[derive(Clone, Copy, Debug, PartialEq)]
pub struct Record {
    /// A width, `REAL` or `ABSENT`.
    pub kind: u32,
    pub index: u32,
    /// 0, 1 or 2.
    pub top: u32,
    /// The sender of its changes; altered, any.
    pub probe: u8,
}

/// The buffers are as long as what is lent.
#[derive(Clone, Debug, PartialEq)]
pub struct Memory {
    pub state: State,
    pub records: Vec<Record>,
    pub times: Vec<u64>,
    pub work: Vec<u8>,
    pub image: Vec<u8>,
}

/// What lent memory holds before anything is written.
pub const BYTE: u8 = 0xa5;
pub const NUMBER: u32 = 0xa5a5_a5a5;
pub const TIME: u64 = 0xa5a5_a5a5_a5a5_a5a5;

impl Memory {
    /// Memory for a start, all signals of probe 0: the records' indices and classes are not 0, so that a start must set them.
    pub fn fresh(kinds: &[u32], times: usize, work: usize, image: usize) -> Self {
        let record = |kind: &u32| Record {
            kind: *kind,
            index: 7,
            top: 2,
            probe: 0,
        };
        Memory {
            state: State {
                closed: true,
                ..State::default()
            },
            records: kinds.iter().map(record).collect(),
            times: vec![TIME; times],
            work: vec![BYTE; work],
            image: vec![BYTE; image],
        }
    }

    /// Memory for the start of a recording.
    pub fn lent(r: &Recording, times: usize, work: usize, image: usize) -> Self {
        let mut m = Memory::fresh(&r.kinds, times, work, image);
        m.name(&r.probes);
        m
    }

    /// Lets the records name these probes.
    pub fn name(&mut self, probes: &[u8]) {
        for (record, probe) in self.records.iter_mut().zip(probes) {
            record.probe = *probe;
        }
    }

    /// Where this memory differs from another.
    pub fn difference(&self, other: &Memory) -> Option<String> {
        if self.state != other.state {
            return Some(format!("state {:?} and {:?}", self.state, other.state));
        }
        difference("record", &self.records, &other.records)
            .or_else(|| difference("time", &self.times, &other.times))
            .or_else(|| difference("work byte", &self.work, &other.work))
            .or_else(|| difference("image byte", &self.image, &other.image))
    }
}

/// The first place where two lists differ.
pub fn difference<T: PartialEq + fmt::Debug>(name: &str, ours: &[T], other: &[T]) -> Option<String> {
    if ours == other {
        return None;
    }
    if ours.len() != other.len() {
        return Some(format!("{name}s: {} and {}", ours.len(), other.len()));
    }
    let at = (0..ours.len()).find(|at| ours[*at] != other[*at])?;
    Some(format!("{name} {at}: {:?} and {:?}", ours[at], other[at]))
}

#[derive(Clone, Copy, Debug, PartialEq)]
pub enum Answer {
    Refused(u32),
    Started,
    Taken,
    Same,
    Back,
    Recorded,
    Skipped,
    Finished(u32),
}

impl Answer {
    pub fn word(self) -> &'static str {
        match self {
            Answer::Refused(_) => "refused",
            Answer::Started => "started",
            Answer::Taken => "taken",
            Answer::Same => "same",
            Answer::Back => "back",
            Answer::Recorded => "recorded",
            Answer::Skipped => "skipped",
            Answer::Finished(_) => "finished",
        }
    }

    pub fn refused(self) -> bool {
        matches!(self, Answer::Refused(_))
    }
}

/// A recording's calls after a start with this edition of the skip rule, this limit, and signals of these kinds and probes.
#[derive(Clone, Debug)]
pub struct Recording {
    pub edition: u32,
    pub limit: u16,
    pub kinds: Vec<u32>,
    pub probes: Vec<u8>,
    pub steps: Vec<Step>,
}

impl Recording {
    /// Edition 1, and all signals of probe 0.
    pub fn plain(limit: u16, kinds: Vec<u32>, steps: Vec<Step>) -> Self {
        Recording {
            edition: 1,
            limit,
            probes: vec![0; kinds.len()],
            kinds,
            steps,
        }
    }

    /// Probe 0 sends all.
    pub fn of_one(&self) -> bool {
        of_probe_0(&self.probes, &self.steps)
    }

    /// The Rust knows edition 1 and probe 0 alone.
    pub fn for_rust(&self) -> bool {
        self.edition == 1 && self.of_one()
    }
}

fn hex(bytes: &[u8]) -> String {
    bytes.iter().map(|byte| format!("{byte:02x}")).collect()
}

pub fn kind_word(kind: u32) -> String {
    match kind {
        REAL => "real".to_string(),
        ABSENT => "absent".to_string(),
        width => width.to_string(),
    }
}

/// Without its sender.
pub fn step_line(step: &Step) -> String {
    match step {
        Step::Time(_, time) => format!("time {time}"),
        Step::Change(_, signal, Value::Vcd(text)) => format!("vcd {signal} {}", hex(text)),
        Step::Change(_, signal, Value::Raw(claim, bytes)) => {
            format!("raw {signal} {claim} {}", hex(bytes))
        }
        Step::Change(_, signal, Value::Real(bits)) => format!("real {signal} {bits:016x}"),
        Step::Finish => "finish".to_string(),
    }
}

/// For a report: a call and its sender.
pub fn named(step: &Step) -> String {
    let by = step.sender().map_or(String::new(), |sender| format!("by {sender}: "));
    by + &step_line(step)
}

/// The form that `oracle recordings` reads, if the edition is 1 and the probe is 0.
impl Display for Recording {
    fn fmt(&self, f: &mut Formatter<'_>) -> fmt::Result {
        let kinds: String = self.kinds.iter().map(|k| format!(" {}", kind_word(*k))).collect();
        let probes: String = self.probes.iter().map(|probe| format!(" {probe}")).collect();
        writeln!(f, "edition {}\nprobes{probes}", self.edition)?;
        write!(f, "start {} {}{kinds}", self.kinds.len(), self.limit)?;
        let mut last = None;
        for step in &self.steps {
            let sender = step.sender().or(last);
            if let (true, Some(sender)) = (sender != last, sender) {
                write!(f, "\nsender {sender}")?;
            }
            last = sender;
            write!(f, "\n{}", step_line(step))?;
        }
        Ok(())
    }
}
