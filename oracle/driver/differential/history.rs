//! Document 01, 'History': what a list of calls says, told of the calls and of which were refused, never of the state; and document 02's
//! "history under edition 2 is read with its rule", a skip and a count for each probe, and "one history after the other".

use crate::memory::{Answer, Recording, Skip};
use crate::paper::decode;
use crate::value::{Content, entry_bytes};
use wellen::oracle::whole::Step;

#[derive(Clone)]
pub struct Change {
    pub place: u32,
    pub content: Content,
    /// Its class, or the claim of a raw value if that is larger.
    class: u32,
}

#[derive(Clone)]
pub struct History {
    edition: u32,
    kinds: Vec<u32>,
    pub times: Vec<u64>,
    changes: Vec<Vec<Change>>,
    /// By probe.
    pub skips: [Skip; 2],
}

/// What loading a signal answers and writes.
#[derive(Debug, PartialEq)]
pub struct Load {
    pub class: u32,
    pub indices: Vec<u32>,
    pub bytes: Vec<u8>,
}

impl History {
    pub fn new(edition: u32, kinds: &[u32]) -> Self {
        History {
            edition,
            kinds: kinds.to_vec(),
            times: Vec::new(),
            changes: kinds.iter().map(|_| Vec::new()).collect(),
            skips: [Skip::default(); 2],
        }
    }

    /// Of a recording without a refusal.
    pub fn of(r: &Recording) -> Self {
        let mut history = History::new(r.edition, &r.kinds);
        for step in &r.steps {
            history.tell(step, false);
        }
        history
    }

    /// This one, then another that starts at or after its end: "if the times are equal, the combined table has that time once". Of a join
    /// nobody asks for a skip.
    pub fn followed(&self, other: &History) -> History {
        let mut all = self.clone();
        let shared = usize::from(!other.times.is_empty() && self.times.last() == other.times.first());
        let base = (self.times.len() - shared) as u32;
        all.times.extend(&other.times[shared..]);
        for (list, more) in all.changes.iter_mut().zip(&other.changes) {
            list.extend(more.iter().map(|change| Change {
                place: base + change.place,
                ..change.clone()
            }));
        }
        all
    }

    /// The answer, where it is no refusal and no finish.
    pub fn tell(&mut self, step: &Step, refused: bool) -> Option<Answer> {
        if refused {
            return None;
        }
        match step {
            Step::Finish => None,
            Step::Time(sender, time) => Some(self.time(*sender as usize, *time)),
            Step::Change(sender, ..) if self.skips[*sender as usize].on => {
                let skip = &mut self.skips[*sender as usize];
                skip.count = skip.count.saturating_add(1);
                Some(Answer::Skipped)
            }
            Step::Change(_, signal, value) => {
                let kind = self.kinds[*signal as usize];
                let Ok(Some((content, class))) = decode(kind, value) else {
                    unreachable!("a change that is not refused has a content")
                };
                self.changes[*signal as usize].push(Change {
                    place: self.times.len() as u32 - 1,
                    content,
                    class,
                });
                Some(Answer::Recorded)
            }
        }
    }

    fn time(&mut self, probe: usize, time: u64) -> Answer {
        let skip = &mut self.skips[probe];
        match self.times.last() {
            Some(last) if time == *last => {
                if self.edition == 2 {
                    skip.on = false;
                }
                Answer::Same
            }
            Some(last) if time < *last => {
                skip.on = true;
                Answer::Back
            }
            _ => {
                skip.on = false;
                self.times.push(time);
                Answer::Taken
            }
        }
    }

    /// "of events all; of others the first and each differing in content from the one before it in the list".
    pub fn kept(&self, signal: usize) -> Vec<&Change> {
        let list = &self.changes[signal];
        let keeps =
            |at: usize| at == 0 || list[at].content == Content::Event || list[at].content != list[at - 1].content;
        (0..list.len()).filter(|at| keeps(*at)).map(|at| &list[at]).collect()
    }

    /// "changes not kept included; Nine if it is empty".
    pub fn class(&self, signal: usize) -> u32 {
        self.changes[signal]
            .iter()
            .map(|change| change.class)
            .max()
            .unwrap_or(2)
    }

    pub fn load(&self, signal: usize) -> Load {
        let (kept, class) = (self.kept(signal), self.class(signal));
        Load {
            class,
            indices: kept.iter().map(|change| change.place).collect(),
            bytes: kept
                .iter()
                .flat_map(|change| entry_bytes(&change.content, class))
                .collect(),
        }
    }

    /// 'Loaded signal', cursor: "the last entry with time at or before t", and document 02: "a time before the first change now answers
    /// 'none'".
    pub fn cursor(&self, signal: usize, t: u64) -> Option<(u32, u64, Content)> {
        let kept = self.kept(signal);
        let time = |at: usize| self.times[kept[at].place as usize];
        let at = (0..kept.len()).rev().find(|at| time(*at) <= t)?;
        Some((at as u32, time(at), kept[at].content.clone()))
    }

    /// The time of a signal's first change.
    pub fn first(&self, signal: usize) -> Option<u64> {
        let change = self.changes[signal].first()?;
        Some(self.times[change.place as usize])
    }
}
