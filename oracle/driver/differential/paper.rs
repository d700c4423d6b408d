//! The recorder of document 01 ('Recording', 'Block and image', 'Turned back'), with document 02's second edition of the skip rule and its two
//! probes, read a second time: on any state and any lent memory it says the answer and what all memory holds afterwards.

use crate::memory::{Answer, Memory, State};
use crate::value::{Content, change_bytes, raw_symbols, vcd_symbols, vcd_text};
use wellen::oracle::whole::{ABSENT, REAL, Step, Value};

pub const IMAGE_LIMIT: u64 = 1_073_741_824;
pub const WIDTH_LIMIT: u32 = 65_536;

/// A refusal, and those of its conditions that hold.
pub struct Turned {
    pub number: u32,
    pub why: Vec<&'static str>,
}

/// All conditions, by the number of their refusal; those of a join are tested in join.rs.
pub const CONDITIONS: [&str; 47] = [
    "1 B outside its range",
    "1 time buffer under B",
    "1 S over 65,536",
    "1 S not the record count",
    "1 unknown kind",
    "1 a record names neither probe",
    "1 image buffer under the head",
    "1 image buffer over the limit",
    "1 edition neither 1 nor 2",
    "2 closed",
    "3 change before any time",
    "4 number at or above S",
    "4 absent",
    "5 VCD on a real",
    "5 raw on an event or a real",
    "5 real on a vector or an event",
    "6 an event's value over one byte",
    "6 bad VCD value",
    "6 bad raw value",
    "7 work buffer full",
    "8 block exceeds the unused image bytes",
    "8 joined image exceeds the output",
    "8 joined image over the limit",
    "10 B outside its range",
    "10 held times exceed B",
    "10 time buffer under B",
    "10 used exceeds the work buffer",
    "10 used exceeds the image buffer",
    "10 image buffer over the limit",
    "10 blocks exceed used image bytes",
    "10 S is not the record count",
    "10 work used without a held time",
    "10 edition neither 1 nor 2",
    "10 index beyond the last",
    "10 width over 65,536",
    "10 work ends in a record's head",
    "10 work names a signal not below S",
    "10 work ends in a record's stream",
    "11 the first is no image",
    "11 the second is no image",
    "14 S differs",
    "14 B differs",
    "14 a kind differs",
    "15 the first has no block",
    "16 the second starts before the first ends",
    "18 sender above 1",
    "18 the record does not name the sender",
];

type Said = Result<Answer, Turned>;

/// Refused where one of the conditions holds. Nothing is written before the last test of a call.
pub fn turn(number: u32, conditions: &[(bool, &'static str)]) -> Result<(), Turned> {
    let held = conditions.iter().filter(|condition| condition.0);
    let why: Vec<&'static str> = held.map(|condition| condition.1).collect();
    if why.is_empty() {
        Ok(())
    } else {
        Err(Turned { number, why })
    }
}

pub fn too_wide(kind: u32) -> bool {
    kind > WIDTH_LIMIT && kind != REAL && kind != ABSENT
}

fn put(buffer: &mut [u8], place: usize, bytes: &[u8]) {
    buffer[place..place + bytes.len()].copy_from_slice(bytes);
}

/// "signals S, B, blocks N, total bytes (u32 each), then S kinds".
pub fn head(limit: u32, blocks: u32, total: u32, kinds: &[u32]) -> Vec<u8> {
    let first = [kinds.len() as u32, limit, blocks, total];
    first
        .iter()
        .chain(kinds)
        .flat_map(|number| number.to_le_bytes())
        .collect()
}

fn no_edition(number: u32) -> bool {
    number != 1 && number != 2
}

pub fn start(m: &mut Memory, limit: u32, signals: u32, edition: u32) -> Said {
    let size = 16 + 4 * u64::from(signals);
    turn(
        1,
        &[
            (!(2..=65_535).contains(&limit), "1 B outside its range"),
            ((m.times.len() as u64) < u64::from(limit), "1 time buffer under B"),
            (signals > 65_536, "1 S over 65,536"),
            (signals as usize != m.records.len(), "1 S not the record count"),
            (m.records.iter().any(|r| too_wide(r.kind)), "1 unknown kind"),
            (m.records.iter().any(|r| r.probe > 1), "1 a record names neither probe"),
            ((m.image.len() as u64) < size, "1 image buffer under the head"),
            (m.image.len() as u64 > IMAGE_LIMIT, "1 image buffer over the limit"),
            (no_edition(edition), "1 edition neither 1 nor 2"),
        ],
    )?;
    let kinds: Vec<u32> = m.records.iter().map(|record| record.kind).collect();
    put(&mut m.image, 0, &head(limit, 0, size as u32, &kinds));
    for record in &mut m.records {
        (record.index, record.top) = (0, 0);
    }
    m.state = State {
        limit,
        signals,
        image: size as u32,
        edition,
        ..State::default()
    };
    Ok(Answer::Started)
}

/// 2, "18 for a sender above 1 (after 2)", then the first group of 10. A finish has no sender.
fn open_and_sound(m: &Memory, sender: Option<u32>) -> Result<(), Turned> {
    let s = &m.state;
    turn(2, &[(s.closed, "2 closed")])?;
    turn(18, &[(sender > Some(1), "18 sender above 1")])?;
    turn(
        10,
        &[
            (!(2..=65_535).contains(&s.limit), "10 B outside its range"),
            (s.held > s.limit, "10 held times exceed B"),
            ((m.times.len() as u64) < u64::from(s.limit), "10 time buffer under B"),
            (s.work > m.work.len() as u64, "10 used exceeds the work buffer"),
            (
                u64::from(s.image) > m.image.len() as u64,
                "10 used exceeds the image buffer",
            ),
            (m.image.len() as u64 > IMAGE_LIMIT, "10 image buffer over the limit"),
            (s.blocks > s.image, "10 blocks exceed used image bytes"),
            (s.signals as usize != m.records.len(), "10 S is not the record count"),
            (s.work > 0 && s.held == 0, "10 work used without a held time"),
            (no_edition(s.edition), "10 edition neither 1 nor 2"),
        ],
    )
}

/// The used work as one stream a signal, or the second group of 10.
fn streams(m: &Memory) -> Result<Vec<Vec<u8>>, Turned> {
    let mut streams = vec![Vec::new(); m.records.len()];
    let mut rest = &m.work[..m.work_used()];
    while !rest.is_empty() {
        turn(10, &[(rest.len() < 8, "10 work ends in a record's head")])?;
        let number = |at: usize| u32::from_le_bytes(rest[at..at + 4].try_into().unwrap()) as usize;
        let (signal, length) = (number(0), number(4));
        rest = &rest[8..];
        turn(10, &[(signal >= streams.len(), "10 work names a signal not below S")])?;
        turn(10, &[(length > rest.len(), "10 work ends in a record's stream")])?;
        streams[signal].extend(&rest[..length]);
        rest = &rest[length..];
    }
    Ok(streams)
}

impl Memory {
    fn work_used(&self) -> usize {
        self.state.work as usize
    }
}

/// "its bytes, times T, S (u32 each), S offsets, T times (u64), data".
fn block(m: &Memory) -> Result<Vec<u8>, Turned> {
    let times = &m.times[..m.state.held as usize];
    let (mut offsets, mut data) = (Vec::new(), Vec::new());
    for (record, stream) in m.records.iter().zip(streams(m)?) {
        if stream.is_empty() {
            offsets.push(0);
            continue;
        }
        offsets.push(data.len() as u32 + 1);
        data.push(record.top as u8);
        data.extend(stream);
    }
    let size = 12 + 4 * offsets.len() + 8 * times.len() + data.len();
    let head = [size as u32, times.len() as u32, offsets.len() as u32];
    let mut out: Vec<u8> = head.iter().chain(&offsets).flat_map(|n| n.to_le_bytes()).collect();
    out.extend(times.iter().flat_map(|time| time.to_le_bytes()));
    out.extend(data);
    let unused = m.image.len() - m.state.image as usize;
    turn(8, &[(out.len() > unused, "8 block exceeds the unused image bytes")])?;
    Ok(out)
}

fn cut(m: &mut Memory) -> Result<(), Turned> {
    let block = block(m)?;
    put(&mut m.image, m.state.image as usize, &block);
    m.state.image += block.len() as u32;
    m.state.blocks += 1;
    let (blocks, total) = (m.state.blocks.to_le_bytes(), m.state.image.to_le_bytes());
    put(&mut m.image, 8, &[blocks, total].concat());
    m.times[0] = m.times[m.state.held as usize - 1];
    (m.state.held, m.state.work) = (1, 0);
    m.records.iter_mut().for_each(|record| record.index = 0);
    Ok(())
}

/// "A time is judged against the shared last time; it starts or ends the skip of its sender only."
fn time(m: &mut Memory, sender: u32, time: u64) -> Said {
    open_and_sound(m, Some(sender))?;
    let (probe, held) = (sender as usize, m.state.held as usize);
    if held > 0 {
        let last = m.times[held - 1];
        if time == last {
            if m.state.edition == 2 {
                m.state.skips[probe].on = false;
            }
            return Ok(Answer::Same);
        }
        if time < last {
            m.state.skips[probe].on = true;
            return Ok(Answer::Back);
        }
        if m.state.held == m.state.limit {
            cut(m)?;
        }
    }
    m.times[m.state.held as usize] = time;
    m.state.held += 1;
    m.state.skips[probe].on = false;
    Ok(Answer::Taken)
}

/// What a value says of a signal of this kind, and the class that it raises the top to: 5 or 6, or nothing where the width is
/// over its limit.
pub fn decode(kind: u32, value: &Value) -> Result<Option<(Content, u32)>, Turned> {
    let vector = kind != 0 && kind != REAL && kind != ABSENT;
    turn(
        5,
        &[
            (kind == REAL && matches!(value, Value::Vcd(_)), "5 VCD on a real"),
            (
                !vector && matches!(value, Value::Raw(..)),
                "5 raw on an event or a real",
            ),
            (
                kind != REAL && matches!(value, Value::Real(_)),
                "5 real on a vector or an event",
            ),
        ],
    )?;
    if let Value::Real(bits) = value {
        return Ok(Some((Content::Real(*bits), 0)));
    }
    if let (0, Value::Vcd(text)) = (kind, value) {
        turn(6, &[(text.len() > 1, "6 an event's value over one byte")])?;
        return Ok(Some((Content::Event, 0)));
    }
    let (symbols, claim, why) = match value {
        // Of a width over its limit only good or bad shows: as many symbols as tell the two apart.
        Value::Vcd(text) => {
            let width = kind.min(WIDTH_LIMIT + 1 + text.len() as u32);
            (vcd_symbols(width, text), 0, "6 bad VCD value")
        }
        Value::Raw(claim, bytes) => (raw_symbols(kind, *claim, bytes), *claim, "6 bad raw value"),
        Value::Real(_) => unreachable!(),
    };
    turn(6, &[(symbols.is_none(), why)])?;
    if too_wide(kind) {
        return Ok(None);
    }
    let content = Content::Symbols(symbols.unwrap_or_default());
    let class = content.class().max(claim);
    Ok(Some((content, class)))
}

/// Whether u, w or - extends a vector's value.
pub fn extended(kind: u32, value: &Value) -> bool {
    if kind > WIDTH_LIMIT {
        return false;
    }
    match (value, decode(kind, value)) {
        (Value::Vcd(text), Ok(Some((Content::Symbols(symbols), _)))) => {
            vcd_text(text).len() < symbols.len() && matches!(symbols[0], 5 | 6 | 8)
        }
        _ => false,
    }
}

/// Whether a call has such a value. "The Rust panics here, so oracle runs leave such values out."
pub fn left_out(kinds: &[u32], step: &Step) -> bool {
    let Step::Change(_, signal, value) = step else {
        return false;
    };
    kinds.get(*signal as usize).is_some_and(|kind| extended(*kind, value))
}

/// "A change falls at the shared last time, whoever sent that. The skipped count is kept per probe, not once." And 18 "for a signal whose record
/// does not name the sender (after 4)".
fn change(m: &mut Memory, sender: u32, signal: u32, value: &Value) -> Said {
    open_and_sound(m, Some(sender))?;
    turn(3, &[(m.state.held == 0, "3 change before any time")])?;
    let skip = &mut m.state.skips[sender as usize];
    if skip.on {
        skip.count = skip.count.saturating_add(1);
        return Ok(Answer::Skipped);
    }
    turn(4, &[(signal >= m.state.signals, "4 number at or above S")])?;
    let record = m.records[signal as usize];
    turn(4, &[(record.kind == ABSENT, "4 absent")])?;
    let foreign = u32::from(record.probe) != sender;
    turn(18, &[(foreign, "18 the record does not name the sender")])?;
    let decoded = decode(record.kind, value)?;
    let last = m.state.held - 1;
    turn(
        10,
        &[
            (record.index > last, "10 index beyond the last"),
            (too_wide(record.kind), "10 width over 65,536"),
        ],
    )?;
    let (content, class) = decoded.expect("a width within its limit");
    let stream = change_bytes(u64::from(last - record.index), &content);
    let end = m.state.work + 8 + stream.len() as u64;
    turn(7, &[(end > m.work.len() as u64, "7 work buffer full")])?;
    let head = [signal.to_le_bytes(), (stream.len() as u32).to_le_bytes()].concat();
    let used = m.state.work as usize;
    put(&mut m.work, used, &[head, stream].concat());
    m.state.work = end;
    let record = &mut m.records[signal as usize];
    (record.index, record.top) = (last, record.top.max(class));
    Ok(Answer::Recorded)
}

fn finish(m: &mut Memory) -> Said {
    open_and_sound(m, None)?;
    if m.state.held > 0 {
        cut(m)?;
    }
    m.state.closed = true;
    Ok(Answer::Finished(m.state.image))
}

pub fn step(m: &mut Memory, step: &Step) -> Said {
    match step {
        Step::Time(sender, now) => time(m, *sender, *now),
        Step::Change(sender, signal, value) => change(m, *sender, *signal, value),
        Step::Finish => finish(m),
    }
}
