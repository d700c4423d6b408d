//! Document 01, 'Symbol and value' with document 02's left extension, and the bytes of one change and one entry, read a second time.

pub const LETTERS: &[u8; 9] = b"01xzhuwl-";
const BITS: [u32; 3] = [1, 2, 4];

/// "0 1 x z h u w l - to 0..8 in that order, capitals of letters likewise".
fn symbol(byte: u8) -> Option<u8> {
    let place = LETTERS.iter().position(|letter| *letter == byte.to_ascii_lowercase());
    place.map(|place| place as u8)
}

/// "Two (0) for 0..1, Four (1) for 2..3, Nine (2) for 4..8. The class of a value is its largest."
pub fn class_of(symbols: &[u8]) -> u32 {
    let class = |symbol: &u8| match symbol {
        0 | 1 => 0,
        2 | 3 => 1,
        _ => 2,
    };
    symbols.iter().map(class).max().unwrap_or(0)
}

/// "Length is ceil(width x bits / 8)".
pub fn packed_length(width: u32, class: u32) -> u64 {
    (u64::from(width) * u64::from(BITS[class as usize])).div_ceil(8)
}

/// "A packed value puts its last symbol in the lowest bits of its last byte."
pub fn packed(symbols: &[u8], class: u32) -> Vec<u8> {
    let bits = BITS[class as usize] as usize;
    let mut out = vec![0; packed_length(symbols.len() as u32, class) as usize];
    let end = out.len() - 1;
    for (from_last, symbol) in symbols.iter().rev().enumerate() {
        let place = from_last * bits;
        out[end - place / 8] |= symbol << (place % 8);
    }
    out
}

/// The symbols of the last bytes, whatever they are.
pub fn unpacked(bytes: &[u8], width: u32, class: u32) -> Vec<u8> {
    let bits = BITS[class as usize] as usize;
    let end = bytes.len() - 1;
    let at = |from_last: usize| {
        let place = from_last * bits;
        bytes[end - place / 8] >> (place % 8) & ((1 << bits) - 1)
    };
    (0..width as usize).rev().map(at).collect()
}

/// "one leading `b` or `B` is dropped; then, if over two bytes remain, a leading `0b` is dropped".
pub fn vcd_text(value: &[u8]) -> &[u8] {
    let value = match value {
        [b'b' | b'B', rest @ ..] => rest,
        whole => whole,
    };
    match value {
        [b'0', b'b', rest @ ..] if !rest.is_empty() => rest,
        whole => whole,
    }
}

/// The symbols of a VCD value, or nothing if it is bad.
pub fn vcd_symbols(width: u32, value: &[u8]) -> Option<Vec<u8>> {
    if width == 1 {
        // "only the last byte counts; an empty value or a last byte `b` is 0"
        return match value.last() {
            None | Some(b'b') => Some(vec![0]),
            Some(last) => symbol(*last).map(|symbol| vec![symbol]),
        };
    }
    let value = vcd_text(value);
    if value.is_empty() || value.len() > width as usize {
        return None;
    }
    let symbols: Vec<u8> = value.iter().map(|byte| symbol(*byte)).collect::<Option<_>>()?;
    let missing = width as usize - symbols.len();
    // "first symbol 0 or 1 extends with 0, x or z with itself"; of u, w and -: "a short vector beginning with one of these now extends with it;
    // h and l still make a bad value"
    let fill = match symbols[0] {
        0 | 1 => 0,
        first @ (2 | 3 | 5 | 6 | 8) => first,
        _ if missing == 0 => 0,
        _ => return None,
    };
    Some([vec![fill; missing], symbols].concat())
}

/// The symbols of a raw value, or nothing if it is bad.
pub fn raw_symbols(width: u32, claim: u32, value: &[u8]) -> Option<Vec<u8>> {
    if claim > 2 {
        return None;
    }
    let length = packed_length(width, claim);
    if (value.len() as u64) < length {
        return None;
    }
    let symbols = unpacked(&value[value.len() - length as usize..], width, claim);
    symbols.iter().all(|symbol| *symbol <= 8).then_some(symbols)
}

/// "Numbers are unsigned LEB128 (DWARF), shortest form."
pub fn leb128(mut number: u64) -> Vec<u8> {
    let mut out = Vec::new();
    loop {
        let low = (number % 128) as u8;
        number /= 128;
        if number == 0 {
            out.push(low);
            return out;
        }
        out.push(low + 128);
    }
}

#[derive(Clone, Debug, PartialEq)]
pub enum Content {
    Event,
    Symbols(Vec<u8>),
    Real(u64),
}

impl Content {
    /// The class of its symbols; 0 for events and reals.
    pub fn class(&self) -> u32 {
        match self {
            Content::Symbols(symbols) => class_of(symbols),
            _ => 0,
        }
    }

    /// As the Rust's loader is shown (`shown` in recordings.rs).
    pub fn word(&self) -> String {
        match self {
            Content::Event => "event".to_string(),
            Content::Symbols(symbols) => {
                let letters = symbols.iter().map(|s| LETTERS[*s as usize] as char);
                format!("{}:{}", self.class(), letters.collect::<String>())
            }
            Content::Real(bits) => format!("{bits:016x}"),
        }
    }
}

/// 'Stream of one signal': the bytes of a change `d` after the one before.
pub fn change_bytes(d: u64, content: &Content) -> Vec<u8> {
    match content {
        Content::Event => leb128(d),
        Content::Symbols(symbols) if symbols.len() == 1 => leb128(d * 16 + u64::from(symbols[0])),
        Content::Symbols(symbols) => {
            let class = class_of(symbols);
            [leb128(d * 4 + u64::from(class)), packed(symbols, class)].concat()
        }
        Content::Real(bits) => [leb128(d), bits.to_le_bytes().to_vec()].concat(),
    }
}

/// 'Loaded signal': the bytes of an entry of a signal of class `c`.
pub fn entry_bytes(content: &Content, c: u32) -> Vec<u8> {
    let symbols = match content {
        Content::Event => return Vec::new(),
        Content::Real(bits) => return bits.to_le_bytes().to_vec(),
        Content::Symbols(symbols) => symbols,
    };
    let class = class_of(symbols);
    let mark = class as u8 * 64;
    if symbols.len() == 1 {
        return vec![mark + symbols[0]];
    }
    let width = symbols.len() as u32;
    let n = packed_length(width, c) as usize;
    let own = packed(symbols, class);
    let filled = [vec![0; n - own.len()], own].concat();
    if c != 0 && width % (8 / BITS[c as usize]) == 0 {
        return [vec![mark], filled].concat();
    }
    [vec![filled[0] + mark], filled[1..].to_vec()].concat()
}
