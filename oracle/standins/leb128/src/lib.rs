//! Unsigned LEB128 numbers, as DWARF defines them.

pub mod write {
    use std::io::{Result, Write};

    /// Writes the shortest form and answers its length.
    pub fn unsigned<W: Write + ?Sized>(out: &mut W, mut value: u64) -> Result<usize> {
        let mut length = 1;
        while value > 0x7f {
            out.write_all(&[value as u8 | 0x80])?;
            value >>= 7;
            length += 1;
        }
        out.write_all(&[value as u8])?;
        Ok(length)
    }
}

pub mod read {
    use std::io::{Error, ErrorKind, Read, Result};

    /// Reads one number. The input's end, also inside a number, is an error,
    /// and so is a number that 64 bits do not hold.
    pub fn unsigned<R: Read + ?Sized>(input: &mut R) -> Result<u64> {
        let mut value = 0u64;
        for shift in (0..64).step_by(7) {
            let mut byte = [0u8];
            input.read_exact(&mut byte)?;
            let digit = u64::from(byte[0] & 0x7f);
            if (digit << shift) >> shift != digit {
                break;
            }
            value |= digit << shift;
            if byte[0] & 0x80 == 0 {
                return Ok(value);
            }
        }
        Err(Error::new(ErrorKind::InvalidData, "number over 64 bits"))
    }
}
