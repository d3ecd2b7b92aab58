//! The probe's request stream (docs/PROBE.md).

use std::io::{self, ErrorKind, Read, Write};

pub const AFTER_INPUTS: u8 = 1;
pub const KEEPING: u8 = 2;

#[derive(Clone, Default)]
pub struct Request {
    pub letter: u8,
    /// Byte 1: of the letter p how the call is made, a sum of the constants below.
    pub how: u8,
    pub room: u16,
    pub a: u32,
    pub b: u32,
    pub c: u32,
    pub times: u32,
    pub sheet: Vec<u8>,
    pub table: Vec<(u16, u8)>,
    pub fmmus: Vec<u8>,
    pub channels: Vec<u8>,
}

fn pair(bytes: &[u8], at: usize) -> u16 {
    u16::from_be_bytes([bytes[at], bytes[at + 1]])
}

fn quad(bytes: &[u8], at: usize) -> u32 {
    u32::from(pair(bytes, at)) << 16 | u32::from(pair(bytes, at + 2))
}

impl Request {
    /// The next request, or nothing where the stream ends before it.
    pub fn read(from: &mut impl Read) -> io::Result<Option<Request>> {
        let mut head = [0; 28];
        match from.read_exact(&mut head[..1]) {
            Err(reason) if reason.kind() == ErrorKind::UnexpectedEof => return Ok(None),
            other => other?,
        }
        from.read_exact(&mut head[1..])?;
        let mut part = |length: usize| -> io::Result<Vec<u8>> {
            let mut bytes = vec![0; length];
            from.read_exact(&mut bytes)?;
            Ok(bytes)
        };
        Ok(Some(Request {
            letter: head[0],
            how: head[1],
            room: pair(&head, 2),
            a: quad(&head, 4),
            b: quad(&head, 8),
            c: quad(&head, 12),
            times: quad(&head, 16),
            sheet: part(pair(&head, 20).into())?,
            table: part(3 * usize::from(pair(&head, 22)))?.chunks(3).map(|record| (pair(record, 0), record[2])).collect(),
            fmmus: part(pair(&head, 24).into())?,
            channels: part(pair(&head, 26).into())?,
        }))
    }

    pub fn write(&self, to: &mut impl Write) -> io::Result<()> {
        let mut bytes = vec![self.letter, self.how];
        bytes.extend(self.room.to_be_bytes());
        for number in [self.a, self.b, self.c, self.times] {
            bytes.extend(number.to_be_bytes());
        }
        for length in [self.sheet.len(), self.table.len(), self.fmmus.len(), self.channels.len()] {
            bytes.extend((length as u16).to_be_bytes());
        }
        bytes.extend(&self.sheet);
        for (index, multiplier) in &self.table {
            bytes.extend(index.to_be_bytes());
            bytes.push(*multiplier);
        }
        bytes.extend(&self.fmmus);
        bytes.extend(&self.channels);
        to.write_all(&bytes)
    }
}
