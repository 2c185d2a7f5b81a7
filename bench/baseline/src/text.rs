//! The text of records. Version 2 is the line `twarp-records 2` and then a line `time priority lp kind value` for each;
//! version 1 has the lines alone, without priorities.

use crate::model::Record;
use std::io::{self, Write};

/// Lines are written once so many bytes have come together.
const ENOUGH: usize = 1 << 16;

/// Four numbers of at most 20 digits and one of at most 3, each with the byte after it.
const LONGEST_LINE: usize = 88;

#[derive(Clone, Copy, PartialEq, Eq)]
pub enum Version {
    One,
    Two,
}

pub struct RecordWriter<W> {
    out: W,
    version: Version,
    lines: Vec<u8>,
}

impl<W: Write> RecordWriter<W> {
    pub fn new(out: W, version: Version) -> RecordWriter<W> {
        let mut lines = Vec::with_capacity(ENOUGH + LONGEST_LINE);
        if version == Version::Two {
            lines.extend_from_slice(b"twarp-records 2\n");
        }
        RecordWriter { out, version, lines }
    }

    #[inline(always)]
    pub fn put(&mut self, record: &Record) -> io::Result<()> {
        self.put_number(record.when.tick, b' ');
        if self.version == Version::Two {
            self.put_number(u64::from(record.when.priority), b' ');
        }
        self.put_number(u64::from(record.lp), b' ');
        self.put_number(u64::from(record.kind), b' ');
        self.put_number(record.value, b'\n');
        if self.lines.len() > ENOUGH {
            self.flush()?;
        }
        Ok(())
    }

    #[inline(always)]
    fn put_number(&mut self, mut number: u64, after: u8) {
        let mut digits = [after; 21];
        let mut first = 20;
        loop {
            first -= 1;
            digits[first] = b'0' + (number % 10) as u8;
            number /= 10;
            if number == 0 {
                break;
            }
        }
        self.lines.extend_from_slice(&digits[first..]);
    }

    /// Writes the lines that have not been written yet.
    pub fn flush(&mut self) -> io::Result<()> {
        self.out.write_all(&self.lines)?;
        self.out.flush()?;
        self.lines.clear();
        Ok(())
    }
}
