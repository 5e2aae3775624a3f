//! The program's input ("The program").

use crate::answer::Refusal;

const MOST_LINES_OF_A_KIND: usize = 256;
const NOT_WELL_FORMED: u32 = 12;
const TOO_MANY: u32 = 13;

/// One read line.
#[derive(Clone, Copy, Debug, PartialEq)]
pub enum Record {
    Vertex([f64; 3]),
    Element([u32; 4]),
    Mark(u32),
    NotWellFormed,
}

/// Everything that was read.
#[derive(Default)]
pub struct Input {
    pub points: Vec<f64>,
    pub elements: Vec<u32>,
    pub marks: Vec<u32>,
}

impl Input {
    /// Takes one record; its refusal number if it stands too late or is one too many.
    fn take(&mut self, record: Record) -> Result<(), u32> {
        let late = match record {
            Record::Vertex(_) => !self.elements.is_empty() || !self.marks.is_empty(),
            Record::Element(_) => !self.marks.is_empty(),
            Record::Mark(_) => false,
            Record::NotWellFormed => true,
        };
        if late {
            return Err(NOT_WELL_FORMED);
        }
        let of_a_kind = match record {
            Record::Vertex(point) => {
                self.points.extend(point);
                self.points.len() / 3
            }
            Record::Element(corners) => {
                self.elements.extend(corners);
                self.elements.len() / 4
            }
            Record::Mark(row) => {
                self.marks.push(row);
                self.marks.len()
            }
            Record::NotWellFormed => 0,
        };
        if of_a_kind > MOST_LINES_OF_A_KIND {
            return Err(TOO_MANY);
        }
        Ok(())
    }
}

/// Reads all lines; the first bad one ends it. Lines are counted from 1.
pub fn read_all(bytes: &[u8]) -> Result<Input, Refusal> {
    let mut input = Input::default();
    for (number, line) in (1..).zip(bytes.split_inclusive(|&byte| byte == b'\n')) {
        // The bytes after the last line feed are a line that is not ended.
        let record = match line.split_last() {
            Some((b'\n', line)) => read_line(line),
            _ => Record::NotWellFormed,
        };
        input
            .take(record)
            .map_err(|refusal| Refusal::at(refusal, number))?;
    }
    Ok(input)
}

/// Reads one line without its line feed.
pub fn read_line(line: &[u8]) -> Record {
    let mut fields = line.split(|&byte| byte == b'\t');
    let record = match fields.next() {
        Some(b"V") => exactly(&mut fields, hex).map(Record::Vertex),
        Some(b"T") => exactly(&mut fields, decimal).map(Record::Element),
        Some(b"M") => exactly(&mut fields, decimal).map(|[row]| Record::Mark(row)),
        _ => None,
    };
    record.unwrap_or(Record::NotWellFormed)
}

/// Exactly N fields, each read by `read`.
fn exactly<'a, T: Copy + Default, const N: usize>(
    fields: &mut impl Iterator<Item = &'a [u8]>,
    read: impl Fn(&[u8]) -> Option<T>,
) -> Option<[T; N]> {
    let mut values = [T::default(); N];
    for value in &mut values {
        *value = read(fields.next()?)?;
    }
    fields.next().is_none().then_some(values)
}

/// Sixteen lower-case hex digits of the f64 bits.
fn hex(field: &[u8]) -> Option<f64> {
    if field.len() != 16 {
        return None;
    }
    let mut bits = 0u64;
    for &byte in field {
        let digit = match byte {
            b'0'..=b'9' => byte - b'0',
            b'a'..=b'f' => byte - b'a' + 10,
            _ => return None,
        };
        bits = bits << 4 | digit as u64;
    }
    Some(f64::from_bits(bits))
}

/// One to five decimal digits without leading zeros.
fn decimal(field: &[u8]) -> Option<u32> {
    let short = (1..=5).contains(&field.len());
    let leading_zero = field.len() > 1 && field[0] == b'0';
    if !short || leading_zero || !field.iter().all(u8::is_ascii_digit) {
        return None;
    }
    Some(
        field
            .iter()
            .fold(0, |n, &byte| 10 * n + (byte - b'0') as u32),
    )
}
