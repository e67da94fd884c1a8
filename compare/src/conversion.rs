//! Old traces across and back, by the words of docs/SCOPE.md, over lists of
//! records: on the way to narrow the two high bytes of each field go, and have
//! to be 0.

use crate::table;

/// From which fields to which: from two bytes to four, or back.
#[derive(Clone, Copy, Debug, Eq, PartialEq)]
pub enum Way {
    Widen,
    Narrow,
}

pub const WAYS: [Way; 2] = [Way::Widen, Way::Narrow];

pub const NARROW: usize = 2;
pub const WIDE: usize = 4;

/// The fields are line, column and index, or the stop; the byte behind them is vs,
/// carry or block kind.
struct Record<'a> {
    kind: u8,
    fields: &'a [u8],
    value: u8,
}

impl Record<'_> {
    fn is_last(&self) -> bool {
        matches!(self.kind, 13 | 14)
    }
}

/// The records of a trace, or the refusal by the first bad one.
fn records(trace: &[u8], width: usize) -> Result<Vec<Record<'_>>, u8> {
    let mut all = Vec::with_capacity(trace.len() / (2 + width));
    let mut rest = trace;
    while let Some((kind, behind)) = rest.split_first() {
        let count = match kind {
            1..=12 => 3,
            13 | 14 => 1,
            _ => return Err(8),
        };
        let (fields, behind) = behind.split_at_checked(count * width).ok_or(9)?;
        let (value, behind) = behind.split_first().ok_or(9)?;
        all.push(Record {
            kind: *kind,
            fields,
            value: *value,
        });
        rest = behind;
    }
    Ok(all)
}

/// The trace with fields of the other width, or the refusal, but for that of the
/// buffer.
pub fn converted(trace: &[u8], way: Way) -> Result<Vec<u8>, u8> {
    let (from, to) = match way {
        Way::Widen => (NARROW, WIDE),
        Way::Narrow => (WIDE, NARROW),
    };
    let all = records(trace, from)?;
    let first_last = all.iter().position(Record::is_last);
    if first_last.is_none_or(|place| place + 1 < all.len()) {
        return Err(10);
    }

    let mut bytes = Vec::with_capacity(trace.len() * 2);
    for record in all {
        bytes.push(record.kind);
        for field in record.fields.chunks(from) {
            let (low, high) = field.split_at(NARROW);
            if way == Way::Narrow && high != [0, 0] {
                return Err(table::NOT_NARROW);
            }
            bytes.extend_from_slice(low);
            bytes.resize(bytes.len() + to - NARROW, 0);
        }
        bytes.push(record.value);
    }
    Ok(bytes)
}
