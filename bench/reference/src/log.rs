//! The bytes of a swim log: two sizes, a head for each record, then a body for each record.

use crate::constraint::{Constraint, W};

pub const MOST_GATES: usize = 128;
pub const MOST_RECORDS: usize = 256;

const SIZES: usize = 4;
const HEAD: usize = 6;
const BODY: usize = 24;

/// The length of a log with as many records as there may be.
pub const LONGEST: usize = SIZES + MOST_RECORDS * (HEAD + BODY);

/// Why a log is turned down.
#[derive(Clone, Copy, Debug, PartialEq, Eq)]
pub enum Refusal {
    /// Too short to hold the sizes, or a size beyond its limits.
    Sizes,
    /// Not as long as the sizes say.
    Length,
    /// A kind that does not exist, or an axis that the kind lacks.
    Kind { record: usize },
    /// A gate or slice that the log does not have, or a field that is not used and not 0.
    Field { record: usize },
    /// A value beyond its limits, or two ends out of order.
    Value { record: usize },
}

/// A log whose sizes and length are in order. Its records are checked as they are read.
pub struct Log<'a> {
    gates: u16,
    heads: &'a [[u8; HEAD]],
    bodies: &'a [[u8; BODY]],
}

/// Both steps and fixes go into the first net and distances into the second, so the reader tells them apart.
#[derive(Clone, Copy, Debug, PartialEq, Eq)]
pub enum Entry {
    Bound(Constraint),
    Range(Constraint),
}

impl<'a> Log<'a> {
    pub fn new(bytes: &'a [u8]) -> Result<Log<'a>, Refusal> {
        let (&[g0, g1, m0, m1], rest) = bytes.split_first_chunk::<SIZES>().ok_or(Refusal::Sizes)?;
        let gates = u16::from_le_bytes([g0, g1]);
        let records = usize::from(u16::from_le_bytes([m0, m1]));
        if !(1..=MOST_GATES).contains(&gates.into()) || records > MOST_RECORDS {
            return Err(Refusal::Sizes);
        }
        if rest.len() != records * (HEAD + BODY) {
            return Err(Refusal::Length);
        }
        let (heads, bodies) = rest.split_at(records * HEAD);
        Ok(Log { gates, heads: heads.as_chunks().0, bodies: bodies.as_chunks().0 })
    }

    pub fn gates(&self) -> u16 {
        self.gates
    }

    pub fn cells(&self) -> usize {
        4 * usize::from(self.gates) - 2
    }

    /// The steps along x, slice by slice, then those along y. Slice k leads from gate k to gate k + 1.
    pub fn steps(&self) -> impl Iterator<Item = Constraint> {
        let gates = self.gates;
        [0, 1].into_iter().flat_map(move |axis| {
            (0..gates - 1).map(move |slice| {
                let from = position(gates, axis, slice);
                Constraint::Step { cells: [from, displacement(gates, axis, slice), from + 1] }
            })
        })
    }

    /// The records in log order. What is wrong with a record is told with it, so that the first bad record decides.
    pub fn entries(&self) -> impl Iterator<Item = Result<Entry, Refusal>> {
        let pairs = self.heads.iter().zip(self.bodies).enumerate();
        pairs.map(|(record, (head, body))| entry(self.gates, record, head, body))
    }
}

fn entry(gates: u16, record: usize, head: &[u8; HEAD], body: &[u8; BODY]) -> Result<Entry, Refusal> {
    let &[kind, axis, p0, p1, q0, q1] = head;
    let p = u16::from_le_bytes([p0, p1]);
    let q = u16::from_le_bytes([q0, q1]);
    let mut values = [0; BODY / 4];
    for (value, bytes) in values.iter_mut().zip(body.as_chunks().0) {
        *value = i32::from_le_bytes(*bytes);
    }
    let [b0, b1, b2, b3, b4, b5] = values;
    let is_coordinate = |v: i32| (-W..=W).contains(&v);

    match (kind, axis) {
        (b'B' | b'S', 0 | 1) => {
            let (limit, cell) = match kind {
                b'B' => (gates, position as fn(_, _, _) -> _),
                _ => (gates - 1, displacement as fn(_, _, _) -> _),
            };
            if p >= limit || q != 0 || b2 | b3 | b4 | b5 != 0 {
                return Err(Refusal::Field { record });
            }
            if !is_coordinate(b0) || !is_coordinate(b1) || b0 > b1 {
                return Err(Refusal::Value { record });
            }
            let cells = [cell(gates, axis, p)];
            Ok(Entry::Bound(Constraint::Bound { cells, low: b0, high: b1 }))
        }
        (b'R', 0) => {
            if p >= gates || q != 0 || b4 | b5 != 0 {
                return Err(Refusal::Field { record });
            }
            if !is_coordinate(b0) || !is_coordinate(b1) || b2 < 0 || b2 > b3 || b3 > 2 * W {
                return Err(Refusal::Value { record });
            }
            let cells = [position(gates, 0, p), position(gates, 1, p)];
            Ok(Entry::Range(Constraint::range(cells, [b0, b1], b2, b3)))
        }
        _ => Err(Refusal::Kind { record }),
    }
}

/// The cell of a gate's position: all x, then all y.
pub fn position(gates: u16, axis: u8, gate: u16) -> u16 {
    u16::from(axis) * gates + gate
}

/// The cell of a slice's step: behind the positions all x, then all y.
fn displacement(gates: u16, axis: u8, slice: u16) -> u16 {
    2 * gates + u16::from(axis) * (gates - 1) + slice
}
