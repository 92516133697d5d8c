//! The lines of a report.

use crate::constraint::Tube;
use crate::log::{MOST_GATES, Refusal, position};
use crate::survey::Verdict;

/// Room for the longest report: a line for each gate, with a gate and four numbers of ten characters, and the first.
pub const LONGEST: usize = (MOST_GATES + 1) * 64;

pub fn verdict(verdict: Verdict, tube: &Tube, gates: u16, out: &mut Vec<u8>) {
    match verdict {
        Verdict::Kept { calls, settled } => {
            out.extend_from_slice(b"kept ");
            number(calls, out);
            out.extend_from_slice(if settled { b" settled\n" } else { b" stopped\n" });
            for gate in 0..gates {
                number(gate.into(), out);
                for axis in [0, 1] {
                    let cell = tube[position(gates, axis, gate)];
                    signed(cell.low, out);
                    signed(cell.high, out);
                }
                out.push(b'\n');
            }
        }
        Verdict::Empty { fault, path, calls } => {
            let fields = [fault.number.into(), fault.cause.into(), fault.cell.into(), path, calls];
            line(b"empty", &fields, out);
        }
    }
}

pub fn refusal(refusal: Refusal, out: &mut Vec<u8>) {
    // The last number says why a value was refused, and there is one reason only.
    let (number, record, inner) = match refusal {
        Refusal::Sizes => (13, 0, 0),
        Refusal::Length => (14, 0, 0),
        Refusal::Kind { record } => (15, record, 0),
        Refusal::Field { record } => (16, record, 0),
        Refusal::Value { record } => (17, record, 3),
    };
    line(b"refused", &[number, record as u32, inner], out);
}

fn line(word: &[u8], fields: &[u32], out: &mut Vec<u8>) {
    out.extend_from_slice(word);
    for &field in fields {
        out.push(b' ');
        number(field, out);
    }
    out.push(b'\n');
}

/// A space and the number.
fn signed(value: i32, out: &mut Vec<u8>) {
    out.extend_from_slice(if value < 0 { b" -" } else { b" " });
    number(value.unsigned_abs(), out);
}

/// The number in decimal, two digits at a time. The general formatting of the standard library takes several times as
/// long, and a report has up to 640 numbers.
fn number(mut value: u32, out: &mut Vec<u8>) {
    const PAIRS: [[u8; 2]; 100] = {
        let mut pairs = [[0; 2]; 100];
        let mut i = 0;
        while i < 100 {
            pairs[i] = [b'0' + i as u8 / 10, b'0' + i as u8 % 10];
            i += 1;
        }
        pairs
    };
    let mut digits = [0; 10];
    let mut start = digits.len();
    while value >= 10 {
        start -= 2;
        digits[start..start + 2].copy_from_slice(&PAIRS[value as usize % 100]);
        value /= 100;
    }
    // What is left is one digit, or nothing behind a pair.
    if value > 0 || start == digits.len() {
        start -= 1;
        digits[start] = b'0' + value as u8;
    }
    out.extend_from_slice(&digits[start..]);
}
