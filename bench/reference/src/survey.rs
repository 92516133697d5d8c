//! The whole way from the bytes of a log to those of its report.

use crate::constraint::Tube;
use crate::log::{Entry, Log, Refusal};
use crate::net::{End, Fault, Net};
use crate::report;

/// How often the two nets are used, one after the other, at most.
const ROUNDS: u32 = 8;

/// A net may use its records this often on average in one turn.
const NET_ROUNDS: u32 = 32;

/// What came of a log, but for the tube.
#[derive(Clone, Copy, Debug, PartialEq, Eq)]
pub enum Verdict {
    Kept {
        calls: u32,
        settled: bool,
    },
    /// The path tells which of the two nets the fault came from.
    Empty {
        fault: Fault,
        path: u32,
        calls: u32,
    },
}

/// The tables are kept from log to log, so that only the first one needs memory.
pub struct Survey {
    tube: Tube,
    motion: Net,
    ranges: Net,
}

impl Survey {
    pub fn new() -> Survey {
        Survey { tube: Tube::new(), motion: Net::new(NET_ROUNDS), ranges: Net::new(NET_ROUNDS) }
    }

    /// Appends the report of the log to `out`.
    pub fn report(&mut self, bytes: &[u8], out: &mut Vec<u8>) {
        match self.load(bytes) {
            Ok(gates) => {
                self.tube.widen();
                let verdict = self.narrow();
                report::verdict(verdict, &self.tube, gates, out);
            }
            Err(refusal) => report::refusal(refusal, out),
        }
    }

    /// Fills the nets. The first gets the steps, then fixes and bounds of steps; the second gets the distances. Every
    /// constraint is numbered by its place in the log, behind the steps, whichever net it goes to.
    fn load(&mut self, bytes: &[u8]) -> Result<u16, Refusal> {
        let log = Log::new(bytes)?;
        self.motion.clear();
        self.ranges.clear();
        let mut number = 0;
        for step in log.steps() {
            self.motion.push(step, number);
            number += 1;
        }
        for entry in log.entries() {
            match entry? {
                Entry::Bound(constraint) => self.motion.push(constraint, number),
                Entry::Range(constraint) => self.ranges.push(constraint, number),
            }
            number += 1;
        }
        self.motion.connect(log.cells());
        self.ranges.connect(log.cells());
        Ok(log.gates())
    }

    /// Uses the first net and then the second, and again, until a round changes no cell, one of them finds that
    /// nothing is left, or the rounds are spent.
    fn narrow(&mut self) -> Verdict {
        let mut calls = 0;
        for _ in 0..ROUNDS {
            let mut changed = false;
            let mut settled = true;
            for (net, side) in [(&self.motion, 1), (&self.ranges, 2)] {
                let outcome = net.run(&mut self.tube);
                calls += outcome.calls;
                changed |= outcome.changed;
                match outcome.end {
                    End::Settled => {}
                    End::Stopped => settled = false,
                    End::Empty(fault) => return Verdict::Empty { fault, path: path(side), calls },
                }
            }
            if !changed {
                // Only the marks of this last round count.
                return Verdict::Kept { calls, settled };
            }
        }
        // The last round still changed a cell.
        Verdict::Kept { calls, settled: false }
    }
}

/// A digit in base 8 for each layer that the fault came through, the outermost last: the net (5), its side, and the
/// rounds (4).
fn path(side: u32) -> u32 {
    [5, side, 4].into_iter().fold(0, |path, digit| 8 * path + digit)
}

#[cfg(test)]
mod tests {
    use super::*;

    fn log(gates: u16, records: &[(u8, u8, u16, [i32; 4])]) -> Vec<u8> {
        let mut bytes = gates.to_le_bytes().to_vec();
        bytes.extend((records.len() as u16).to_le_bytes());
        for &(kind, axis, p, _) in records {
            bytes.extend([kind, axis]);
            bytes.extend(p.to_le_bytes());
            bytes.extend([0; 2]);
        }
        for (_, _, _, values) in records {
            bytes.extend(values.iter().flat_map(|value| value.to_le_bytes()));
            bytes.extend([0; 8]);
        }
        bytes
    }

    fn report(bytes: &[u8]) -> String {
        let mut out = Vec::new();
        Survey::new().report(bytes, &mut out);
        String::from_utf8(out).unwrap()
    }

    fn one_step(distance: i32) -> Vec<u8> {
        log(
            2,
            &[
                (b'B', 0, 0, [0, 0, 0, 0]),
                (b'B', 1, 0, [0, 0, 0, 0]),
                (b'S', 0, 0, [3, 5, 0, 0]),
                (b'S', 1, 0, [0, 0, 0, 0]),
                (b'R', 0, 1, [10, 0, distance, distance]),
            ],
        )
    }

    #[test]
    fn kept() {
        assert_eq!(report(&one_step(6)), "kept 31 settled\n0 0 0 0 0\n1 4 4 0 0\n");
        assert_eq!(report(&log(1, &[])), "kept 0 settled\n0 -536870912 536870912 -536870912 536870912\n");
    }

    #[test]
    fn emptied() {
        assert_eq!(report(&one_step(20)), "empty 6 3 1 340 15\n");
    }

    #[test]
    fn refused() {
        assert_eq!(report(&[]), "refused 13 0 0\n");
        assert_eq!(report(&log(129, &[])), "refused 13 0 0\n");
        assert_eq!(report(&one_step(6)[..153]), "refused 14 0 0\n");
        // The earliest bad record decides, not the smallest number.
        let good = (b'B', 1, 0, [-1, 10, 0, 0]);
        let value = (b'B', 0, 0, [1, 0, 0, 0]);
        let field = (b'S', 0, 1, [1, 0, 0, 0]);
        let kind = (b'R', 1, 9, [1, 0, 0, 0]);
        assert_eq!(report(&log(2, &[good, value, field, kind])), "refused 17 1 3\n");
        assert_eq!(report(&log(2, &[good, good, field, kind])), "refused 16 2 0\n");
        assert_eq!(report(&log(2, &[kind, value])), "refused 15 0 0\n");
    }
}
