//! A list of constraints that are used again as long as the cells that they mention become narrower.

use crate::constraint::{CELLS, Constraint, Narrowed, NothingLeft, Tube};

/// The most records of one net: 254 steps and 256 records of the log make 510. A power of two lets the ring wrap by a
/// mask.
const RECORDS: usize = 512;

/// Three cells for each of 254 steps, one or two for each record of the log, an end for each of 510 cells and one for
/// the list without a record stay below this.
const MENTIONS: usize = 2048;

/// Behind the last record of every list of mentions. It is greater than every record.
const END: u16 = u16::MAX;

/// Where the list of mentions without a record begins.
const NO_MENTIONS: u16 = 0;

/// The ring when all records wait, to be copied.
const IN_ORDER: [u16; RECORDS] = {
    let mut ring = [0; RECORDS];
    let mut index = 0;
    while index < RECORDS {
        ring[index] = index as u16;
        index += 1;
    }
    ring
};

struct Record {
    constraint: Constraint,
    number: u16,
    /// For each cell that the constraint mentions, where the list of the records that mention it begins.
    lists: [u16; 3],
}

#[derive(Clone, Copy, Debug, PartialEq, Eq)]
pub struct Fault {
    pub number: u16,
    pub cause: u8,
    pub cell: u16,
}

#[derive(Clone, Copy, Debug, PartialEq, Eq)]
pub enum End {
    /// No record waits.
    Settled,
    /// Some wait, but the uses are spent.
    Stopped,
    Empty(Fault),
}

pub struct Outcome {
    pub end: End,
    pub calls: u32,
    /// Whether a cell became narrower.
    pub changed: bool,
}

pub struct Net {
    rounds: u32,
    records: Vec<Record>,
    /// All lists of mentions, one after the other: for a cell, the records that mention it in list order, then `END`.
    mentions: [u16; MENTIONS],
}

impl Net {
    pub fn new(rounds: u32) -> Net {
        Net { rounds, records: Vec::with_capacity(RECORDS), mentions: [END; MENTIONS] }
    }

    pub fn clear(&mut self) {
        self.records.clear();
    }

    pub fn push(&mut self, constraint: Constraint, number: u16) {
        self.records.push(Record { constraint, number, lists: [NO_MENTIONS; 3] });
    }

    /// Makes the lists of mentions. To be called after the last `push` and before the first `run`.
    pub fn connect(&mut self, cells: usize) {
        // A counting sort of the mentions by cell. First each place is the length of the cell's list.
        let mut places = [0; CELLS];
        let places = &mut places[..cells];
        for record in &self.records {
            for &cell in record.constraint.cells() {
                places[usize::from(cell)] += 1;
            }
        }
        // Then it is the end of the list, behind those of the cells before.
        let mut end = NO_MENTIONS;
        self.mentions[usize::from(end)] = END;
        for place in places.iter_mut() {
            end += *place + 1;
            *place = end;
            self.mentions[usize::from(end)] = END;
        }
        // Filled from behind, in falling order of the records, the lists rise, and each place arrives at the start.
        for (index, record) in self.records.iter().enumerate().rev() {
            for &cell in record.constraint.cells() {
                let place = &mut places[usize::from(cell)];
                *place -= 1;
                self.mentions[usize::from(*place)] = index as u16;
            }
        }
        for record in &mut self.records {
            for (list, &cell) in record.lists.iter_mut().zip(record.constraint.cells()) {
                *list = places[usize::from(cell)];
            }
        }
    }

    /// Uses the records until none waits, one leaves nothing, or the uses are spent.
    pub fn run(&self, tube: &mut Tube) -> Outcome {
        let allowance = self.rounds * self.records.len() as u32;
        let mut calls = 0;
        let mut changed = false;
        let mut waiting = Waiting::all(self.records.len());
        let end = loop {
            let Some(index) = waiting.take() else {
                break End::Settled;
            };
            if calls == allowance {
                break End::Stopped;
            }
            calls += 1;
            let record = &self.records[usize::from(index)];
            match record.constraint.narrow(tube) {
                Ok(narrowed) => {
                    if narrowed != 0 {
                        changed = true;
                        self.wake(record, narrowed, &mut waiting);
                    }
                }
                Err(NothingLeft(cell)) => {
                    let (number, cause) = (record.number, record.constraint.cause());
                    break End::Empty(Fault { number, cause, cell });
                }
            }
        };
        Outcome { end, calls, changed }
    }

    /// Lets all records wait that mention a narrowed cell, in list order.
    #[inline]
    fn wake(&self, record: &Record, narrowed: Narrowed, waiting: &mut Waiting) {
        match narrowed {
            0b001 => self.wake_one(record.lists[0], waiting),
            0b010 => self.wake_one(record.lists[1], waiting),
            0b100 => self.wake_one(record.lists[2], waiting),
            _ => {
                let list = |k: usize| if narrowed & 1 << k != 0 { record.lists[k] } else { NO_MENTIONS };
                self.wake_merged([list(0), list(1), list(2)], waiting);
            }
        }
    }

    #[inline]
    fn wake_one(&self, list: u16, waiting: &mut Waiting) {
        let list = &self.mentions[usize::from(list) % MENTIONS..];
        for &record in list.iter().take_while(|&&record| record != END) {
            waiting.join(record);
        }
    }

    /// Each list rises, so a merge brings all of them into list order.
    #[inline]
    fn wake_merged(&self, mut lists: [u16; 3], waiting: &mut Waiting) {
        loop {
            let heads = lists.map(|list| self.mentions[usize::from(list) % MENTIONS]);
            let next = heads[0].min(heads[1]).min(heads[2]);
            if next == END {
                return;
            }
            // A record that stands at the head of several lists leaves all of them.
            for (list, head) in lists.iter_mut().zip(heads) {
                *list += u16::from(head == next);
            }
            waiting.join(next);
        }
    }
}

/// A ring of the records that wait, each at most once. It lives on the stack of `run`, where its two counts can stay in
/// registers.
struct Waiting {
    ring: [u16; RECORDS],
    marks: [bool; RECORDS],
    /// How many were ever taken off and how many ever joined. Their places in the ring are these numbers wrapped.
    taken: usize,
    joined: usize,
}

impl Waiting {
    /// All of `count` records wait, in order. What is written behind them does not matter.
    fn all(count: usize) -> Waiting {
        Waiting { ring: IN_ORDER, marks: [true; RECORDS], taken: 0, joined: count }
    }

    #[inline]
    fn take(&mut self) -> Option<u16> {
        if self.taken == self.joined {
            return None;
        }
        let record = self.ring[self.taken % RECORDS];
        self.taken += 1;
        self.marks[usize::from(record) % RECORDS] = false;
        Some(record)
    }

    /// One that waits already keeps its place. The place behind the last is written in any case, and only the count
    /// makes it part of the ring, so there is no branch to mispredict. That place is never taken: fewer than 512 wait.
    #[inline]
    fn join(&mut self, record: u16) {
        let mark = &mut self.marks[usize::from(record) % RECORDS];
        self.ring[self.joined % RECORDS] = record;
        self.joined += usize::from(!*mark);
        *mark = true;
    }
}
