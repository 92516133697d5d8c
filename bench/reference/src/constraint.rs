//! Cells, the tube that they make up, and the three constraints that narrow it.

use std::ops::{Index, IndexMut};

/// Every end of every cell lies in -W to W.
pub const W: i32 = 1 << 29;

/// 128 gates need 510 cells. The next power of two lets an index be cut to size by a mask, without a test.
pub const CELLS: usize = 512;

#[derive(Clone, Copy, Debug, PartialEq, Eq)]
pub struct Cell {
    pub low: i32,
    pub high: i32,
}

impl Cell {
    const WIDEST: Cell = Cell { low: -W, high: W };

    /// What lies in the cell and in `low` to `high`. Nothing does where the ends come out of order.
    #[inline]
    fn cut(self, low: i32, high: i32) -> Cell {
        Cell { low: self.low.max(low), high: self.high.min(high) }
    }

    #[inline]
    fn is_empty(self) -> bool {
        self.low > self.high
    }
}

pub struct Tube([Cell; CELLS]);

impl Tube {
    pub fn new() -> Tube {
        Tube([Cell::WIDEST; CELLS])
    }

    pub fn widen(&mut self) {
        self.0.fill(Cell::WIDEST);
    }
}

impl Index<u16> for Tube {
    type Output = Cell;

    #[inline]
    fn index(&self, index: u16) -> &Cell {
        &self.0[usize::from(index) % CELLS]
    }
}

impl IndexMut<u16> for Tube {
    #[inline]
    fn index_mut(&mut self, index: u16) -> &mut Cell {
        &mut self.0[usize::from(index) % CELLS]
    }
}

#[derive(Clone, Copy, Debug, PartialEq, Eq)]
pub enum Constraint {
    /// The cell lies between `low` and `high`.
    Bound { cells: [u16; 1], low: i32, high: i32 },
    /// The third cell is the sum of the first two.
    Step { cells: [u16; 3] },
    /// The squared distance of the two cells, x and y, to the beacon lies between two squares.
    Range { cells: [u16; 2], beacon: [i32; 2], least: i64, most: i64 },
}

/// Which of the cells that a constraint mentions became narrower: bit k stands for the k-th of [`Constraint::cells`].
pub type Narrowed = u8;

/// The cell at which a constraint left no number.
#[derive(Clone, Copy, Debug, PartialEq, Eq)]
pub struct NothingLeft(pub u16);

impl Constraint {
    pub fn range(cells: [u16; 2], beacon: [i32; 2], shortest: i32, longest: i32) -> Constraint {
        let square = |v: i32| i64::from(v) * i64::from(v);
        Constraint::Range { cells, beacon, least: square(shortest), most: square(longest) }
    }

    /// The number by which a report names the sort of constraint that emptied a tube.
    pub fn cause(&self) -> u8 {
        match self {
            Constraint::Bound { .. } => 1,
            Constraint::Step { .. } => 2,
            Constraint::Range { .. } => 3,
        }
    }

    /// The cells that it mentions.
    pub fn cells(&self) -> &[u16] {
        match self {
            Constraint::Bound { cells, .. } => cells,
            Constraint::Step { cells } => cells,
            Constraint::Range { cells, .. } => cells,
        }
    }

    /// Narrows the cells. All new cells follow from the cells as they came in; where nothing is left of one, the tube
    /// stays as it was.
    #[inline]
    pub fn narrow(&self, tube: &mut Tube) -> Result<Narrowed, NothingLeft> {
        match *self {
            Constraint::Bound { cells: [cell], low, high } => bound(tube, cell, low, high),
            Constraint::Step { cells } => step(tube, cells),
            Constraint::Range { cells, beacon, least, most } => range(tube, cells, beacon, least, most),
        }
    }
}

// Most uses narrow nothing, so each of these first looks for that case in the cheapest way.

#[inline]
fn bound(tube: &mut Tube, cell: u16, low: i32, high: i32) -> Result<Narrowed, NothingLeft> {
    let old = tube[cell];
    if low <= old.low && old.high <= high {
        return Ok(0);
    }
    let new = old.cut(low, high);
    if new.is_empty() {
        return Err(NothingLeft(cell));
    }
    tube[cell] = new;
    Ok(1)
}

#[inline]
fn step(tube: &mut Tube, [from, by, to]: [u16; 3]) -> Result<Narrowed, NothingLeft> {
    // How far each end is from being cut, which is below 0 where it is. An end is at most 2^29 from 0, so three of them
    // make no sum that overflows, and a row of `or`s keeps the sign of any.
    let (a, s, b) = (tube[from], tube[by], tube[to]);
    let slack_a = (a.low + s.high - b.low) | (b.high - s.low - a.high);
    let slack_s = (s.low + a.high - b.low) | (b.high - a.low - s.high);
    let slack_b = (b.low - a.low - s.low) | (a.high + s.high - b.high);
    if slack_a | slack_s | slack_b >= 0 {
        return Ok(0);
    }
    let new_b = b.cut(a.low + s.low, a.high + s.high);
    if new_b.is_empty() {
        return Err(NothingLeft(to));
    }
    // A sum that lies in b has its parts in a and s, so the other two cuts leave something as well.
    tube[from] = a.cut(b.low - s.high, b.high - s.low);
    tube[by] = s.cut(b.low - a.high, b.high - a.low);
    tube[to] = new_b;
    Ok(u8::from(slack_a < 0) | u8::from(slack_s < 0) << 1 | u8::from(slack_b < 0) << 2)
}

#[inline]
fn range(tube: &mut Tube, [x, y]: [u16; 2], beacon: [i32; 2], least: i64, most: i64) -> Result<Narrowed, NothingLeft> {
    let (along, across) = (Offset::new(tube[x], beacon[0]), Offset::new(tube[y], beacon[1]));
    let along_limits = (least - across.farthest(), most - across.nearest());
    let across_limits = (least - along.farthest(), most - along.nearest());
    if along.fits(along_limits) && across.fits(across_limits) {
        return Ok(0);
    }
    let new_along = along.hull(along_limits).ok_or(NothingLeft(x))?;
    let new_across = across.hull(across_limits).ok_or(NothingLeft(y))?;
    tube[x] = new_along.cell(beacon[0]);
    tube[y] = new_across.cell(beacon[1]);
    Ok(u8::from(new_along != along) | u8::from(new_across != across) << 1)
}

/// A cell as seen from a beacon's coordinate. The ends are at most 2^30 away, so their squares and the differences of
/// two squares fit into 64 bits.
#[derive(Clone, Copy, PartialEq, Eq)]
struct Offset {
    low: i64,
    high: i64,
}

impl Offset {
    #[inline]
    fn new(cell: Cell, origin: i32) -> Offset {
        let origin = i64::from(origin);
        Offset { low: i64::from(cell.low) - origin, high: i64::from(cell.high) - origin }
    }

    #[inline]
    fn cell(self, origin: i32) -> Cell {
        let origin = i64::from(origin);
        Cell { low: (self.low + origin) as i32, high: (self.high + origin) as i32 }
    }

    /// The greatest square.
    #[inline]
    fn farthest(self) -> i64 {
        (self.low * self.low).max(self.high * self.high)
    }

    /// The least square.
    #[inline]
    fn nearest(self) -> i64 {
        let gap = self.low.max(-self.high).max(0);
        gap * gap
    }

    /// Whether the squares of both ends lie in the limits; then the hull is all of this, and needs no root.
    #[inline]
    fn fits(self, (least, most): (i64, i64)) -> bool {
        let (low, high) = (self.low * self.low, self.high * self.high);
        least <= low.min(high) && low.max(high) <= most
    }

    /// The hull of those numbers here whose square lies in the limits, of which either may be negative.
    #[inline]
    fn hull(self, (least, most): (i64, i64)) -> Option<Offset> {
        if most < 0 {
            return None;
        }
        let outer = root(most);
        let inner = if least > 0 { root(least - 1) + 1 } else { 0 };

        // What is allowed is -outer to -inner and inner to outer. An end that falls into the hole between them goes on
        // to its other edge.
        let mut low = self.low.max(-outer);
        if low > -inner {
            low = low.max(inner);
        }
        let mut high = self.high.min(outer);
        if high < inner {
            high = high.min(-inner);
        }
        (low <= high).then_some(Offset { low, high })
    }
}

/// The square root of a number from 0 to 2^60, rounded down.
///
/// A floating root is never below the true one rounded down: for whole numbers up to 2^30 the square of one goes
/// through the conversion and the root without a loss that could show, and both keep the order. It can be one above,
/// as close below a square the conversion rounds up.
#[inline]
fn root(n: i64) -> i64 {
    let guess = (n as f64).sqrt() as i64;
    guess - i64::from(guess * guess > n)
}

#[cfg(test)]
mod tests {
    use super::*;

    fn tube(cells: &[(i32, i32)]) -> Tube {
        let mut tube = Tube::new();
        for (index, &(low, high)) in cells.iter().enumerate() {
            tube[index as u16] = Cell { low, high };
        }
        tube
    }

    fn after(constraint: Constraint, cells: &[(i32, i32)]) -> Result<Vec<(i32, i32)>, NothingLeft> {
        let mut tube = tube(cells);
        constraint.narrow(&mut tube)?;
        Ok((0..cells.len()).map(|index| (tube[index as u16].low, tube[index as u16].high)).collect())
    }

    #[test]
    fn bounds() {
        let bound = |low, high| Constraint::Bound { cells: [0], low, high };
        assert_eq!(after(bound(0, 9), &[(-5, 5)]), Ok(vec![(0, 5)]));
        assert_eq!(after(bound(6, 9), &[(-5, 5)]), Err(NothingLeft(0)));
    }

    #[test]
    fn steps() {
        let step = Constraint::Step { cells: [0, 1, 2] };
        assert_eq!(after(step, &[(0, 2), (3, 4), (5, 10)]), Ok(vec![(1, 2), (3, 4), (5, 6)]));
        assert_eq!(after(step, &[(0, 2), (3, 4), (7, 9)]), Err(NothingLeft(2)));
    }

    #[test]
    fn ranges() {
        let five = Constraint::range([0, 1], [0, 0], 5, 5);
        assert_eq!(after(five, &[(0, 10), (3, 3)]), Ok(vec![(4, 4), (3, 3)]));
        assert_eq!(after(five, &[(-10, 10), (3, 3)]), Ok(vec![(-4, 4), (3, 3)]));
        assert_eq!(after(five, &[(0, 0), (-4, 4)]), Err(NothingLeft(0)));
    }

    #[test]
    fn roots() {
        for k in (0..=1 << 30).step_by(997).chain((1 << 30) - 1000..=1 << 30) {
            let square = k * k;
            assert_eq!(root(square), k);
            assert_eq!(root(square.saturating_sub(1).max(0)), (k - 1).max(0));
            assert_eq!(root(square + k), k);
        }
    }

    /// Every range of a small world against the definition, number by number.
    #[test]
    fn hulls() {
        for low in -6i64..=6 {
            for high in low..=6 {
                for least in -3..=40 {
                    for most in -3..=40 {
                        let allowed = |v: &i64| least <= v * v && v * v <= most;
                        let first = (low..=high).find(allowed);
                        let last = (low..=high).rev().find(allowed);
                        let hull = Offset { low, high }.hull((least, most));
                        assert_eq!(hull.map(|h| h.low), first);
                        assert_eq!(hull.map(|h| h.high), last);
                    }
                }
            }
        }
    }
}
