//! The least lengths that keep the clothoid rules.

use crate::limits::{least_length, Limit};
use crate::road::Road;
use crate::rows::{Curve, Row};
use crate::LONGEST;

/// The entry and the exit of each row, 0 for straights; or the first row up to which no lengths keep the rules.
pub fn fit(road: &Road, rows: &[Row], limits: &[Limit]) -> Result<Vec<(u64, u64)>, usize> {
    let mut fitted = Vec::with_capacity(rows.len());
    let mut before = None;
    for (row, kind) in rows.iter().enumerate() {
        let calling = kind.curve().filter(|curve| curve.calls(road));
        let link = match calling {
            None => None,
            Some(curve) => Some(Link::new(road, curve, limits).and_then(|own| own.after(before)).ok_or(row)?),
        };
        fitted.push(link.map_or((0, 0), |link| (link.entry, link.exit)));
        before = link;
    }
    push_back(road, rows, &mut fitted);
    Ok(fitted)
}

/// A calling curve of a chain of neighbours, as the rows up to it leave it.
#[derive(Clone, Copy)]
struct Link {
    /// Whether the entry has to equal the exit.
    symmetric: bool,
    /// The least lengths.
    entry: u64,
    exit: u64,
    /// The longest exit that a next neighbour may push this curve to.
    most: u64,
    /// The greatest sum of both lengths that leaves an arc.
    sum: u64,
}

/// The length that a clothoid wants at its neighbour's near end.
fn wanted(length: u64) -> u64 {
    (2 * length).div_ceil(3)
}

impl Link {
    /// The curve by itself.
    fn new(road: &Road, curve: &Curve, limits: &[Limit]) -> Option<Link> {
        let least = least_length(limits, &curve.place(road))?;
        let most = (3 * least / 2).min(LONGEST);
        let sum = (curve.turn * curve.radius - 1) / 318_300;
        Link { symmetric: road.symmetric(), entry: least, exit: least, most, sum }.kept()
    }

    /// The curve after its neighbour, where there is one.
    fn after(mut self, before: Option<Link>) -> Option<Link> {
        let Some(before) = before else { return Some(self) };
        // The neighbour has to bear what this curve wants at the least.
        if wanted(self.entry) > before.most {
            return None;
        }
        self.entry = self.entry.max(wanted(before.exit));
        let own = self.most;
        if self.symmetric {
            self.exit = self.entry;
            self.most = own.min(3 * before.most / 2);
        }
        if self.entry > own {
            return None;
        }
        self.kept()
    }

    /// The curve, with no exit above what an arc allows.
    fn kept(mut self) -> Option<Link> {
        let room = if self.symmetric { self.sum / 2 } else { self.sum.checked_sub(self.entry)? };
        self.most = self.most.min(room);
        (self.exit <= self.most).then_some(self)
    }
}

/// Lengthens each curve to what the next one wants.
fn push_back(road: &Road, rows: &[Row], fitted: &mut [(u64, u64)]) {
    let calls = |row: usize| rows[row].curve().is_some_and(|curve| curve.calls(road));
    for row in (1..rows.len()).rev() {
        if calls(row - 1) && calls(row) {
            let wanted = wanted(fitted[row].0);
            let (entry, exit) = &mut fitted[row - 1];
            *exit = wanted.max(*exit);
            if road.symmetric() {
                *entry = *exit;
            }
        }
    }
}

#[cfg(test)]
mod tests {
    use super::*;
    use crate::limits::compulsory;
    use crate::road::{Class, Jerk};
    use crate::rows::Sense;

    fn curve(sense: Sense, radius: u64) -> Row {
        Row::Curve(Curve { sense, radius, turn: 300_000, entry: 7, exit: 8 })
    }

    #[test]
    fn worked_fits() {
        let road = Road::open(Class::C, 100, 3500, 1, Jerk::Usual).unwrap();
        let fit =
            |left, right| fit(&road, &[curve(Sense::Left, left), curve(Sense::Right, right)], &compulsory());
        assert_eq!(fit(1_000_000, 450_000), Ok(vec![(111_112, 111_112), (74_075, 74_075)]));
        assert_eq!(fit(2_000_000, 450_000), Err(1));
    }
}
