//! Places, the limits on lengths at them, and clothoid parameters.

use crate::road::Road;
use crate::sheet::Refusal;
use crate::superelevation::superelevation;
use crate::LONGEST;

pub const RADII: std::ops::RangeInclusive<u64> = 1_000..=10_000_000;
pub const TURNS: std::ops::RangeInclusive<u64> = 1..=2_000_000;

/// Where a clothoid meets its curve.
#[derive(Clone, Copy, Debug)]
pub struct Place {
    pub road: Road,
    pub radius: u64,
    pub turn: u64,
    pub superelevation: u64,
}

impl Place {
    /// The place, or refusal 4 or 5.
    pub fn new(road: Road, radius: u64, turn: u64) -> Result<Place, Refusal> {
        check_curve(radius, turn, 0)?;
        Ok(Place { road, radius, turn, superelevation: superelevation(road.group, radius) })
    }
}

/// Refusal 4 or 5 where a radius or a turn is outside its range.
pub fn check_curve(radius: u64, turn: u64, row: u64) -> Result<(), Refusal> {
    if !RADII.contains(&radius) {
        return Err(Refusal::new(4, row));
    }
    if !TURNS.contains(&turn) {
        return Err(Refusal::new(5, row));
    }
    Ok(())
}

#[derive(Clone, PartialEq, Eq, Debug)]
pub enum Limit {
    Comfort,
    Transition,
    Azimuth,
    Shift,
    Fifth,
    Table(Table),
}

/// The limits of the compulsory pile.
pub fn compulsory() -> Vec<Limit> {
    vec![Limit::Comfort, Limit::Transition, Limit::Azimuth, Limit::Shift]
}

impl Limit {
    /// The least admitted length, if there is one.
    pub fn least_length(&self, place: &Place) -> Option<u64> {
        let &Place { road, radius, turn, superelevation } = place;
        let length = match self {
            Limit::Comfort => {
                let whole = 10_000_000_000 * road.speed.pow(3);
                let banked = 127_000 * road.speed * superelevation * radius;
                whole.saturating_sub(banked).div_ceil(46_656 * road.jerk * radius)
            }
            Limit::Transition => {
                (superelevation * road.edge * road.lane_factor).div_ceil(10 * (860 - 4 * road.speed))
            }
            Limit::Azimuth => radius.div_ceil(9),
            Limit::Shift => root_up(12_000 * radius),
            Limit::Fifth => (turn * radius).div_ceil(1_591_500),
            Limit::Table(table) => table.least_length(radius),
        };
        (length <= LONGEST).then_some(length)
    }
}

/// The least length that every limit admits, if there is one.
pub fn least_length(limits: &[Limit], place: &Place) -> Option<u64> {
    limits.iter().try_fold(0, |least, limit| Some(least.max(limit.least_length(place)?)))
}

/// A client's table.
#[derive(Clone, PartialEq, Eq, Debug)]
pub struct Table(Vec<Entry>);

#[derive(Clone, Copy, PartialEq, Eq, Debug)]
pub struct Entry {
    pub first: u32,
    pub last: u32,
    pub least: u32,
}

impl Table {
    /// The whole entries of a client's file.
    pub fn read(bytes: &[u8]) -> Table {
        let number = |bytes: &[u8]| bytes.iter().fold(0, |number, &byte| number << 8 | u32::from(byte));
        let entry = |bytes: &[u8]| Entry {
            first: number(&bytes[..4]),
            last: number(&bytes[4..8]),
            least: number(&bytes[8..]),
        };
        Table(bytes.chunks_exact(12).map(entry).collect())
    }

    /// The greatest least length of the entries that speak of the radius.
    fn least_length(&self, radius: u64) -> u64 {
        let speaks = |entry: &&Entry| (u64::from(entry.first)..=u64::from(entry.last)).contains(&radius);
        self.0.iter().filter(speaks).map(|entry| u64::from(entry.least)).max().unwrap_or(0)
    }
}

impl Entry {
    pub fn bytes(&self) -> [u8; 12] {
        let mut bytes = [0; 12];
        bytes[..4].copy_from_slice(&self.first.to_be_bytes());
        bytes[4..8].copy_from_slice(&self.last.to_be_bytes());
        bytes[8..].copy_from_slice(&self.least.to_be_bytes());
        bytes
    }
}

/// The parameter of a clothoid of a length to an arc of a radius.
pub fn parameter(radius: u64, length: u64) -> u64 {
    root_up(radius * length)
}

/// The least number whose square is at least `square`.
pub fn root_up(square: u64) -> u64 {
    let mut root = (square as f64).sqrt() as u64;
    while root.pow(2) < square {
        root += 1;
    }
    while root > 0 && (root - 1).pow(2) >= square {
        root -= 1;
    }
    root
}

#[cfg(test)]
mod tests {
    use super::*;
    use crate::road::{Class, Jerk};

    fn conventional() -> Road {
        Road::open(Class::C, 100, 3500, 1, Jerk::Usual).unwrap()
    }

    const NORMA: [Limit; 5] = [Limit::Comfort, Limit::Transition, Limit::Azimuth, Limit::Shift, Limit::Fifth];

    #[test]
    fn worked_lengths() {
        let place = Place::new(conventional(), 1_000_000, 300_000).unwrap();
        assert_eq!(place.superelevation, 647);
        let lengths = NORMA.map(|limit| limit.least_length(&place));
        assert_eq!(lengths, [9_555, 49_229, 111_112, 109_545, 188_502].map(Some));
        assert_eq!(least_length(&compulsory(), &place), Some(111_112));
        assert_eq!(parameter(1_000_000, 111_112), 333_335);
    }

    /// The inequalities of the rules, as they are written there.
    fn admits(limit: &Limit, place: &Place, length: u64) -> bool {
        let &Place { road, radius, turn, superelevation } = place;
        let whole = i128::from;
        let (v, r, p, l) = (whole(road.speed), whole(radius), whole(superelevation), whole(length));
        l <= 2_000_000
            && match limit {
                Limit::Comfort => {
                    46_656 * whole(road.jerk) * r * l >= 10_000_000_000 * v * v * v - 127_000 * v * p * r
                }
                Limit::Transition => 10 * (860 - 4 * v) * l >= p * whole(road.edge) * whole(road.lane_factor),
                Limit::Azimuth => 9 * l >= r,
                Limit::Shift => l * l >= 12_000 * r,
                Limit::Fifth => 1_591_500 * l >= whole(turn) * r,
                Limit::Table(_) => unreachable!("no limit of the Norma"),
            }
    }

    #[test]
    fn closed_forms_are_the_inequalities() {
        let road = Road::open(Class::A, 140, 30_000, 2, Jerk::Top).unwrap();
        for road in [conventional(), road] {
            for radius in
                (1_000..=10_000_000).step_by(99_991).chain([1_000, 1_001, 1_200_000, 9_000_000, 10_000_000])
            {
                for turn in [1, 60_000, 1_999_999] {
                    let place = Place::new(road, radius, turn).unwrap();
                    for limit in &NORMA {
                        let least = limit.least_length(&place);
                        assert_eq!(admits(limit, &place, LONGEST), least.is_some());
                        let Some(least) = least else { continue };
                        assert!(admits(limit, &place, least));
                        assert!(least == 0 || !admits(limit, &place, least - 1));
                    }
                }
            }
        }
    }

    #[test]
    fn tables() {
        let entries = [(5_000, 6_000, 7), (6_000, 8_000, 9), (9_000, 8_999, 99), (7_000, 7_000, 2_000_001)];
        let mut bytes: Vec<u8> =
            entries.iter().flat_map(|&(first, last, least)| Entry { first, last, least }.bytes()).collect();
        bytes.extend([0; 11]);
        let limits = [Limit::Table(Table::read(&bytes))];
        let least = |radius| least_length(&limits, &Place::new(conventional(), radius, 1).unwrap());
        assert_eq!(least(4_999), Some(0));
        assert_eq!(least(5_000), Some(7));
        assert_eq!(least(6_000), Some(9));
        assert_eq!(least(7_000), None);
        assert_eq!(least(8_001), Some(0));
        assert_eq!(least(9_000), Some(0));
    }

    #[test]
    fn roots() {
        for root in [0, 1, 2, 3, 1_000, 4_472_135, 4_472_136] {
            assert_eq!(root_up(root * root), root);
            assert_eq!(root_up(root * root + 1), root + 1);
        }
    }
}
