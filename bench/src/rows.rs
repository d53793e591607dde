//! The rows of an alignment.

use crate::limits::Place;
use crate::road::Road;
use crate::superelevation::superelevation;

#[derive(Clone, Copy, PartialEq, Eq, Debug)]
pub enum Row {
    Straight(u64),
    Curve(Curve),
}

#[derive(Clone, Copy, PartialEq, Eq, Debug)]
pub enum Sense {
    Left,
    Right,
}

#[derive(Clone, Copy, PartialEq, Eq, Debug)]
pub struct Curve {
    pub sense: Sense,
    pub radius: u64,
    pub turn: u64,
    pub entry: u64,
    pub exit: u64,
}

impl Row {
    pub fn curve(&self) -> Option<&Curve> {
        match self {
            Row::Straight(_) => None,
            Row::Curve(curve) => Some(curve),
        }
    }
}

impl Curve {
    /// Whether the curve calls for clothoids.
    pub fn calls(&self, road: &Road) -> bool {
        self.turn >= 60_000 && self.radius < road.free_from()
    }

    /// The place of both its clothoids.
    pub fn place(&self, road: &Road) -> Place {
        let superelevation = superelevation(road.group, self.radius);
        Place { road: *road, radius: self.radius, turn: self.turn, superelevation }
    }

    /// Whether clothoids of these lengths leave an arc.
    pub fn leaves_an_arc(&self, entry: u64, exit: u64) -> bool {
        self.turn * self.radius > 318_300 * (entry + exit)
    }
}
