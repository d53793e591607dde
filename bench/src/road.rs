//! Roads (Table 4.4).

use crate::sheet::Refusal;

#[derive(Clone, Copy, PartialEq, Eq, Debug)]
pub enum Class {
    A,
    M,
    C,
}

#[derive(Clone, Copy, PartialEq, Eq, Debug)]
pub enum Group {
    One,
    Two,
    Three,
}

impl Group {
    pub fn number(self) -> u64 {
        match self {
            Group::One => 1,
            Group::Two => 2,
            Group::Three => 3,
        }
    }
}

/// The choice of the change of centrifugal acceleration (Table 4.6).
#[derive(Clone, Copy, PartialEq, Eq, Debug)]
pub enum Jerk {
    Usual,
    Top,
}

#[derive(Clone, Copy, PartialEq, Eq, Debug)]
pub struct Road {
    pub class: Class,
    pub speed: u64,
    pub group: Group,
    pub least_radius: u64,
    pub edge: u64,
    pub lanes: u64,
    pub lane_factor: u64,
    pub jerk: u64,
}

impl Road {
    /// The road of the table, or refusal 1 or 2.
    pub fn open(class: Class, speed: u64, edge: u64, lanes: u64, jerk: Jerk) -> Result<Road, Refusal> {
        let (group, least_radius) = table_row(class, speed).ok_or(Refusal::new(1, 0))?;
        let lane_factor = match lanes {
            1 => 100,
            2 => 75,
            3 => 67,
            _ => return Err(Refusal::new(2, 0)),
        };
        if !(1..=30_000).contains(&edge) {
            return Err(Refusal::new(2, 0));
        }
        Ok(Road {
            class,
            speed,
            group,
            least_radius,
            edge,
            lanes,
            lane_factor,
            jerk: acceleration_change(speed, jerk),
        })
    }

    /// The length up to which a straight between two curves is short (Table 4.2), in millimetres.
    pub fn limited_length(&self) -> u64 {
        match self.speed {
            100.. => 400_000,
            90 => 300_000,
            80 => 230_000,
            70 => 175_000,
            60 => 85_000,
            50 => 50_000,
            _ => 30_000,
        }
    }

    /// The least radius after a longer straight (4.5).
    pub fn radius_after_a_straight(&self) -> u64 {
        match self.group {
            Group::One => self.least_radius,
            Group::Two => 700_000,
            Group::Three => 2 * self.least_radius,
        }
    }

    /// The first radius that calls for no clothoids (4.4.1).
    pub fn free_from(&self) -> u64 {
        match self.group {
            Group::One | Group::Two => 5_000_000,
            Group::Three => 2_500_000,
        }
    }

    /// Whether every curve's entry equals its exit (4.4.6).
    pub fn symmetric(&self) -> bool {
        self.group != Group::Three
    }
}

fn table_row(class: Class, speed: u64) -> Option<(Group, u64)> {
    let (group, metres) = match (class, speed) {
        (Class::A, 140) => (Group::One, 1050),
        (Class::A, 130) => (Group::One, 850),
        (Class::A, 120) => (Group::Two, 700),
        (Class::A, 110) => (Group::Two, 550),
        (Class::A, 100) => (Group::Two, 450),
        (Class::A, 90) => (Group::Two, 350),
        (Class::A, 80) => (Group::Two, 250),
        (Class::M | Class::C, 100) => (Group::Two, 450),
        (Class::M | Class::C, 90) => (Group::Three, 350),
        (Class::M | Class::C, 80) => (Group::Three, 265),
        (Class::M | Class::C, 70) => (Group::Three, 190),
        (Class::M | Class::C, 60) => (Group::Three, 130),
        (Class::M | Class::C, 50) => (Group::Three, 85),
        (Class::M | Class::C, 40) => (Group::Three, 50),
        _ => return None,
    };
    Some((group, metres * 1000))
}

/// J in tenths of m/s³.
fn acceleration_change(speed: u64, jerk: Jerk) -> u64 {
    match (jerk, speed) {
        (Jerk::Usual, ..80) => 5,
        (Jerk::Usual, _) => 4,
        (Jerk::Top, ..80) => 7,
        (Jerk::Top, ..100) => 6,
        (Jerk::Top, ..120) => 5,
        (Jerk::Top, _) => 4,
    }
}

#[cfg(test)]
mod tests {
    use super::*;

    #[test]
    fn refusals_in_order() {
        let open =
            |speed, edge, lanes| Road::open(Class::M, speed, edge, lanes, Jerk::Top).map(|road| road.jerk);
        assert_eq!(open(100, 30_000, 3), Ok(5));
        assert_eq!(open(110, 0, 4), Err(Refusal::new(1, 0)));
        assert_eq!(open(100, 0, 1), Err(Refusal::new(2, 0)));
        assert_eq!(open(100, 30_001, 1), Err(Refusal::new(2, 0)));
        assert_eq!(open(100, 1, 0), Err(Refusal::new(2, 0)));
        assert_eq!(open(100, 1, 4), Err(Refusal::new(2, 0)));
    }
}
