//! The superelevation of a radius (Table 4.5), in hundredths of a percent.

use std::sync::OnceLock;

use crate::road::Group;
use crate::wide::Wide;

/// A row of the table: `top` up to `first`, then the formula, then 200 and 0.
struct TableRow {
    top: u64,
    first: u64,
    from_200: u64,
    from_0: u64,
    formula: Formula,
}

/// `factor^outer (r - first)^inner <= (2 top + 1 - 2c)^outer r^inner` says that the formula is at least c - 1/2.
struct Formula {
    factor: u64,
    outer: u32,
    inner: u32,
}

const GROUP_1: TableRow = TableRow::fast(1_050_000, Formula::new(1592, 5, 6));

const GROUP_2: TableRow = TableRow::fast(700_000, Formula::new(1460, 10, 13));

const GROUP_3: TableRow = TableRow {
    top: 700,
    first: 350_000,
    from_200: 2_500_000,
    from_0: 3_500_000,
    formula: Formula::new(1330, 10, 19),
};

impl Formula {
    const fn new(factor: u64, outer: u32, inner: u32) -> Formula {
        Formula { factor, outer, inner }
    }
}

/// The radii where each group's superelevation drops by a hundredth, once they are tabulated.
static DROPS: OnceLock<[Vec<u64>; 3]> = OnceLock::new();

/// The superelevation of a radius in millimetres.
pub fn superelevation(group: Group, radius: u64) -> u64 {
    let row = row_of(group);
    if radius >= row.from_0 {
        0
    } else if radius >= row.from_200 {
        200
    } else if radius <= row.first {
        row.top
    } else if let Some(drops) = DROPS.get() {
        row.top - drops[group as usize].partition_point(|&drop| drop <= radius) as u64
    } else {
        row.largest(radius)
    }
}

/// Has superelevations be looked up from here on, and no more computed for each radius.
pub fn tabulate() {
    DROPS.get_or_init(|| [Group::One, Group::Two, Group::Three].map(drops));
}

/// The radii where the group's superelevation drops, by its formula.
fn drops(group: Group) -> Vec<u64> {
    let row = row_of(group);
    let first = |most| first_radius(group, most);
    (200..row.top).rev().map(first).filter(|&radius| radius < row.from_200).collect()
}

fn row_of(group: Group) -> &'static TableRow {
    match group {
        Group::One => &GROUP_1,
        Group::Two => &GROUP_2,
        Group::Three => &GROUP_3,
    }
}

impl TableRow {
    /// The row of group 1 or 2, which differ in the formula and in where it begins.
    const fn fast(first: u64, formula: Formula) -> TableRow {
        TableRow { top: 800, first, from_200: 5_000_000, from_0: 7_500_000, formula }
    }

    /// The largest value that the formula reaches to within a half, by halving.
    fn largest(&self, radius: u64) -> u64 {
        let Formula { factor, outer, inner } = self.formula;
        let left = Wide::new(1).times_power(factor, outer).times_power(radius - self.first, inner);
        let power = Wide::new(1).times_power(radius, inner);
        let reaches = |c: u64| left <= power.times_power(2 * self.top + 1 - 2 * c, outer);
        let (mut reached, mut beyond) = (0, self.top + 1);
        while beyond - reached > 1 {
            let middle = (reached + beyond) / 2;
            if reaches(middle) {
                reached = middle;
            } else {
                beyond = middle;
            }
        }
        reached
    }
}

/// The smallest radius whose superelevation is at most `most`.
pub fn first_radius(group: Group, most: u64) -> u64 {
    let (mut above, mut found) = (0, 7_500_000);
    while found - above > 1 {
        let middle = (above + found) / 2;
        if superelevation(group, middle) <= most {
            found = middle;
        } else {
            above = middle;
        }
    }
    found
}

#[cfg(test)]
mod tests {
    use super::*;

    #[test]
    fn worked_values() {
        assert_eq!(superelevation(Group::Two, 1_000_000), 647);
        assert_eq!(superelevation(Group::One, 2_100_000), 454);
        assert_eq!(superelevation(Group::Three, 2_499_999), 201);
        assert_eq!(superelevation(Group::Three, 2_500_000), 200);
    }

    #[test]
    fn ends_of_the_rows() {
        assert_eq!(superelevation(Group::One, 1_050_000), 800);
        assert_eq!(superelevation(Group::Two, 700_001), 800);
        assert_eq!(superelevation(Group::Three, 350_000), 700);
        assert_eq!(superelevation(Group::One, 5_000_000), 200);
        assert_eq!(superelevation(Group::One, 7_499_999), 200);
        assert_eq!(superelevation(Group::One, 7_500_000), 0);
        assert_eq!(superelevation(Group::Three, 3_499_999), 200);
        assert_eq!(superelevation(Group::Three, 3_500_000), 0);
    }

    /// Away from a half the comparison gives the formula's value in floating point, rounded.
    #[test]
    fn near_the_real_formula() {
        let rows = [
            (Group::One, 800.0, 796.0, 1050.0, 1.2, 1_050_000, 5_000_000),
            (Group::Two, 800.0, 730.0, 700.0, 1.3, 700_000, 5_000_000),
            (Group::Three, 700.0, 665.0, 350.0, 1.9, 350_000, 2_500_000),
        ];
        for (group, top, factor, first, power, from, to) in rows {
            for radius in (from + 1..to).step_by(997) {
                let value: f64 = top - factor * (1.0 - first * 1000.0 / radius as f64).powf(power);
                if (value.fract() - 0.5).abs() > 1e-6 {
                    assert_eq!(superelevation(group, radius), value.round() as u64, "radius {radius}");
                }
            }
        }
    }

    #[test]
    fn drops_by_steps() {
        let counts =
            [(Group::One, 800, 200, 600), (Group::Two, 800, 200, 600), (Group::Three, 700, 201, 499)];
        for (group, top, last, count) in counts {
            let steps: Vec<u64> = (last..top).map(|most| first_radius(group, most)).collect();
            assert!(steps.windows(2).all(|pair| pair[0] > pair[1]));
            assert_eq!(steps.len(), count);
            assert!(drops(group).iter().eq(steps.iter().rev()));
        }
    }
}
