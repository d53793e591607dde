//! The twelve rules.

use std::fmt;

use crate::limits::{least_length, Limit};
use crate::road::{Class, Road};
use crate::rows::{Curve, Row};

#[derive(Clone, Copy, PartialEq, Eq, PartialOrd, Ord, Debug)]
pub enum Side {
    Whole,
    Entry,
    Exit,
}

/// What a rule says against a row, ordered by row, rule and side.
#[derive(Clone, Copy, PartialEq, Eq, PartialOrd, Ord, Debug)]
pub struct Finding {
    pub row: usize,
    pub rule: u8,
    pub side: Side,
}

impl fmt::Display for Finding {
    /// The row, the rule, the side and the weight.
    fn fmt(&self, f: &mut fmt::Formatter) -> fmt::Result {
        let side = match self.side {
            Side::Whole => "whole",
            Side::Entry => "entry",
            Side::Exit => "exit",
        };
        write!(f, "{} {} {side} {}", self.row, self.rule, self.weight())
    }
}

impl Finding {
    pub fn weight(&self) -> &'static str {
        if self.rule < 10 {
            "breach"
        } else {
            "advice"
        }
    }
}

/// Every finding of a list of rows, in order.
pub fn check(road: &Road, rows: &[Row], limits: &[Limit]) -> Vec<Finding> {
    let mut findings = Findings { road, found: Vec::new() };
    for (row, curve) in curves(rows) {
        findings.of_a_curve(row, curve, limits);
    }
    for (row, pair) in rows.windows(2).enumerate() {
        if let [Row::Curve(before), Row::Curve(after)] = pair {
            findings.of_neighbours(row + 1, before, after);
        }
    }
    let curves: Vec<(usize, &Curve)> = curves(rows).collect();
    for pair in curves.windows(2) {
        let run = &rows[pair[0].0 + 1..pair[1].0];
        findings.of_consecutive(pair[0], pair[1], length(run));
    }
    findings.of_runs(rows);
    findings.found.sort();
    findings.found
}

fn curves(rows: &[Row]) -> impl Iterator<Item = (usize, &Curve)> {
    rows.iter().enumerate().filter_map(|(row, kind)| Some((row, kind.curve()?)))
}

/// The length of a run of straights.
fn length(run: &[Row]) -> u64 {
    let one = |row: &Row| match row {
        Row::Straight(length) => *length,
        Row::Curve(_) => 0,
    };
    run.iter().map(one).sum()
}

struct Findings<'a> {
    road: &'a Road,
    found: Vec<Finding>,
}

impl Findings<'_> {
    /// Notes a finding where the rule is not kept.
    fn demand(&mut self, kept: bool, row: usize, rule: u8, side: Side) {
        if !kept {
            self.found.push(Finding { row, rule, side });
        }
    }

    /// Rules 1 to 4, 6, 7, 9 and 12.
    fn of_a_curve(&mut self, row: usize, curve: &Curve, limits: &[Limit]) {
        let &Curve { radius, turn, entry, exit, .. } = curve;
        let least = curve.calls(self.road).then(|| least_length(limits, &curve.place(self.road)));
        for (side, length) in [(Side::Entry, entry), (Side::Exit, exit)] {
            match least {
                None => self.demand(length == 0, row, 3, side),
                Some(None) => self.demand(false, row, 1, side),
                Some(Some(least)) => {
                    self.demand(length >= least, row, 1, side);
                    self.demand(2 * length <= 3 * least, row, 2, side);
                }
            }
        }
        self.demand(!self.road.symmetric() || entry == exit, row, 4, Side::Whole);
        self.demand(curve.leaves_an_arc(entry, exit), row, 6, Side::Whole);
        self.demand(radius >= self.road.least_radius, row, 7, Side::Whole);
        let wide = turn >= 60_000 || radius * turn >= 1_591_500 * (130_000 - turn);
        self.demand(wide, row, 9, Side::Whole);
        self.demand(turn >= 20_000, row, 12, Side::Whole);
    }

    /// Rule 5, of two curves in adjacent rows.
    fn of_neighbours(&mut self, later: usize, before: &Curve, after: &Curve) {
        let call = before.calls(self.road) && after.calls(self.road);
        let agree = 3 * before.exit >= 2 * after.entry && 3 * after.entry >= 2 * before.exit;
        self.demand(!call || agree, later, 5, Side::Entry);
    }

    /// Rule 8, of a curve and the next one over a run, which may be empty.
    fn of_consecutive(&mut self, earlier: (usize, &Curve), later: (usize, &Curve), run: u64) {
        let agree = |before: &Curve, after: &Curve| {
            if run <= self.road.limited_length() {
                radii_agree(before.radius, after.radius)
            } else {
                after.radius >= self.road.radius_after_a_straight()
            }
        };
        let there = agree(earlier.1, later.1);
        let back = self.road.class != Class::C || agree(later.1, earlier.1);
        self.demand(there, later.0, 8, Side::Entry);
        self.demand(back, earlier.0, 8, Side::Exit);
    }

    /// Rules 10 and 11, of every longest run.
    fn of_runs(&mut self, rows: &[Row]) {
        let speed = self.road.speed;
        let mut first = 0;
        for run in rows.split(|row| row.curve().is_some()) {
            let end = first + run.len();
            let length = length(run);
            if !run.is_empty() {
                self.demand(length <= 16_700 * speed, first, 11, Side::Whole);
                let before = first.checked_sub(1).and_then(|row| rows[row].curve());
                let after = rows.get(end).and_then(Row::curve);
                if let (Some(before), Some(after)) = (before, after) {
                    let least = if before.sense == after.sense { 2_780 } else { 1_390 };
                    self.demand(length >= least * speed, first, 10, Side::Whole);
                }
            }
            first = end + 1;
        }
    }
}

/// Whether the radius `next` may follow the radius `radius` over a short run (Table 4.7).
pub fn radii_agree(radius: u64, next: u64) -> bool {
    let (r, n) = (radius as i64, next as i64);
    match radius {
        ..50_000 => true,
        50_000..=450_000 => 50 * r + 600_600 <= 77 * n && 80 * n < 127 * r - 1_152_000,
        450_001..=700_000 => 40 * r + 22_504_500 <= 135 * n && 25 * n < 110 * r - 32_000_000,
        700_001..=1_800_000 => 40 * r + 22_504_500 <= 135 * n,
        _ => n >= 700_000,
    }
}

/// The least and the greatest radius that may follow over a short run, where the rule asks for any.
pub fn radii_after(radius: u64) -> Option<(u64, Option<u64>)> {
    let below = |numerator: u64, denominator: u64| Some((numerator - 1) / denominator);
    match radius {
        ..50_000 => None,
        50_000..=450_000 => Some(((50 * radius + 600_600).div_ceil(77), below(127 * radius - 1_152_000, 80))),
        450_001..=700_000 => {
            Some(((40 * radius + 22_504_500).div_ceil(135), below(110 * radius - 32_000_000, 25)))
        }
        700_001..=1_800_000 => Some(((40 * radius + 22_504_500).div_ceil(135), None)),
        _ => Some((700_000, None)),
    }
}

#[cfg(test)]
mod tests {
    use super::*;

    /// The ends of a range are the last radii that agree.
    #[test]
    fn ranges_are_the_inequalities() {
        for radius in
            (1_000..=2_000_000).step_by(997).chain([50_000, 450_000, 450_001, 700_000, 700_001, 1_800_000])
        {
            let Some((low, high)) = radii_after(radius) else {
                assert!(radius < 50_000);
                continue;
            };
            assert!(radii_agree(radius, low) && !radii_agree(radius, low - 1), "{radius}");
            let Some(high) = high else { continue };
            assert!(radii_agree(radius, high) && !radii_agree(radius, high + 1), "{radius}");
        }
    }
}
