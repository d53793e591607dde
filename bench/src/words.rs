//! The texts of findings: the lines of `check`, and those below a report.

use crate::check::{radii_after, Finding, Side};
use crate::limits::least_length;
use crate::rows::{Curve, Row};
use crate::session::Open;

/// How a reason writes its lengths and turns.
#[derive(Clone, Copy)]
enum Units {
    /// In millimetres and ten-thousandths of a gon, as `check` does.
    Whole,
    /// In metres and gon, as a report does.
    Decimal,
}

impl Units {
    fn length(self, millimetres: u64) -> String {
        match self {
            Units::Whole => format!("{millimetres} mm"),
            Units::Decimal => format!("{} m", metres(millimetres)),
        }
    }

    fn turn(self, turn: u64) -> String {
        match self {
            Units::Whole => format!("{turn} ten-thousandths of a gon"),
            Units::Decimal => format!("{} gon", gon(turn)),
        }
    }
}

/// A finding as `check` lists it.
pub fn listed(open: &Open, finding: &Finding) -> String {
    format!("finding {finding}: {}", reason(open, finding, Units::Whole))
}

/// A finding as it stands below a report.
pub fn below_a_report(open: &Open, finding: &Finding) -> String {
    let Finding { row, rule, .. } = finding;
    format!("row {row}, rule {rule}, {}: {}", finding.weight(), reason(open, finding, Units::Decimal))
}

/// Thousandths of a unit.
pub fn metres(millimetres: u64) -> String {
    format!("{}.{:03}", millimetres / 1_000, millimetres % 1_000)
}

/// Ten-thousandths of a gon.
pub fn gon(turn: u64) -> String {
    format!("{}.{:04}", turn / 10_000, turn % 10_000)
}

/// What stands there, and what is required or advised.
fn reason(open: &Open, finding: &Finding, units: Units) -> String {
    match finding.rule {
        8 => of_radii(open, finding, units),
        10 | 11 => of_a_run(open, finding, units),
        _ => of_a_curve(open, finding, units),
    }
}

/// The reasons of the rules about a curve and what is beside it.
fn of_a_curve(open: &Open, finding: &Finding, units: Units) -> String {
    let (road, row) = (&open.sheet.road, finding.row);
    let curve = open.sheet.rows[row].curve().expect("a rule of curves");
    let &Curve { radius, turn, entry, exit, .. } = curve;
    let length = |millimetres| units.length(millimetres);
    let least = || least_length(&open.limits, &curve.place(road));
    let clothoid = match finding.side {
        Side::Exit => format!("exit clothoid of {}", length(exit)),
        _ => format!("entry clothoid of {}", length(entry)),
    };
    match finding.rule {
        1 => match least() {
            Some(least) => format!("{clothoid}; at least {} required", length(least)),
            None => format!("{clothoid}; no length is admitted"),
        },
        2 => {
            let longest = 3 * least().expect("a least length") / 2;
            format!("{clothoid}; at most {} required", length(longest))
        }
        3 => format!("{clothoid} on a curve that has none; {} required", length(0)),
        4 => format!(
            "entry of {} and exit of {}; equal lengths required in groups 1 and 2",
            length(entry),
            length(exit)
        ),
        5 => {
            let before = open.sheet.rows[row - 1].curve().expect("a neighbour").exit;
            let (shortest, longest) = ((2 * before).div_ceil(3), 3 * before / 2);
            format!(
                "entry of {} beside the exit of {} in row {}; from {} to {} required",
                length(entry),
                length(before),
                row - 1,
                length(shortest),
                length(longest)
            )
        }
        6 => {
            let longest = (turn * radius - 1) / 318_300;
            format!(
                "clothoids of {} together; at most {} leaves an arc",
                length(entry + exit),
                length(longest)
            )
        }
        7 => format!("radius of {}; at least {} required", length(radius), length(road.least_radius)),
        9 => {
            let least = (1_591_500 * (130_000 - turn)).div_ceil(turn);
            let turn = units.turn(turn);
            format!("radius of {} with a turn of {turn}; at least {} required", length(radius), length(least))
        }
        12 => format!("turn of {}; at least {} advised", units.turn(turn), units.turn(20_000)),
        rule => unreachable!("rule {rule} of a curve"),
    }
}

/// The reason of rule 8; at the exit, in the return sense.
fn of_radii(open: &Open, finding: &Finding, units: Units) -> String {
    let (road, rows, row) = (&open.sheet.road, &open.sheet.rows[..], finding.row);
    let radius = rows[row].curve().expect("a rule of curves").radius;
    let back = finding.side == Side::Exit;
    let found = if back { next_curve(rows, row) } else { last_curve(rows, row) };
    let (place, other) = found.expect("a consecutive curve");
    let between = if back { &rows[row + 1..place] } else { &rows[place + 1..row] };
    let run: u64 = between.iter().filter_map(straight).sum();
    let (least, greatest) = if run <= road.limited_length() {
        radii_after(other.radius).expect("radii that have to follow")
    } else {
        (road.radius_after_a_straight(), None)
    };
    let length = |millimetres| units.length(millimetres);
    let over = if between.is_empty() { String::new() } else { format!(" over {} of straight", length(run)) };
    let range = match greatest {
        Some(greatest) => format!("from {} to {}", length(least), length(greatest)),
        None => format!("at least {}", length(least)),
    };
    let sense = if back { " in the return sense" } else { "" };
    let (radius, other) = (length(radius), length(other.radius));
    format!("radius of {radius} after {other} in row {place}{over}; {range} required{sense}")
}

/// The reasons of the rules 10 and 11.
fn of_a_run(open: &Open, finding: &Finding, units: Units) -> String {
    let (speed, rows, row) = (open.sheet.road.speed, &open.sheet.rows[..], finding.row);
    let run = units.length(rows[row..].iter().map_while(straight).sum());
    if finding.rule == 11 {
        return format!("straight of {run}; at most {} advised", units.length(16_700 * speed));
    }
    let sense = |found: Option<(usize, &Curve)>| found.expect("a curve on both sides").1.sense;
    let same = sense(last_curve(rows, row)) == sense(next_curve(rows, row));
    let (curves, shortest) =
        if same { ("curves of the same sense", 2_780) } else { ("opposite curves", 1_390) };
    format!("straight of {run} between {curves}; at least {} advised", units.length(shortest * speed))
}

fn straight(row: &Row) -> Option<u64> {
    match row {
        Row::Straight(length) => Some(*length),
        Row::Curve(_) => None,
    }
}

/// The last curve before a row.
fn last_curve(rows: &[Row], row: usize) -> Option<(usize, &Curve)> {
    (0..row).rev().find_map(|place| Some((place, rows[place].curve()?)))
}

/// The next curve after a row.
fn next_curve(rows: &[Row], row: usize) -> Option<(usize, &Curve)> {
    (row + 1..rows.len()).find_map(|place| Some((place, rows[place].curve()?)))
}

#[cfg(test)]
mod tests {
    use super::*;
    use crate::limits::{compulsory, Entry, Limit, Table};
    use crate::road::{Class, Jerk, Road};
    use crate::rows::Sense;
    use crate::sheet::Sheet;

    fn conventional(rows: Vec<Row>, limits: Vec<Limit>) -> Open {
        let road = Road::open(Class::C, 100, 3500, 1, Jerk::Usual).unwrap();
        Open { sheet: Sheet { road, rows, fitted: false }, limits }
    }

    fn curve(sense: Sense, radius: u64, turn: u64, entry: u64, exit: u64) -> Row {
        Row::Curve(Curve { sense, radius, turn, entry, exit })
    }

    fn assert_said(open: &Open, checked: &str, reported: &str) {
        let findings = open.sheet.check(&open.limits);
        let said = |line: fn(&Open, &Finding) -> String| {
            findings.iter().map(|finding| line(open, finding)).collect::<Vec<_>>().join("\n")
        };
        assert_eq!(said(listed), checked);
        assert_eq!(said(below_a_report), reported);
    }

    /// Each of the twelve rules, worked by hand.
    #[test]
    fn worked_reasons() {
        let rows = vec![
            curve(Sense::Left, 1_000_000, 300_000, 100_000, 200_000),
            curve(Sense::Right, 400_000, 70_000, 80_000, 80_000),
            Row::Straight(100_000),
            curve(Sense::Right, 2_546_399, 50_000, 1, 1),
            Row::Straight(1_670_001),
            curve(Sense::Left, 10_000_000, 19_999, 0, 0),
        ];
        let checked = "\
finding 0 1 entry breach: entry clothoid of 100000 mm; at least 111112 mm required
finding 0 2 exit breach: exit clothoid of 200000 mm; at most 166668 mm required
finding 0 4 whole breach: entry of 100000 mm and exit of 200000 mm; equal lengths required in groups 1 and 2
finding 0 8 exit breach: radius of 1000000 mm after 400000 mm in row 1; from 267541 mm to 620599 mm required in the return sense
finding 1 5 entry breach: entry of 80000 mm beside the exit of 200000 mm in row 0; from 133334 mm to 300000 mm required
finding 1 6 whole breach: clothoids of 160000 mm together; at most 87967 mm leaves an arc
finding 1 7 whole breach: radius of 400000 mm; at least 450000 mm required
finding 1 8 entry breach: radius of 400000 mm after 1000000 mm in row 0; at least 462997 mm required
finding 1 8 exit breach: radius of 400000 mm after 2546399 mm in row 3 over 100000 mm of straight; at least 700000 mm required in the return sense
finding 2 10 whole advice: straight of 100000 mm between curves of the same sense; at least 278000 mm advised
finding 3 3 entry breach: entry clothoid of 1 mm on a curve that has none; 0 mm required
finding 3 3 exit breach: exit clothoid of 1 mm on a curve that has none; 0 mm required
finding 3 8 entry breach: radius of 2546399 mm after 400000 mm in row 1 over 100000 mm of straight; from 267541 mm to 620599 mm required
finding 3 9 whole breach: radius of 2546399 mm with a turn of 50000 ten-thousandths of a gon; at least 2546400 mm required
finding 4 11 whole advice: straight of 1670001 mm; at most 1670000 mm advised
finding 5 12 whole advice: turn of 19999 ten-thousandths of a gon; at least 20000 ten-thousandths of a gon advised";
        let reported = "\
row 0, rule 1, breach: entry clothoid of 100.000 m; at least 111.112 m required
row 0, rule 2, breach: exit clothoid of 200.000 m; at most 166.668 m required
row 0, rule 4, breach: entry of 100.000 m and exit of 200.000 m; equal lengths required in groups 1 and 2
row 0, rule 8, breach: radius of 1000.000 m after 400.000 m in row 1; from 267.541 m to 620.599 m required in the return sense
row 1, rule 5, breach: entry of 80.000 m beside the exit of 200.000 m in row 0; from 133.334 m to 300.000 m required
row 1, rule 6, breach: clothoids of 160.000 m together; at most 87.967 m leaves an arc
row 1, rule 7, breach: radius of 400.000 m; at least 450.000 m required
row 1, rule 8, breach: radius of 400.000 m after 1000.000 m in row 0; at least 462.997 m required
row 1, rule 8, breach: radius of 400.000 m after 2546.399 m in row 3 over 100.000 m of straight; at least 700.000 m required in the return sense
row 2, rule 10, advice: straight of 100.000 m between curves of the same sense; at least 278.000 m advised
row 3, rule 3, breach: entry clothoid of 0.001 m on a curve that has none; 0.000 m required
row 3, rule 3, breach: exit clothoid of 0.001 m on a curve that has none; 0.000 m required
row 3, rule 8, breach: radius of 2546.399 m after 400.000 m in row 1 over 100.000 m of straight; from 267.541 m to 620.599 m required
row 3, rule 9, breach: radius of 2546.399 m with a turn of 5.0000 gon; at least 2546.400 m required
row 4, rule 11, advice: straight of 1670.001 m; at most 1670.000 m advised
row 5, rule 12, advice: turn of 1.9999 gon; at least 2.0000 gon advised";
        assert_said(&conventional(rows, compulsory()), checked, reported);
    }

    #[test]
    fn nothing_admitted() {
        let rows = vec![curve(Sense::Left, 1_000_000, 300_000, 7, 7)];
        let entry = Entry { first: 1_000_000, last: 1_000_000, least: 2_000_001 };
        let checked = "\
finding 0 1 entry breach: entry clothoid of 7 mm; no length is admitted
finding 0 1 exit breach: exit clothoid of 7 mm; no length is admitted";
        let reported = "\
row 0, rule 1, breach: entry clothoid of 0.007 m; no length is admitted
row 0, rule 1, breach: exit clothoid of 0.007 m; no length is admitted";
        assert_said(&conventional(rows, vec![Limit::Table(Table::read(&entry.bytes()))]), checked, reported);
    }
}
