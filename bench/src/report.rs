//! The report of the open sheet.

use crate::limits::{least_length, parameter, Limit};
use crate::road::Road;
use crate::rows::{Curve, Row, Sense};
use crate::session::Open;
use crate::superelevation::superelevation;
use crate::words::{below_a_report, gon, metres};

/// The lines of a report.
pub fn report(open: &Open) -> Vec<String> {
    let findings = open.sheet.check(&open.limits);
    let below = findings.iter().map(|finding| below_a_report(open, finding));
    let count = counted(findings.len(), "finding");
    head(open)
        .into_iter()
        .chain(open.sheet.rows.iter().enumerate().map(|(place, row)| shown(open, place, row)))
        .chain([String::new(), count])
        .chain(below)
        .collect()
}

fn counted(count: usize, what: &str) -> String {
    format!("{count} {what}{}", if count == 1 { "" } else { "s" })
}

fn head(open: &Open) -> Vec<String> {
    let Road { class, speed, least_radius, edge, lanes, jerk, .. } = open.sheet.road;
    let state = if open.sheet.fitted { "fitted sheet" } else { "draft" };
    let limits = (0..open.limits.len()).map(|place| format!(" {}", numbered(&open.limits, place)));
    let columns = ["length", "radius", "turn", "p", "entry", "A", "exit", "A", "least"];
    let units = ["m", "m", "gon", "%", "m", "m", "m", "m", "m"];
    vec![
        format!(
            "road {class:?}-{speed}, group {}, least radius {} m, edge distance {} m, lanes turning {lanes}, J 0.{jerk} m/s3",
            open.sheet.road.group.number(),
            metres(least_radius),
            metres(edge)
        ),
        format!("{state}, {}", counted(open.sheet.rows.len(), "row")),
        format!("limits:{}", limits.collect::<String>()),
        String::new(),
        format!(" row  {:11}{}  governed by", "kind", cells(columns)),
        format!("      {:11}{}", "", cells(units)),
    ]
}

/// Cells of ten places each, to the right.
fn cells<const COUNT: usize>(cells: [&str; COUNT]) -> String {
    cells.iter().map(|cell| format!("{cell:>10}")).collect()
}

/// A limit in force, its number and its name.
fn numbered(limits: &[Limit], place: usize) -> String {
    let name = match limits[place] {
        Limit::Comfort => "comfort",
        Limit::Transition => "transition",
        Limit::Azimuth => "azimuth",
        Limit::Shift => "shift",
        Limit::Fifth => "fifth",
        Limit::Table(_) => "table",
    };
    format!("{} {name}", place + 1)
}

fn shown(open: &Open, place: usize, row: &Row) -> String {
    let &Curve { sense, radius, turn, entry, exit } = match row {
        Row::Straight(length) => return format!("{place:4}  {:11}{:>10}", "straight", metres(*length)),
        Row::Curve(curve) => curve,
    };
    let kind = if sense == Sense::Left { "curve left" } else { "curve right" };
    let p = superelevation(open.sheet.road.group, radius);
    let (least, governed) = asked(open, row);
    let cells = cells([
        "",
        &metres(radius),
        &gon(turn),
        &format!("{}.{:02}", p / 100, p % 100),
        &metres(entry),
        &metres(parameter(radius, entry)),
        &metres(exit),
        &metres(parameter(radius, exit)),
        &least,
    ]);
    format!("{place:4}  {kind:11}{cells}  {governed}")
}

/// The least length at a row, and the limit that asks for it.
fn asked(open: &Open, row: &Row) -> (String, String) {
    let Some(curve) = row.curve().filter(|curve| curve.calls(&open.sheet.road)) else {
        return ("-".into(), "-".into());
    };
    let at = curve.place(&open.sheet.road);
    let least = least_length(&open.limits, &at);
    let first = open.limits.iter().position(|limit| limit.least_length(&at) == least);
    let governed = first.map_or("-".into(), |place| numbered(&open.limits, place));
    (least.map_or("none".into(), metres), governed)
}
