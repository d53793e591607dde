//! The program: the answers to the lines of an input.

use std::fs::File;
use std::io::{self, Read};

use crate::limits::{compulsory, least_length, parameter, Limit, Place, Table};
use crate::parse::{parse, Command, Mistake, Name};
use crate::report::report;
use crate::road::Road;
use crate::rows::{Curve, Row, Sense};
use crate::sheet::{End, Refusal, Sheet};
use crate::words::listed;
use crate::LONGEST;

/// The most bytes of a line.
pub const LINE_BYTES: usize = 16_384;

/// The most bytes of a table.
pub const TABLE_BYTES: u64 = 64_000_000;

/// A byte order mark.
pub const MARK: &[u8] = b"\xef\xbb\xbf";

/// Why a line has no answer of the sheet.
enum Failure {
    /// Refused: the number, the row and the reason.
    Refused(String),
    Wrong(String),
}

type Answers = Result<Vec<String>, Failure>;

/// The open sheet and the limits in force.
#[derive(Clone)]
pub struct Open {
    pub sheet: Sheet,
    pub limits: Vec<Limit>,
}

/// How many lines, and the first of them.
#[derive(Clone, Copy, Default)]
pub struct Tally {
    lines: u64,
    first: u64,
}

impl Tally {
    fn count(&mut self, line: u64) {
        if self.lines == 0 {
            self.first = line;
        }
        self.lines += 1;
    }

    fn said(&self, how: &str) -> Option<String> {
        let first = self.first;
        match self.lines {
            0 => None,
            1 => Some(format!("1 line is {how} (line {first})")),
            lines => Some(format!("{lines} lines are {how} (the first is line {first})")),
        }
    }
}

/// What the program knows after some lines.
#[derive(Clone, Default)]
pub struct Session {
    pub open: Option<Open>,
    /// Whether it ends at the first line that is refused or wrong.
    pub stop: bool,
    /// The lines read.
    pub lines: u64,
    /// The lines that were errors.
    pub wrong: Tally,
    /// The lines that were refused.
    pub refused: Tally,
}

impl Session {
    pub fn new(stop: bool) -> Session {
        Session { stop, ..Session::default() }
    }

    /// Whether it reads no further line.
    pub fn ended(&self) -> bool {
        self.stop && self.wrong.lines + self.refused.lines > 0
    }

    /// The answers to a line, with its newline or without.
    pub fn line(&mut self, line: &[u8]) -> Vec<String> {
        if self.ended() {
            return Vec::new();
        }
        self.lines += 1;
        let line = line.strip_suffix(b"\n").unwrap_or(line);
        match self.answer(line) {
            Ok(answers) => answers,
            Err(Failure::Refused(refusal)) => {
                self.refused.count(self.lines);
                vec![format!("refused {refusal} (line {})", self.lines)]
            }
            Err(Failure::Wrong(what)) => {
                self.wrong.count(self.lines);
                vec![format!("error {}: {what}", self.lines)]
            }
        }
    }

    /// The exit status, and what is said on standard error, after all lines.
    pub fn end(&self) -> (i32, String) {
        let status = match (self.wrong.lines, self.refused.lines) {
            (0, 0) => 0,
            (0, _) => 2,
            _ => 1,
        };
        let said: Vec<String> =
            [self.wrong.said("wrong"), self.refused.said("refused")].into_iter().flatten().collect();
        (status, if said.is_empty() { String::new() } else { format!("clothoid: {}\n", said.join(", ")) })
    }

    fn answer(&mut self, line: &[u8]) -> Answers {
        if line.len() > LINE_BYTES {
            return Err(Failure::Wrong(format!("the line is longer than {LINE_BYTES} bytes")));
        }
        let line = if self.lines == 1 { line.strip_prefix(MARK).unwrap_or(line) } else { line };
        let text = match std::str::from_utf8(line) {
            Ok(text) => text,
            Err(_) if line.trim_ascii_start().starts_with(b"#") => return Ok(Vec::new()),
            Err(error) => {
                let text = error.valid_up_to();
                let what = format!("after {text} bytes the line is not UTF-8 text: save the file as UTF-8");
                return Err(Failure::Wrong(what));
            }
        };
        let Some(command) = parse(text).map_err(mistaken)? else { return Ok(Vec::new()) };
        let refused = |refusal| Failure::Refused(refused(refusal, &command));
        if let Command::Road { class, speed, edge, lanes, jerk } = command {
            let road = Road::open(class, speed, edge, lanes, jerk).map_err(refused)?;
            self.open = Some(Open { sheet: Sheet::open(road), limits: compulsory() });
            return Ok(vec![opened(&road)]);
        }
        let word = text.split_whitespace().next().unwrap_or_default();
        let barred = |why: &str| Failure::Wrong(format!("word 1 is '{word}', and {why}"));
        let Some(open) = &mut self.open else {
            return Err(barred("no road is open: begin with road CLASS SPEED B LANES usual|top"));
        };
        if let Some(why) = open.bars(&command) {
            return Err(barred(why));
        }
        if let Command::Limit(names) = &command {
            open.limits = named(names).map_err(Failure::Wrong)?;
            return Ok(vec![text.split_whitespace().map(escaped).collect::<Vec<_>>().join(" ")]);
        }
        open.carry_out(&command).map_err(refused)
    }
}

fn mistaken(Mistake { place, word, expected }: Mistake) -> Failure {
    Failure::Wrong(match word {
        Some(word) => format!("word {place} is '{}', expected {expected}", shown(word)),
        None => format!("word {place} is missing, expected {expected}"),
    })
}

/// A word's first 40 characters, control characters as escapes.
fn shown(word: &str) -> String {
    let end = word.char_indices().nth(40).map(|(end, _)| end);
    end.map_or_else(|| escaped(word), |end| escaped(&word[..end]) + "..")
}

/// A text with its control characters as escapes.
pub fn escaped(text: &str) -> String {
    let one = |c: char| if c.is_control() { c.escape_default().to_string() } else { c.to_string() };
    text.chars().map(one).collect()
}

/// A refusal's number, row and reason, with the value of the command that was refused.
fn refused(Refusal { number, row }: Refusal, command: &Command) -> String {
    let reason = match (number, command) {
        (1, Command::Road { class, speed, .. }) => format!(
            "no such road: class and speed are not in the table (A 80 to 140; M and C 40 to 100, by tens), \
             and are {class:?} and {speed}"
        ),
        (2, Command::Road { edge, lanes, .. }) => format!(
            "the edge distance must be 1 to 30000 mm and the lanes turning 1 to 3, and are {edge} and {lanes}"
        ),
        (3, Command::Straight { length, .. }) => {
            format!("the straight's length must be 1 to 20000000 mm, and is {length}")
        }
        (4, Command::Label { radius, .. } | Command::Curve { radius, .. }) => {
            format!("the radius must be 1000 to 10000000 mm, and is {radius}")
        }
        (5, Command::Label { turn, .. } | Command::Curve { turn, .. }) => {
            format!("the turn must be 1 to 2000000 ten-thousandths of a gon, and is {turn}")
        }
        (6, Command::Set { entry, exit, .. }) => {
            let above = if *entry > LONGEST { entry } else { exit };
            format!("a length set by hand must be at most 2000000 mm, and is {above}")
        }
        (8, _) => format!("there is no such row: the place is beyond the rows, and is {row}"),
        (9, _) => "the row is a straight where a curve is needed".into(),
        (10, _) => "there is no room for another row, or for the findings".into(),
        (11, _) => "there are no rows to fit".into(),
        (12, _) => "no fit: no list of lengths keeps every rule".into(),
        _ => unreachable!("refusal {number} of {command:?}"),
    };
    format!("{number} {row}: {reason}")
}

fn opened(Road { class, speed, group, least_radius, .. }: &Road) -> String {
    format!("opened {class:?}-{speed} group {} least radius {least_radius}", group.number())
}

impl Open {
    /// Why the sheet does not have a command, where it does not.
    fn bars(&self, command: &Command) -> Option<&'static str> {
        match command {
            Command::Straight { .. }
            | Command::Curve { .. }
            | Command::Remove(_)
            | Command::Set { .. }
            | Command::Fit
                if self.sheet.fitted =>
            {
                Some("the sheet is fitted: reopen it first")
            }
            Command::Parameter { .. } | Command::Reopen if !self.sheet.fitted => {
                Some("the sheet is a draft: fit it first")
            }
            _ => None,
        }
    }

    fn carry_out(&mut self, command: &Command) -> Result<Vec<String>, Refusal> {
        let sheet = &mut self.sheet;
        let last = sheet.rows.len() as u64;
        Ok(match *command {
            Command::Label { radius, turn } => vec![label(sheet.road, radius, turn)?],
            Command::Straight { length, before } => {
                let place = before.unwrap_or(last);
                sheet.add_straight(place, length)?;
                vec![format!("added {place}")]
            }
            Command::Curve { sense, radius, turn, before } => {
                let place = before.unwrap_or(last);
                sheet.add_curve(place, sense, radius, turn)?;
                vec![format!("added {place}")]
            }
            Command::Remove(row) => {
                sheet.remove(row)?;
                vec![format!("removed {row}")]
            }
            Command::Set { row, entry, exit } => {
                sheet.set(row, entry, exit)?;
                vec![format!("set {row}")]
            }
            Command::Rows => sheet.rows.iter().enumerate().map(laid_out).collect(),
            Command::Report => report(self),
            Command::Check => {
                let findings = sheet.check(&self.limits);
                let count = format!("findings {}", findings.len());
                findings.iter().map(|finding| listed(self, finding)).chain([count]).collect()
            }
            Command::Fit => {
                sheet.fit(&self.limits)?;
                let count = format!("fitted {}", sheet.rows.len());
                [count].into_iter().chain(sheet.rows.iter().enumerate().map(set_out)).collect()
            }
            Command::Parameter { row, end } => {
                let parameter = sheet.parameter(row, end)?;
                let end = if end == End::Entry { "entry" } else { "exit" };
                vec![format!("parameter {row} {end} {parameter}")]
            }
            Command::Reopen => {
                sheet.reopen();
                vec!["reopened".into()]
            }
            Command::Road { .. } | Command::Limit(_) => unreachable!("answered before"),
        })
    }
}

/// The limits of the names, with the tables' files read; the names begin at the second word of a line.
fn named(names: &[Name]) -> Result<Vec<Limit>, String> {
    let mut at = 1;
    let limit = |name: &Name| {
        at += if matches!(name, Name::Table(_)) { 2 } else { 1 };
        one_named(name, at)
    };
    names.iter().map(limit).collect()
}

/// The limit of a name, whose last word stands at this place.
fn one_named(name: &Name, at: usize) -> Result<Limit, String> {
    Ok(match name {
        Name::Comfort => Limit::Comfort,
        Name::Transition => Limit::Transition,
        Name::Azimuth => Limit::Azimuth,
        Name::Shift => Limit::Shift,
        Name::Fifth => Limit::Fifth,
        Name::Table(file) => {
            let unread = |why| {
                let file = escaped(file);
                format!("word {at} is \"{file}\", a file that cannot be read: {why}; the limits stay as they were")
            };
            Limit::Table(Table::read(&table(file).map_err(unread)?))
        }
    })
}

/// The bytes of a table's file, or why it cannot be read.
fn table(file: &str) -> Result<Vec<u8>, String> {
    let mut bytes = Vec::new();
    let read = |file: File| file.take(TABLE_BYTES + 1).read_to_end(&mut bytes);
    File::open(file).and_then(read).map_err(why)?;
    if bytes.len() as u64 > TABLE_BYTES {
        return Err(format!("it is larger than {TABLE_BYTES} bytes"));
    }
    Ok(bytes)
}

/// The system's words for a failure.
pub fn why(error: io::Error) -> String {
    error.to_string()
}

fn laid_out((place, row): (usize, &Row)) -> String {
    match row {
        Row::Straight(length) => format!("straight {place} {length}"),
        Row::Curve(Curve { sense, radius, turn, entry, exit }) => {
            let sense = match sense {
                Sense::Left => "left",
                Sense::Right => "right",
            };
            format!("curve {place} {sense} {radius} {turn} {entry} {exit}")
        }
    }
}

fn set_out((place, row): (usize, &Row)) -> String {
    match row {
        Row::Straight(length) => format!("S {place} {length}"),
        Row::Curve(Curve { radius, entry, exit, .. }) => {
            let (at_entry, at_exit) = (parameter(*radius, *entry), parameter(*radius, *exit));
            format!("V {place} {entry} {at_entry} {exit} {at_exit}")
        }
    }
}

fn label(road: Road, radius: u64, turn: u64) -> Result<String, Refusal> {
    let place = Place::new(road, radius, turn)?;
    let shown = |number: Option<u64>| number.map_or("none".into(), |number| number.to_string());
    let least = least_length(&compulsory(), &place);
    Ok(format!(
        "label {radius} {turn} p {} comfort {} transition {} azimuth {} shift {} fifth {} least {} A {}",
        place.superelevation,
        shown(Limit::Comfort.least_length(&place)),
        shown(Limit::Transition.least_length(&place)),
        shown(Limit::Azimuth.least_length(&place)),
        shown(Limit::Shift.least_length(&place)),
        shown(Limit::Fifth.least_length(&place)),
        shown(least),
        shown(least.map(|length| parameter(radius, length))),
    ))
}

#[cfg(test)]
mod tests {
    use super::*;

    fn said(session: &mut Session, input: &[u8]) -> Vec<String> {
        input.split_inclusive(|&byte| byte == b'\n').flat_map(|line| session.line(line)).collect()
    }

    fn answers(input: &str) -> Vec<String> {
        said(&mut Session::default(), input.as_bytes())
    }

    #[test]
    fn worked_session() {
        let answers = answers(
            "\u{feff}road C 100 3500 1 usual\nlabel 1000000 300000\ncurve left 1000000 300000\nstraight 138999\n\
             curve right 900000 300000\nset 0 111112 111112\ncheck\nfit\nparameter 2 exit",
        );
        let worked = [
            "opened C-100 group 2 least radius 450000",
            "label 1000000 300000 p 647 comfort 9555 transition 49229 azimuth 111112 shift 109545 fifth 188502 \
             least 111112 A 333335",
            "added 0",
            "added 1",
            "added 2",
            "set 0",
            "finding 1 10 whole advice: straight of 138999 mm between opposite curves; at least 139000 mm advised",
            "finding 2 1 entry breach: entry clothoid of 0 mm; at least 103924 mm required",
            "finding 2 1 exit breach: exit clothoid of 0 mm; at least 103924 mm required",
            "findings 3",
            "fitted 3",
            "V 0 111112 333335 111112 333335",
            "S 1 138999",
            "V 2 103924 305830 103924 305830",
            "parameter 2 exit 305830",
        ];
        assert_eq!(answers, worked);
    }

    /// The report that docs/PROGRAM.md shows.
    #[test]
    fn worked_report() {
        let answers = answers(
            "road C 100 3500 1 usual\ncurve left 1000000 300000\nstraight 138999\ncurve right 900000 300000\n\
             set 0 111112 111112\nreport\n",
        );
        let worked = "\
road C-100, group 2, least radius 450.000 m, edge distance 3.500 m, lanes turning 1, J 0.4 m/s3
draft, 3 rows
limits: 1 comfort 2 transition 3 azimuth 4 shift

 row  kind           length    radius      turn         p     entry         A      exit         A     least  governed by
                          m         m       gon         %         m         m         m         m         m
   0  curve left             1000.000   30.0000      6.47   111.112   333.335   111.112   333.335   111.112  3 azimuth
   1  straight      138.999
   2  curve right             900.000   30.0000      6.97     0.000     0.000     0.000     0.000   103.924  4 shift

3 findings
row 1, rule 10, advice: straight of 138.999 m between opposite curves; at least 139.000 m advised
row 2, rule 1, breach: entry clothoid of 0.000 m; at least 103.924 m required
row 2, rule 1, breach: exit clothoid of 0.000 m; at least 103.924 m required";
        assert_eq!(answers[5..].join("\n"), worked);
    }

    #[test]
    fn no_fit() {
        let answers = answers(
            "fit\nroad C 100 3500 1 usual\nfit\ncurve left 2000000 300000\ncurve right 450000 300000\nfit\nreopen\n",
        );
        let worked = [
            "error 1: word 1 is 'fit', and no road is open: begin with road CLASS SPEED B LANES usual|top",
            "opened C-100 group 2 least radius 450000",
            "refused 11 0: there are no rows to fit (line 3)",
            "added 0",
            "added 1",
            "refused 12 1: no fit: no list of lengths keeps every rule (line 6)",
            "error 7: word 1 is 'reopen', and the sheet is a draft: fit it first",
        ];
        assert_eq!(answers, worked);
    }

    #[test]
    fn ends() {
        let input = b"rows\nroad C 100 3500 1 usual\ncurve left 42000000 1\nset 0 1 2000001\n\xff\nrows";
        let mut session = Session::new(false);
        let worked = [
            "error 1: word 1 is 'rows', and no road is open: begin with road CLASS SPEED B LANES usual|top",
            "opened C-100 group 2 least radius 450000",
            "refused 4 0: the radius must be 1000 to 10000000 mm, and is 42000000 (line 3)",
            "refused 6 0: a length set by hand must be at most 2000000 mm, and is 2000001 (line 4)",
            "error 5: after 0 bytes the line is not UTF-8 text: save the file as UTF-8",
        ];
        assert_eq!(said(&mut session, input), worked);
        let end =
            "clothoid: 2 lines are wrong (the first is line 1), 2 lines are refused (the first is line 3)\n";
        assert_eq!(session.end(), (1, end.into()));

        let mut session = Session::new(true);
        assert_eq!(said(&mut session, &input[5..]).len(), 2);
        assert_eq!(session.end(), (2, "clothoid: 1 line is refused (line 2)\n".into()));
        assert_eq!(Session::default().end(), (0, String::new()));
    }

    #[test]
    fn echoes() {
        let word = "x".repeat(39) + "\u{1b}";
        let input = format!("road C 100 3500 1 usual\n{word}\n{word}y\nlimit table\t\"\u{7f}\u{9b}é\n\0\n");
        let commands = "a command: road, label, straight, curve, remove, set, rows, report, limit, check, fit, parameter or reopen";
        let x = "x".repeat(39);
        let worked = [
            format!("error 2: word 1 is '{x}\\u{{1b}}', expected {commands}"),
            format!("error 3: word 1 is '{x}\\u{{1b}}..', expected {commands}"),
            "error 4: word 3 is \"\"\\u{7f}\\u{9b}é\", a file that cannot be read: No such file or directory (os error 2); \
             the limits stay as they were"
                .into(),
            format!("error 5: word 1 is '\\u{{0}}', expected {commands}"),
        ];
        assert_eq!(answers(&input)[1..], worked);
    }
}
