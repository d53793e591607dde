//! Compares fits with a search of all lists of lengths, on all sheets of up to four rows of a few kinds.

use std::error::Error;
use std::fs;
use std::process::ExitCode;

use second::limits::{Entry, Limit, Table};
use second::road::{Class, Group, Jerk, Road};
use second::rows::{Curve, Row, Sense};
use second::run::{first_difference, By, Program, Start};
use second::session::Session;
use second::sheet::{Refusal, Sheet};

const USAGE: &str = "enumerate [--second-only] [PROGRAM]";

/// Sheets whose rows are of some kinds, under a table that gives each kind its least length.
struct Family {
    name: &'static str,
    road: &'static str,
    opened: (Class, u64),
    /// A curve's turn and its least length, where it has one; the radius is 1,000 mm and the kind's place.
    curves: Vec<(u64, Option<u64>)>,
    rows: u32,
    /// The longest length that is tried.
    longest: u64,
}

fn main() -> Result<ExitCode, Box<dyn Error>> {
    let (mut path, mut second_only) = ("crates/clothoid/out/clothoid".to_string(), false);
    for word in std::env::args().skip(1) {
        match word.as_str() {
            "--second-only" => second_only = true,
            _ if word.starts_with('-') => return Err(USAGE.into()),
            _ => path = word,
        }
    }
    let program = if second_only { None } else { Some(Program::new(&path, "enumerate")?) };
    for family in families() {
        if !family.agrees(program.as_ref())? {
            return Ok(ExitCode::FAILURE);
        }
    }
    program.map_or(Ok(()), Program::close)?;
    Ok(ExitCode::SUCCESS)
}

/// Small lengths for chains of neighbours, and lengths whose clothoids just leave an arc.
fn families() -> Vec<Family> {
    let small: Vec<(u64, Option<u64>)> = [(59_999, 5)]
        .into_iter()
        .chain((0..=8).map(|least| (60_000, least)))
        .map(|(turn, least)| (turn, Some(least)))
        .collect();
    let small = [small, vec![(60_000, None)]].concat();
    let arcs = [(60_000, 91), (60_000, 94), (90_000, 141), (90_500, 142), (60_000, 95), (60_000, 89)];
    let arcs = arcs.map(|(turn, least)| (turn, Some(least))).to_vec();
    let roads = [("C 100", (Class::C, 100)), ("C 60", (Class::C, 60))];
    let small = roads.map(|(road, opened)| Family {
        name: "small lengths",
        road,
        opened,
        curves: small.clone(),
        rows: 4,
        longest: 12,
    });
    let arcs = roads.map(|(road, opened)| Family {
        name: "lengths that just leave an arc",
        road,
        opened,
        curves: arcs.clone(),
        rows: 4,
        longest: 145,
    });
    small.into_iter().chain(arcs).collect()
}

impl Family {
    /// Whether this library's fit, and the program's, is what the search finds, on all sheets.
    fn agrees(&self, program: Option<&Program>) -> Result<bool, Box<dyn Error>> {
        let table = self.table();
        let limits = [Limit::Table(Table::read(&table))];
        let (class, speed) = self.opened;
        let road = Road::open(class, speed, 3_500, 1, Jerk::Usual).map_err(|_| "no road")?;
        let (mut session, mut lines, mut answers) = (Session::default(), Vec::new(), Vec::new());
        if program.is_some() {
            fs::write("table", &table)?;
        }
        let (mut sheets, mut unfit) = (0, 0);
        for kinds in self.sheets() {
            let rows: Vec<Row> = kinds.iter().map(|&kind| self.row(kind)).collect();
            let sought = self.search(&road, &rows);
            let mut sheet = Sheet { road, rows, fitted: false };
            let refused = sheet.fit(&limits).err();
            let agree = match &sought {
                Ok(lengths) => {
                    refused.is_none() && lengths.iter().zip(&sheet.rows).all(|(&least, row)| least == of(row))
                }
                Err(row) => refused == Some(Refusal::new(12, *row as u64)),
            };
            let input = self.input(&kinds);
            if !agree {
                println!(
                    "the search finds {sought:?}, this library {refused:?} {:?}\n{}",
                    sheet.rows,
                    input.join("\n")
                );
                return Ok(false);
            }
            sheets += 1;
            unfit += u64::from(sought.is_err());
            if program.is_some() {
                let bytes: Vec<Vec<u8>> = input.iter().map(|line| format!("{line}\n").into_bytes()).collect();
                answers.extend(bytes.iter().flat_map(|line| session.line(line)));
                lines.extend(bytes);
            }
        }
        println!(
            "{}, {}: {sheets} sheets agree with the search, {unfit} of them with no fit",
            self.name, self.road
        );
        program.map_or(Ok(true), |program| self.program_agrees(program, &lines, &answers, &session))
    }

    fn program_agrees(
        &self,
        program: &Program,
        lines: &[Vec<u8>],
        answers: &[String],
        session: &Session,
    ) -> Result<bool, Box<dyn Error>> {
        let start = Start { stop: false, by: By::Name { option_behind: false } };
        let printed = program.run(&lines.concat(), start)?;
        let Some(difference) = first_difference(answers, &printed, session) else {
            println!("{}, {}: the program agrees", self.name, self.road);
            return Ok(true);
        };
        println!("the program differs in line {} of its answers", difference.place + 1);
        println!("expected: {}", difference.expected);
        println!("printed:  {}", difference.printed);
        println!("the input and its table are in {}", program.folder().display());
        Ok(false)
    }

    /// The least lengths of the kinds at their radii.
    fn table(&self) -> Vec<u8> {
        let entry = |(radius, &(_, least)): (u32, &(u64, Option<u64>))| Entry {
            first: radius,
            last: radius,
            least: least.unwrap_or(2_000_001) as u32,
        };
        (1_000..).zip(&self.curves).map(entry).flat_map(|entry| entry.bytes()).collect()
    }

    /// All lists of kinds; the last kind is a straight.
    fn sheets(&self) -> Vec<Vec<usize>> {
        let mut sheets = Vec::new();
        let mut longest: Vec<Vec<usize>> = vec![Vec::new()];
        for _ in 0..self.rows {
            let longer = |kinds: &Vec<usize>| {
                let kinds = kinds.clone();
                (0..=self.curves.len()).map(move |kind| [&kinds[..], &[kind]].concat())
            };
            longest = longest.iter().flat_map(longer).collect();
            sheets.extend(longest.clone());
        }
        sheets
    }

    fn row(&self, kind: usize) -> Row {
        self.curves.get(kind).map_or(Row::Straight(1), |&(turn, _)| {
            Row::Curve(Curve { sense: Sense::Left, radius: 1_000 + kind as u64, turn, entry: 0, exit: 0 })
        })
    }

    fn input(&self, kinds: &[usize]) -> Vec<String> {
        let mut lines = vec![format!("road {} 3500 1 usual", self.road), "limit table table".to_string()];
        lines.extend(kinds.iter().map(|&kind| match self.row(kind) {
            Row::Straight(length) => format!("straight {length}"),
            Row::Curve(curve) => format!("curve left {} {}", curve.radius, curve.turn),
        }));
        lines.push("fit".to_string());
        lines
    }

    /// The least list of lengths that keeps the rules 1 to 6, or the first row up to which there is none.
    fn search(&self, road: &Road, rows: &[Row]) -> Result<Vec<(u64, u64)>, usize> {
        let choices: Vec<Vec<(u64, u64)>> = rows.iter().map(|row| self.choices(road, row)).collect();
        let mut lists: Lists = Lists { road, rows, choices: &choices, list: Vec::new(), least: None };
        for count in 1..rows.len() {
            if !lists.any(count) {
                return Err(count - 1);
            }
        }
        lists.all();
        let (least, is_one) = lists.least.ok_or(rows.len() - 1)?;
        assert!(is_one, "the least lengths at each place are no list that keeps the rules");
        Ok(least)
    }

    /// The lengths of a row that keep the rules about one row.
    fn choices(&self, road: &Road, row: &Row) -> Vec<(u64, u64)> {
        let Row::Curve(curve) = row else { return vec![(0, 0)] };
        let least = self.curves[(curve.radius - 1_000) as usize].1;
        let tried = (0..=self.longest).flat_map(|entry| (0..=self.longest).map(move |exit| (entry, exit)));
        tried.filter(|&lengths| keeps(road, curve, least, lengths)).collect()
    }
}

/// Rules 1 to 4 and 6, as docs/RULES.md words them.
fn keeps(road: &Road, curve: &Curve, least: Option<u64>, (entry, exit): (u64, u64)) -> bool {
    let calls = curve.turn >= 60_000;
    let of_the_length = |length: u64| match least {
        _ if !calls => length == 0,
        None => false,
        Some(least) => length >= least && 2 * length <= 3 * least,
    };
    of_the_length(entry)
        && of_the_length(exit)
        && (road.group == Group::Three || entry == exit)
        && curve.turn * curve.radius > 318_300 * (entry + exit)
}

fn of(row: &Row) -> (u64, u64) {
    row.curve().map_or((0, 0), |curve| (curve.entry, curve.exit))
}

/// The search of all lists.
struct Lists<'a> {
    road: &'a Road,
    rows: &'a [Row],
    choices: &'a [Vec<(u64, u64)>],
    list: Vec<(u64, u64)>,
    /// The least length at each place so far, and whether one list has them all.
    least: Option<(Vec<(u64, u64)>, bool)>,
}

impl Lists<'_> {
    /// Rule 5, between the last row of the list and the one before.
    fn agrees(&self) -> bool {
        let [.., before, after] = self.list[..] else { return true };
        let calls = |row: usize| self.rows[row].curve().is_some_and(|curve| curve.calls(self.road));
        let row = self.list.len() - 1;
        let both = calls(row - 1) && calls(row);
        !both || 3 * before.1 >= 2 * after.0 && 3 * after.0 >= 2 * before.1
    }

    /// Whether any list of the first rows keeps the rules.
    fn any(&mut self, count: usize) -> bool {
        let row = self.list.len();
        if row == count {
            return true;
        }
        let choices = self.choices;
        choices[row].iter().any(|&lengths| {
            self.list.push(lengths);
            let found = self.agrees() && self.any(count);
            self.list.pop();
            found
        })
    }

    /// Goes through all lists of all rows.
    fn all(&mut self) {
        let row = self.list.len();
        if row == self.rows.len() {
            return self.note();
        }
        let choices = self.choices;
        for &lengths in &choices[row] {
            self.list.push(lengths);
            if self.agrees() {
                self.all();
            }
            self.list.pop();
        }
    }

    /// Takes a list that keeps the rules into the least lengths.
    fn note(&mut self) {
        let Some((least, is_one)) = &mut self.least else {
            self.least = Some((self.list.clone(), true));
            return;
        };
        let lower: Vec<(u64, u64)> =
            least.iter().zip(&self.list).map(|(a, b)| (a.0.min(b.0), a.1.min(b.1))).collect();
        *is_one = lower == self.list || *is_one && lower == *least;
        *least = lower;
    }
}
