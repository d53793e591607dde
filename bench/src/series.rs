//! Series of commands drawn at random, near the values where an answer changes.

use std::fs;
use std::io;

use crate::fit::fit;
use crate::limits::{least_length, Entry, Place};
use crate::random::Random;
use crate::road::Road;
use crate::rows::{Curve, Row};
use crate::session::{Session, LINE_BYTES, MARK};
use crate::superelevation::first_radius;

const ROADS: [&str; 15] = [
    "A 140", "A 130", "A 120", "A 110", "A 100", "A 90", "A 80", "M 100", "C 100", "C 90", "C 80", "M 70",
    "C 60", "C 50", "C 40",
];

const NAMES: [&str; 5] = ["comfort", "transition", "azimuth", "shift", "fifth"];

const TURNS: [u64; 7] = [1, 2, 20_000, 59_999, 60_000, 130_000, 2_000_000];

/// Radii where a rule or a table changes.
const RADII: [u64; 17] = [
    1_000, 50_000, 350_000, 450_000, 500_000, 700_000, 720_000, 972_000, 1_050_000, 1_800_000, 2_500_000,
    3_500_000, 4_999_999, 5_000_000, 7_500_000, 9_999_999, 10_000_000,
];

/// Radii and turns where rule 9 holds with equality.
const EQUAL: [(u64, u64); 6] = [
    (8_753_250, 20_000),
    (6_684_300, 25_000),
    (3_925_700, 37_500),
    (3_580_875, 40_000),
    (2_546_400, 50_000),
    (2_308_500, 53_050),
];

const BEYOND: [&str; 5] =
    ["4294967295", "4294967296", "18446744073709551616", "0004294967297", "99999999999999999999999"];

/// Words that are seldom what has to stand in their place.
const STRANGE: [&str; 30] = [
    "x",
    "-1",
    "+1",
    "1.0",
    "1,5",
    "1e3",
    "0x10",
    "Road",
    "before",
    "entry",
    "LEFT",
    "tablé",
    "№7",
    "'",
    "\"",
    "a\\b",
    "'a\"",
    "a#b",
    "#",
    "limit",
    "table",
    "\u{1}",
    "a\u{7f}b",
    "\u{1b}[0m",
    "\u{feff}",
    "\u{200b}",
    "\u{202e}x",
    "٣",
    "e\u{301}",
    "😀",
];

/// White space that parts words.
const SPACES: [&str; 12] = [
    " ", "\t", "\r", "\u{b}", "\u{c}", "\u{85}", "\u{a0}", "\u{1680}", "\u{2003}", "\u{2028}", "\u{3000}",
    " \t ",
];

/// Words of the commands, and some numbers.
const WORDS: [&str; 36] = [
    "road",
    "label",
    "straight",
    "curve",
    "remove",
    "set",
    "rows",
    "report",
    "limit",
    "check",
    "fit",
    "parameter",
    "reopen",
    "A",
    "M",
    "C",
    "usual",
    "top",
    "left",
    "right",
    "before",
    "entry",
    "exit",
    "comfort",
    "transition",
    "azimuth",
    "shift",
    "fifth",
    "table",
    "0",
    "1",
    "100",
    "3500",
    "1000000",
    "300000",
    "20000001",
];

/// Bytes that are no UTF-8 text.
const NOT_TEXT: [&[u8]; 8] = [
    b"\xff",
    b"\x80",
    b"\xc0\x80",
    b"\xe2\x82",
    b"\xed\xa0\x80",
    b"\xf4\x90\x80\x80",
    b"\xf0\x9f\x98",
    b"\xef\xbb",
];

/// Files that are no tables of the writer's: absent ones, folders, names that no file can have, and an empty one.
const OTHER_FILES: [&str; 14] = [
    "nowhere",
    "./nowhere",
    ".",
    "..",
    "/",
    "input/x",
    "/dev/null",
    "an-absent-file-with-a-name-of-more-than-forty-bytes",
    "nowhere\u{1b}\u{7f}",
    "no\"where'\\",
    "#",
    "table",
    "fifth",
    "nöwhere\u{9b}",
];

/// The series of one input: their lines and the answers that they should get.
#[derive(Default)]
pub struct Input {
    pub lines: Vec<Vec<u8>>,
    pub answers: Vec<String>,
    /// The lines and the answers before each series.
    pub starts: Vec<(usize, usize)>,
}

/// Draws series, and carries them out to know the sheet that each next command meets.
pub struct Writer {
    random: Random,
    pub session: Session,
    pub input: Input,
    fits: bool,
    /// What the names of its tables begin with.
    name: String,
    /// The tables that have been written.
    pub files: Vec<String>,
    /// The radii of the last table's entries, with their least lengths.
    classes: Vec<(u64, u64)>,
}

impl Writer {
    /// A writer whose tables' names begin with this one, for a program that stops at the first line that is
    /// refused or wrong or not, and that fits sheets or not.
    pub fn new(seed: u64, name: String, stop: bool, fits: bool) -> Writer {
        Writer {
            random: Random::new(seed),
            session: Session::new(stop),
            input: Input::default(),
            fits,
            name,
            files: Vec::new(),
            classes: Vec::new(),
        }
    }

    /// How many series have been added.
    pub fn count(&self) -> u64 {
        self.input.starts.len() as u64
    }

    /// Adds a series to the input.
    pub fn series(&mut self) -> io::Result<()> {
        self.input.starts.push((self.input.lines.len(), self.input.answers.len()));
        self.classes.clear();
        if self.input.lines.is_empty() {
            self.front();
        }
        let odds = if self.session.open.is_none() && !self.session.stop { 60 } else { 10 };
        while self.random.chance(odds) {
            self.step()?;
        }
        self.road();
        match self.random.within(0, 99) {
            0 => self.full()?,
            1..=40 => self.chains()?,
            _ => self.steps()?,
        }
        self.close();
        Ok(())
    }

    /// Seldom a strange line at the front of the input.
    fn front(&mut self) {
        match self.random.within(0, 19) {
            0 => self.write(&[MARK, MARK, b" rows\n"].concat()),
            1 => self.write(b"\xef\xbb# a broken mark\n"),
            2 => self.write(&[MARK, b"# \xff\n"].concat()),
            3 => self.write(&[MARK, b"rows \xff\n"].concat()),
            4 => self.write(&[MARK, b"\n"].concat()),
            5 => {
                let spaces = self.random.within(LINE_BYTES as u64 - 5, LINE_BYTES as u64 + 1) as usize - 7;
                self.write(&[MARK, b"rows", &b" ".repeat(spaces)[..], b"\n"].concat());
            }
            6 => self.mistaken(),
            _ => (),
        }
    }

    /// The input, the last line of which may lack its newline.
    pub fn finish(&mut self) -> Vec<u8> {
        if self.random.chance(30) {
            self.mistaken();
        }
        if let Some(last) = self.input.lines.last_mut().filter(|_| self.random.chance(50)) {
            last.pop();
        }
        self.input.lines.concat()
    }

    /// Commands of all kinds.
    fn steps(&mut self) -> io::Result<()> {
        let count = self.random.spread(1, 63);
        (0..count).try_for_each(|_| self.step())
    }

    /// Curves beside each other under a table of their radii.
    fn chains(&mut self) -> io::Result<()> {
        self.limit_by_a_table()?;
        let count = self.random.spread(2, 31);
        let mut class = 0;
        for _ in 0..count {
            match self.random.within(0, 99) {
                0..=69 => class = self.neighbour(class),
                70..=79 => self.curve(),
                80..=84 => self.straight(),
                85..=89 if self.fits => self.say("fit"),
                _ => self.step()?,
            }
        }
        Ok(())
    }

    /// Adds a curve whose least length is the table's next or the one before, and says which it is.
    fn neighbour(&mut self, class: usize) -> usize {
        let class = match self.random.within(0, 9) {
            0 => class,
            1..=3 => class.saturating_sub(1),
            _ => class + 1,
        };
        let class = if class < self.classes.len() { class } else { 0 };
        let Some(&(radius, _)) = self.classes.get(class) else { return 0 };
        let turn = match self.random.within(0, 9) {
            0..=2 => self.turn(usize::MAX, radius),
            _ => self.random.within(1_000_000, 2_000_000),
        };
        let before = if self.random.chance(10) { " before 0" } else { "" };
        self.say(&format!("curve left {radius} {turn}{before}"));
        class
    }

    /// As many rows as a sheet may have, and more.
    fn full(&mut self) -> io::Result<()> {
        if self.random.chance(95) {
            return self.steps();
        }
        for _ in 0..4_600 {
            if self.random.chance(70) {
                self.curve();
            } else {
                self.straight();
            }
        }
        for _ in 0..6 {
            self.remove();
            self.straight();
            self.curve();
            self.step()?;
        }
        Ok(())
    }

    /// The commands at the end of a series.
    fn close(&mut self) {
        self.say("rows");
        self.say("check");
        if self.random.chance(30) {
            self.say("report");
        }
        if self.fits {
            self.say("fit");
            self.say("check");
            for _ in 0..2 {
                self.parameter();
            }
            if self.random.chance(20) {
                self.say("report");
            }
            self.say("rows");
        }
    }

    fn step(&mut self) -> io::Result<()> {
        if self.session.open.as_ref().is_some_and(|open| open.sheet.fitted) && self.random.chance(30) {
            self.say("reopen");
        }
        match self.random.within(0, 99) {
            0..=34 => self.curve(),
            35..=46 => self.straight(),
            47..=51 => self.remove(),
            52..=63 => self.set(),
            64..=66 => self.set_all(),
            67..=70 => self.limit()?,
            71..=72 => self.limit_by_a_table()?,
            73..=76 => self.say("check"),
            77..=78 => self.say("report"),
            79..=80 => self.say("rows"),
            81..=86 => self.label(),
            87..=90 if self.fits => self.say("fit"),
            91..=92 if self.fits => self.parameter(),
            93 if self.fits => self.say("reopen"),
            94 => self.refused_road(),
            95..=97 => self.mistaken(),
            _ => self.passed_over(),
        }
        Ok(())
    }

    /// Adds a line to the input, seldom with other white space or without its meaning.
    fn say(&mut self, line: &str) {
        match self.random.within(0, 199) {
            0 => self.write(format!("\t {}\r\n", line.replace(' ', " \t ")).as_bytes()),
            1 => self.write(format!("{line} \r\n").as_bytes()),
            3 => {
                let spaced: String =
                    line.split(' ').map(|word| format!("{}{word}", self.random.pick(&SPACES))).collect();
                self.write(format!("{spaced}\n").as_bytes());
            }
            2 => {
                let changed = self.changed(line);
                self.write(format!("{changed}\n").as_bytes());
            }
            _ => self.write(format!("{line}\n").as_bytes()),
        }
    }

    fn write(&mut self, line: &[u8]) {
        if !self.fits && speaks_of_fitting(line) {
            return;
        }
        let first = self.input.lines.is_empty() && !line.starts_with(&MARK[..2]);
        let mark = if first && self.random.chance(30) { MARK } else { b"" };
        let line = [mark, line].concat();
        self.input.answers.extend(self.session.line(&line));
        self.input.lines.push(line);
    }

    /// The line with a word taken out, put in or changed.
    fn changed(&mut self, line: &str) -> String {
        let mut words: Vec<String> = line.split_whitespace().map(String::from).collect();
        let place = self.random.within(0, words.len() as u64) as usize;
        let strange = self.strange();
        match self.random.within(0, 3) {
            0 => words.insert(place, strange),
            1 => words.push(strange),
            2 if place < words.len() => words[place] = strange,
            _ => drop(words.pop()),
        }
        words.join(" ")
    }

    fn strange(&mut self) -> String {
        match self.random.within(0, 11) {
            0 => "wörd".repeat(self.random.within(9, 12) as usize),
            1 => "7".repeat(self.random.within(38, 42) as usize),
            2 => format!("{}\u{2}{}", "x".repeat(self.random.within(37, 40) as usize), "y".repeat(3)),
            3..=4 => {
                let control = self.random.within(0, 0x3f) as u8;
                let control = if control < 0x20 { control } else { control + 0x60 };
                if control == b'\n' {
                    return "\\n".into();
                }
                format!("{}{}b", self.random.pick(&["", "a", "\""]), char::from(control))
            }
            _ => self.random.pick(&STRANGE).to_string(),
        }
    }

    /// A line that is no command, or seldom is.
    fn mistaken(&mut self) {
        let line = match self.random.within(0, 19) {
            0..=2 => self.many_names().into_bytes(),
            3..=5 => self.long_line(),
            6..=8 => self.no_text(),
            9..=11 => self.jumble().into_bytes(),
            _ => {
                let mut line = self
                    .random
                    .pick(&[
                        "road C 100 3500 1 usual",
                        "label 1000000 300000",
                        "straight 5",
                        "straight 5 before 0",
                        "curve left 1000000 300000",
                        "curve right 1000000 300000 before 0",
                        "remove 0",
                        "set 0 1 1",
                        "rows",
                        "report",
                        "limit comfort",
                        "limit table nowhere fifth",
                        "fit",
                        "parameter 0 entry",
                        "reopen",
                        "check",
                    ])
                    .to_string();
                for _ in 0..self.random.within(1, 3) {
                    line = self.changed(&line);
                }
                line.into_bytes()
            }
        };
        self.write(&[&line[..], b"\n"].concat());
    }

    /// A `limit` line of up to 70 words.
    fn many_names(&mut self) -> String {
        let count =
            if self.random.chance(70) { self.random.within(60, 70) } else { self.random.within(1, 70) };
        let mut words = vec!["limit".to_string()];
        while (words.len() as u64) < count {
            let word = match self.random.within(0, 39) {
                0 => self.strange(),
                1 => "table".into(),
                2..=3 => {
                    words.push("table".into());
                    self.file()
                }
                _ => self.random.pick(&NAMES).to_string(),
            };
            words.push(word);
        }
        words.truncate(count as usize);
        words.join(" ")
    }

    /// A line of about as many bytes as one may have, or of more than a block.
    fn long_line(&mut self) -> Vec<u8> {
        let front = self.random.pick(&[
            "rows",
            "report",
            "#",
            "# é",
            "\u{b}#",
            "",
            "x",
            "limit fifth",
            "limit table t",
        ]);
        let fill: &[u8] = self.random.pick(&[
            &b" "[..],
            b" ",
            b"\t",
            b"7",
            "é".as_bytes(),
            b"\xff",
            "\u{a0}".as_bytes(),
            b" x",
        ]);
        let most = LINE_BYTES as u64;
        let length = match self.random.within(0, 9) {
            0 => self.random.within(65_500, 70_000),
            1 => self.random.spread(1, 200_000),
            _ => self.random.within(most - 4, most + 4),
        } as usize;
        let mut line = front.as_bytes().to_vec();
        while line.len() + fill.len() <= length {
            line.extend(fill);
        }
        line.resize(length, b' ');
        if self.random.chance(30) {
            line.pop();
            line.push(b'\r');
        }
        line
    }

    /// A line that is not UTF-8 text, which may be a comment.
    fn no_text(&mut self) -> Vec<u8> {
        let front =
            self.random.pick(&["", "", " ", "\t\r", "\u{c} ", "\u{b}", "\u{a0}", "\u{85}", "\u{feff}"]);
        let words =
            self.random.pick(&["#", "# é", "", "rows ", "limit table é", "straight 1 before 0 ", "x #"]);
        let no_text = self.random.pick(&NOT_TEXT);
        let rest = self.random.pick(&["", " 1", "#", "é"]);
        [front.as_bytes(), words.as_bytes(), no_text, rest.as_bytes()].concat()
    }

    /// Words of the commands in any order.
    fn jumble(&mut self) -> String {
        let count = self.random.within(1, 8);
        let word = |writer: &mut Writer| {
            if writer.random.chance(10) {
                writer.strange()
            } else {
                writer.random.pick(&WORDS).to_string()
            }
        };
        (0..count).map(|_| word(self)).collect::<Vec<_>>().join(" ")
    }

    fn passed_over(&mut self) {
        let line =
            self.random.pick(&["", " \t\r", "#", "# check", "  #check", "\t# road C 100 3500 1 usual"]);
        self.write(format!("{line}\n").as_bytes());
    }

    fn road(&mut self) {
        let road = self.random.pick(&ROADS);
        let edge = match self.random.within(0, 3) {
            0 => self.random.pick(&[1, 2, 29_999, 30_000]),
            1 => self.random.spread(1, 30_000),
            _ => self.random.within(3_000, 12_000),
        };
        let lanes = self.random.within(1, 3);
        let jerk = self.random.pick(&["usual", "top"]);
        self.write(format!("road {road} {edge} {lanes} {jerk}\n").as_bytes());
    }

    /// A road that is refused, or seldom one that is not.
    fn refused_road(&mut self) {
        let class = self.random.pick(&["A", "M", "C"]).to_string();
        let speed = self
            .random
            .pick(&["40", "70", "80", "100", "110", "140", "150", "0", "85", "4294967336"])
            .to_string();
        let edge = self.random.pick(&["0", "1", "3500", "30000", "30001", "4294967296"]).to_string();
        let lanes = self.random.pick(&["0", "1", "2", "3", "4", "4294967297"]);
        let line = format!("road {class} {speed} {edge} {lanes} usual");
        self.say(&line);
    }

    fn label(&mut self) {
        let (radius, turn) = self.radius_and_turn(usize::MAX);
        self.say(&format!("label {radius} {turn}"));
    }

    fn curve(&mut self) {
        let (place, words) = self.place();
        let (radius, turn) = self.radius_and_turn(place);
        let sense = self.random.pick(&["left", "right"]);
        self.say(&format!("curve {sense} {radius} {turn}{words}"));
    }

    fn straight(&mut self) {
        let (place, words) = self.place();
        let length = self.straight_length(place);
        self.say(&format!("straight {length}{words}"));
    }

    fn remove(&mut self) {
        let row = self.row();
        self.say(&format!("remove {row}"));
    }

    fn parameter(&mut self) {
        let row = self.row();
        let end = self.random.pick(&["entry", "exit"]);
        self.say(&format!("parameter {row} {end}"));
    }

    fn rows(&self) -> &[Row] {
        self.session.open.as_ref().map_or(&[], |open| &open.sheet.rows)
    }

    /// A place to add a row at, and the words that say it.
    fn place(&mut self) -> (usize, String) {
        let count = self.rows().len();
        match self.random.within(0, 19) {
            0..=14 => (count, String::new()),
            15..=18 => {
                let place = self.random.within(0, count as u64) as usize;
                (place, format!(" before {place}"))
            }
            _ => (count, format!(" before {}", self.beyond(count as u64))),
        }
    }

    fn row(&mut self) -> String {
        let count = self.rows().len() as u64;
        if count > 0 && self.random.chance(90) {
            self.random.within(0, count - 1).to_string()
        } else {
            self.beyond(count)
        }
    }

    /// A number somewhat or far beyond another.
    fn beyond(&mut self, number: u64) -> String {
        match self.random.within(0, 2) {
            0 => self.random.pick(&BEYOND).to_string(),
            most => (number + most - 1).to_string(),
        }
    }

    /// The road of the open sheet, or any.
    fn open_road(&self) -> Road {
        let any = || Road::open(crate::road::Class::C, 100, 3_500, 1, crate::road::Jerk::Usual);
        self.session.open.as_ref().map_or_else(|| any().expect("a road of the table"), |open| open.sheet.road)
    }

    /// The last curve before a place.
    fn curve_before(&self, place: usize) -> Option<Curve> {
        let rows = &self.rows()[..place.min(self.rows().len())];
        rows.iter().rev().find_map(Row::curve).copied()
    }

    fn radius_and_turn(&mut self, place: usize) -> (String, String) {
        let radius = self.radius(place);
        let (radius, turn) = match self.random.within(0, 49) {
            0 => self.random.pick(&EQUAL),
            _ => (radius, self.turn(place, radius)),
        };
        let beyond = |random: &mut Random, numbers: &[&str]| random.pick(numbers).to_string();
        let shown_radius = match self.random.within(0, 49) {
            0 => beyond(
                &mut self.random,
                &["0", "999", "10000001", "4294967295", "4294967296", "18446744073709552616"],
            ),
            _ => radius.to_string(),
        };
        let shown_turn = match self.random.within(0, 49) {
            0 => beyond(
                &mut self.random,
                &["0", "2000001", "4294967295", "4294967297", "18446744073709851616"],
            ),
            1 => format!("000{turn}"),
            _ => turn.to_string(),
        };
        (shown_radius, shown_turn)
    }

    fn radius(&mut self, place: usize) -> u64 {
        let road = self.open_road();
        let chance = if self.classes.is_empty() { 0 } else { 65 };
        if self.random.chance(chance) {
            return self.random.pick(&self.classes).0;
        }
        let radius = match self.random.within(0, 99) {
            0..=29 => {
                let radius = self.random.pick(&RADII);
                self.random.near(radius)
            }
            30..=39 => {
                let radius = self.random.pick(&[road.least_radius, 2 * road.least_radius, road.free_from()]);
                self.random.near(radius)
            }
            40..=54 => {
                let radius = first_radius(road.group, self.random.within(0, 799));
                self.random.near(radius)
            }
            55..=79 => self.radius_that_may_follow(place),
            80..=84 => self.curve_before(place).map_or(1_000, |curve| curve.radius),
            85..=92 => self.random.within(300_000, 5_000_000),
            _ => self.random.spread(1_000, 10_000_000),
        };
        radius.clamp(1_000, 10_000_000)
    }

    /// A radius near where rule 8 changes its answer after the curve before, or back from there.
    fn radius_that_may_follow(&mut self, place: usize) -> u64 {
        let radius = self.curve_before(place).map_or(450_000, |curve| curve.radius) as i64;
        let near = [
            (50 * radius + 600_600) / 77,
            (127 * radius - 1_152_000) / 80,
            (40 * radius + 22_504_500) / 135,
            (110 * radius - 32_000_000) / 25,
            (77 * radius - 600_600) / 50,
            (80 * radius + 1_152_000) / 127,
            (135 * radius - 22_504_500) / 40,
            (25 * radius + 32_000_000) / 110,
        ];
        let radius = (self.random.pick(&near)).max(0) as u64;
        self.random.near(radius)
    }

    fn turn(&mut self, place: usize, radius: u64) -> u64 {
        let turn = match self.random.within(0, 99) {
            0..=24 => {
                let turn = self.random.pick(&TURNS);
                self.random.near(turn)
            }
            25..=34 => self.random.near(1_591_500 * 130_000 / (radius + 1_591_500)),
            35..=64 => {
                let sum = self.sum_that_may_stand(place, radius);
                self.random.near(318_300 * sum / radius)
            }
            65..=89 => self.random.within(60_000, 2_000_000),
            _ => self.random.spread(1, 2_000_000),
        };
        turn.clamp(1, 2_000_000)
    }

    /// A sum of two lengths that a fitted curve of a radius may have at a place.
    fn sum_that_may_stand(&mut self, place: usize, radius: u64) -> u64 {
        let least = self.least(radius, 60_000);
        let before = self.curve_before(place).map_or(0, |curve| self.least(curve.radius, curve.turn));
        let wanted = (2 * before).div_ceil(3);
        let lengths = [least, 3 * least / 2, wanted.max(least), 3 * before / 2];
        self.random.pick(&lengths) + self.random.pick(&lengths)
    }

    /// The least length under the limits in force, or 0.
    fn least(&self, radius: u64, turn: u64) -> u64 {
        let Some(open) = &self.session.open else { return 0 };
        let place = Place::new(open.sheet.road, radius, turn);
        place.ok().and_then(|place| least_length(&open.limits, &place)).unwrap_or(0)
    }

    fn straight_length(&mut self, place: usize) -> String {
        let road = self.open_road();
        let laid: u64 = self.run_before(place);
        let sought = [1_390 * road.speed, 2_780 * road.speed, 16_700 * road.speed, road.limited_length()];
        match self.random.within(0, 19) {
            0 => self
                .random
                .pick(&["0", "20000001", "4294967295", "4294967296", "18446744073709551617"])
                .to_string(),
            1 => self.random.pick(&["1", "2", "20000000", "0020000000"]).to_string(),
            2..=4 => self.random.spread(1, 20_000_000).to_string(),
            5..=8 => (self.random.pick(&sought) / self.random.within(2, 3)).to_string(),
            _ => {
                let length = self.random.pick(&sought).saturating_sub(laid);
                self.random.near(length).max(1).to_string()
            }
        }
    }

    /// The length of the straights just before a place.
    fn run_before(&self, place: usize) -> u64 {
        let straight = |row: &Row| match row {
            Row::Straight(length) => Some(*length),
            Row::Curve(_) => None,
        };
        self.rows()[..place].iter().rev().map_while(straight).sum()
    }

    fn set(&mut self) {
        let curves: Vec<usize> =
            (0..self.rows().len()).filter(|&row| self.rows()[row].curve().is_some()).collect();
        if curves.is_empty() || self.random.chance(15) {
            let row = self.row();
            let numbers = ["0", "1", "2000000", "2000001", "4294967296"];
            let (entry, exit) = (self.random.pick(&numbers), self.random.pick(&numbers));
            return self.say(&format!("set {row} {entry} {exit}"));
        }
        let row = self.random.pick(&curves);
        let entry = self.length(row, 0);
        let exit = if self.random.chance(60) { entry } else { self.length(row, entry) };
        self.say(&format!("set {row} {entry} {exit}"));
    }

    /// A length near where a rule changes its answer, with `other` at the curve's other end.
    fn length(&mut self, row: usize, other: u64) -> u64 {
        let Some(&curve) = self.rows()[row].curve() else { return 0 };
        let least = self.least(curve.radius, curve.turn);
        let side = if self.random.chance(50) { row.wrapping_sub(1) } else { row + 1 };
        let beside =
            self.rows().get(side).and_then(Row::curve).map_or(least, |curve| curve.entry.max(curve.exit));
        let sum = curve.turn * curve.radius / 318_300;
        let lengths = [
            least,
            3 * least / 2,
            (2 * beside).div_ceil(3),
            3 * beside / 2,
            sum.saturating_sub(other),
            sum / 2,
            other,
            2_000_000,
        ];
        let length = self.random.pick(&lengths);
        self.random.near(length).min(2_000_001)
    }

    /// Sets all curves as a fit would, or nearly so.
    fn set_all(&mut self) {
        let Some(open) = &self.session.open else { return };
        let rows = &open.sheet.rows;
        let lengths =
            fit(&open.sheet.road, rows, &open.limits).unwrap_or_else(|first| vec![(1, 1); first.min(5)]);
        let curves: Vec<usize> = (0..lengths.len()).filter(|&row| rows[row].curve().is_some()).collect();
        for row in curves {
            let (mut entry, mut exit) = lengths[row];
            if self.random.chance(20) {
                entry = self.random.near(entry);
            }
            if self.random.chance(20) {
                exit = self.random.near(exit);
            }
            self.say(&format!("set {row} {entry} {exit}"));
        }
    }

    fn limit(&mut self) -> io::Result<()> {
        let count = self.random.within(1, 5);
        let mut words = String::from("limit");
        for _ in 0..count {
            words += " ";
            words += self.random.pick(&NAMES);
            if self.random.chance(10) {
                words += &format!(" table {}", self.file());
            }
        }
        self.say(&words);
        Ok(())
    }

    /// A file's name, of a table or of none.
    fn file(&mut self) -> String {
        match self.random.within(0, 29) {
            0..=9 if !self.files.is_empty() => {
                let place = self.random.within(0, self.files.len() as u64 - 1) as usize;
                self.files[place].clone()
            }
            10 => "n".repeat(self.random.within(254, 257) as usize),
            11 => "o/".repeat(self.random.within(2_040, 2_050) as usize),
            12 => self.strange(),
            _ => self.random.pick(&OTHER_FILES).to_string(),
        }
    }

    /// Writes a table, and puts it in force, alone or with other limits.
    fn limit_by_a_table(&mut self) -> io::Result<()> {
        let tail = if self.random.chance(20) {
            self.random.pick(&["\"", "'", "\\", "\u{1b}", "é", "#", "\u{7f}\u{84}", ".table"])
        } else {
            ""
        };
        let name = format!("{}-{}{tail}", self.name, self.files.len());
        let table = self.table();
        fs::write(&name, table)?;
        let mut words = format!("limit table {name}");
        if self.random.chance(10) {
            words += &format!(" table {}", self.file());
        }
        self.files.push(name);
        if self.random.chance(20) {
            words += " ";
            words += self.random.pick(&NAMES);
        }
        if self.random.chance(10) {
            words += &format!(" table {}", self.file());
        }
        self.say(&words);
        Ok(())
    }

    /// A table of a few radii, whose least lengths stand to each other about as three to two.
    fn table(&mut self) -> Vec<u8> {
        let mut least = match self.random.within(0, 4) {
            0..=1 => self.random.within(1, 12),
            _ => self.random.spread(1, 2_000_000),
        };
        let mut entries = Vec::new();
        self.classes.clear();
        for _ in 0..self.random.within(0, 6) {
            let radius = match self.random.within(0, 9) {
                0 => self.random.pick(&RADII),
                1 => self.random.spread(1_000, 5_000_000),
                _ => least * self.random.within(4, 100) / 10,
            };
            let radius = radius.clamp(1_000, 10_000_000);
            self.classes.push((radius, least));
            entries.push(self.entry(radius, least));
            least = self.next_least(least);
        }
        if self.random.chance(20) {
            let (first, last) = (self.random.draw() as u32 >> 8, self.random.draw() as u32);
            let least = self.random.spread(0, u64::from(u32::MAX)) as u32;
            entries.push(Entry { first, last, least });
        }
        let mut bytes: Vec<u8> = entries.iter().flat_map(Entry::bytes).collect();
        if self.random.chance(20) {
            let rest = self.random.within(1, 11);
            bytes.extend((0..rest).map(|_| self.random.draw() as u8));
        }
        bytes
    }

    fn entry(&mut self, radius: u64, least: u64) -> Entry {
        let (down, up) = match self.random.within(0, 4) {
            0 => (self.random.spread(0, radius), self.random.spread(0, 9_000_000)),
            1 => (0, 1),
            _ => (0, 0),
        };
        Entry { first: (radius - down) as u32, last: (radius + up) as u32, least: least as u32 }
    }

    fn next_least(&mut self, least: u64) -> u64 {
        let next = match self.random.within(0, 9) {
            0..=1 => 3 * least / 2,
            2..=3 => (2 * least).div_ceil(3),
            4..=5 => 9 * least / 4,
            6 => 2 * least,
            7 => self.random.pick(&[0, 1, 2, 1_333_333, 1_333_334, 1_999_999, 2_000_000, 2_000_001]),
            8 => (4 * least).div_ceil(9),
            _ => self.random.within(1, 3 * least + 1),
        };
        self.random.near(next)
    }
}

/// Whether a line's first word is a command that fits a sheet, or wants a fitted one.
fn speaks_of_fitting(line: &[u8]) -> bool {
    let text = String::from_utf8_lossy(line);
    matches!(text.split_whitespace().next(), Some("fit" | "parameter" | "reopen"))
}
