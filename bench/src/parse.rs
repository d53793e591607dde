//! A line as a command.

use std::str::SplitWhitespace;

use crate::road::{Class, Jerk};
use crate::rows::Sense;
use crate::sheet::End;

/// The most words after `limit`.
const LIMIT_WORDS: usize = 62;

#[derive(Clone, PartialEq, Eq, Debug)]
pub enum Command<'a> {
    Road { class: Class, speed: u64, edge: u64, lanes: u64, jerk: Jerk },
    Label { radius: u64, turn: u64 },
    Straight { length: u64, before: Option<u64> },
    Curve { sense: Sense, radius: u64, turn: u64, before: Option<u64> },
    Remove(u64),
    Set { row: u64, entry: u64, exit: u64 },
    Rows,
    Report,
    Limit(Vec<Name<'a>>),
    Fit,
    Parameter { row: u64, end: End },
    Reopen,
    Check,
}

/// What a line names as a limit.
#[derive(Clone, Copy, PartialEq, Eq, Debug)]
pub enum Name<'a> {
    Comfort,
    Transition,
    Azimuth,
    Shift,
    Fifth,
    Table(&'a str),
}

/// Word `place`, counted from 1, is not what was expected there, or is missing.
#[derive(Clone, Copy, PartialEq, Eq, Debug)]
pub struct Mistake<'a> {
    pub place: usize,
    pub word: Option<&'a str>,
    pub expected: &'static str,
}

const COMMAND: &str = "a command: road, label, straight, curve, remove, set, rows, report, limit, check, fit, parameter or reopen";
const CLASS: &str = "a class: A, M or C";
const NUMBER: &str = "a whole number: digits alone, without a point or a unit";
const JERK: &str = "usual or top";
const SENSE: &str = "left or right";
const BEFORE: &str = "before, or the end of the line";
const END: &str = "entry or exit";
const NAME: &str = "a limit: comfort, transition, azimuth, shift, fifth or table FILE";
const FILE: &str = "the name of a file";
const LINE_END: &str = "the end of the line";

/// The command of a line, or none where the line is blank or a comment.
pub fn parse(line: &str) -> Result<Option<Command<'_>>, Mistake<'_>> {
    let mut words = Words { place: 0, words: line.split_whitespace() };
    match words.next() {
        None => Ok(None),
        Some(word) if word.starts_with('#') => Ok(None),
        Some(word) => {
            let command = words.command(word)?;
            words.end()?;
            Ok(Some(command))
        }
    }
}

struct Words<'a> {
    place: usize,
    words: SplitWhitespace<'a>,
}

impl<'a> Words<'a> {
    fn next(&mut self) -> Option<&'a str> {
        self.place += 1;
        self.words.next()
    }

    /// The next word as `read` reads it.
    fn expect<T>(
        &mut self,
        expected: &'static str,
        read: impl Fn(&'a str) -> Option<T>,
    ) -> Result<T, Mistake<'a>> {
        let word = self.next();
        word.and_then(read).ok_or(Mistake { place: self.place, word, expected })
    }

    fn number(&mut self) -> Result<u64, Mistake<'a>> {
        self.expect(NUMBER, number)
    }

    fn end(&mut self) -> Result<(), Mistake<'a>> {
        match self.next() {
            None => Ok(()),
            word => Err(Mistake { place: self.place, word, expected: LINE_END }),
        }
    }

    fn ended(&self) -> bool {
        self.words.clone().next().is_none()
    }

    /// `before N`, or nothing.
    fn before(&mut self) -> Result<Option<u64>, Mistake<'a>> {
        if self.ended() {
            return Ok(None);
        }
        self.expect(BEFORE, |word| (word == "before").then_some(()))?;
        self.number().map(Some)
    }

    fn command(&mut self, word: &'a str) -> Result<Command<'a>, Mistake<'a>> {
        Ok(match word {
            "road" => self.road()?,
            "label" => Command::Label { radius: self.number()?, turn: self.number()? },
            "straight" => Command::Straight { length: self.number()?, before: self.before()? },
            "curve" => self.curve()?,
            "remove" => Command::Remove(self.number()?),
            "set" => Command::Set { row: self.number()?, entry: self.number()?, exit: self.number()? },
            "rows" => Command::Rows,
            "report" => Command::Report,
            "limit" => Command::Limit(self.names()?),
            "fit" => Command::Fit,
            "parameter" => Command::Parameter { row: self.number()?, end: self.expect(END, end)? },
            "reopen" => Command::Reopen,
            "check" => Command::Check,
            _ => return Err(Mistake { place: self.place, word: Some(word), expected: COMMAND }),
        })
    }

    fn road(&mut self) -> Result<Command<'a>, Mistake<'a>> {
        Ok(Command::Road {
            class: self.expect(CLASS, class)?,
            speed: self.number()?,
            edge: self.number()?,
            lanes: self.number()?,
            jerk: self.expect(JERK, jerk)?,
        })
    }

    fn curve(&mut self) -> Result<Command<'a>, Mistake<'a>> {
        Ok(Command::Curve {
            sense: self.expect(SENSE, sense)?,
            radius: self.number()?,
            turn: self.number()?,
            before: self.before()?,
        })
    }

    /// The names of a `limit` line, one or more; a line with too many words is that, whatever they are.
    fn names(&mut self) -> Result<Vec<Name<'a>>, Mistake<'a>> {
        if let Some(word) = self.words.clone().nth(LIMIT_WORDS) {
            return Err(Mistake { place: LIMIT_WORDS + 2, word: Some(word), expected: LINE_END });
        }
        let mut names = vec![self.name()?];
        while !self.ended() {
            names.push(self.name()?);
        }
        Ok(names)
    }

    fn name(&mut self) -> Result<Name<'a>, Mistake<'a>> {
        let name = self.expect(NAME, name)?;
        match name {
            Name::Table(_) => self.expect(FILE, Some).map(Name::Table),
            _ => Ok(name),
        }
    }
}

/// A number, where 4,294,967,295 stands for all above.
fn number(word: &str) -> Option<u64> {
    let most = u64::from(u32::MAX);
    let digit = |number: u64, byte: u8| {
        byte.is_ascii_digit().then(|| (number * 10 + u64::from(byte - b'0')).min(most))
    };
    word.bytes().try_fold(0, digit)
}

/// A limit, for a table without its file yet.
fn name(word: &str) -> Option<Name<'_>> {
    match word {
        "comfort" => Some(Name::Comfort),
        "transition" => Some(Name::Transition),
        "azimuth" => Some(Name::Azimuth),
        "shift" => Some(Name::Shift),
        "fifth" => Some(Name::Fifth),
        "table" => Some(Name::Table("")),
        _ => None,
    }
}

fn class(word: &str) -> Option<Class> {
    match word {
        "A" => Some(Class::A),
        "M" => Some(Class::M),
        "C" => Some(Class::C),
        _ => None,
    }
}

fn jerk(word: &str) -> Option<Jerk> {
    match word {
        "usual" => Some(Jerk::Usual),
        "top" => Some(Jerk::Top),
        _ => None,
    }
}

fn sense(word: &str) -> Option<Sense> {
    match word {
        "left" => Some(Sense::Left),
        "right" => Some(Sense::Right),
        _ => None,
    }
}

fn end(word: &str) -> Option<End> {
    match word {
        "entry" => Some(End::Entry),
        "exit" => Some(End::Exit),
        _ => None,
    }
}

#[cfg(test)]
mod tests {
    use super::*;

    #[test]
    fn numbers() {
        assert_eq!(number("007"), Some(7));
        assert_eq!(number("4294967295"), Some(4_294_967_295));
        assert_eq!(number("4294967296"), Some(4_294_967_295));
        assert_eq!(number(&"9".repeat(1_000)), Some(4_294_967_295));
        assert_eq!(number("+7"), None);
        assert_eq!(number("7."), None);
    }

    #[test]
    fn first_mistakes() {
        let wrong = |place, word, expected| Err(Mistake { place, word: Some(word), expected });
        let missing = |place, expected| Err(Mistake { place, word: None, expected });
        assert_eq!(parse(" \t"), Ok(None));
        assert_eq!(parse(" #no"), Ok(None));
        assert_eq!(parse("Fit"), wrong(1, "Fit", COMMAND));
        assert_eq!(parse("curve left 1 2 afore"), wrong(5, "afore", BEFORE));
        assert_eq!(parse("curve left 1 2 before"), missing(6, NUMBER));
        assert_eq!(parse("curve left 1 2 before 3 4"), wrong(7, "4", LINE_END));
        assert_eq!(parse("road C x y"), wrong(3, "x", NUMBER));
        assert_eq!(parse("fit now"), wrong(2, "now", LINE_END));
        assert_eq!(parse("limit"), missing(2, NAME));
        assert_eq!(parse("limit table"), missing(3, FILE));
        assert_eq!(
            parse("limit table table fifth"),
            Ok(Some(Command::Limit(vec![Name::Table("table"), Name::Fifth])))
        );
        assert!(parse(&format!("limit{}", " fifth".repeat(62))).is_ok());
        let long = format!("limit{}", " fifth".repeat(63));
        assert_eq!(parse(&long), wrong(64, "fifth", LINE_END));
        let wrong_too = format!("limit speed{}", " fifth".repeat(69));
        assert_eq!(parse(&wrong_too), wrong(64, "fifth", LINE_END));
        let table = format!("limit{} table", " fifth".repeat(61));
        assert_eq!(parse(&table), missing(64, FILE));
    }
}
