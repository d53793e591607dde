//! The sheet, its calls and their refusals.

use crate::check::{check, Finding};
use crate::fit::fit;
use crate::limits::{check_curve, parameter, Limit};
use crate::road::Road;
use crate::rows::{Curve, Row, Sense};
use crate::LONGEST;

/// The most rows of a sheet.
pub const ROOM: usize = 4_000;

/// A refusal's number and the row that it names.
#[derive(Clone, Copy, PartialEq, Eq, Debug)]
pub struct Refusal {
    pub number: u8,
    pub row: u64,
}

impl Refusal {
    pub fn new(number: u8, row: u64) -> Refusal {
        Refusal { number, row }
    }
}

#[derive(Clone, Copy, PartialEq, Eq, Debug)]
pub enum End {
    Entry,
    Exit,
}

/// A road's rows, a draft or fitted.
#[derive(Clone, Debug)]
pub struct Sheet {
    pub road: Road,
    pub rows: Vec<Row>,
    pub fitted: bool,
}

impl Sheet {
    pub fn open(road: Road) -> Sheet {
        Sheet { road, rows: Vec::new(), fitted: false }
    }

    /// Adds a straight before a row.
    pub fn add_straight(&mut self, place: u64, length: u64) -> Result<(), Refusal> {
        if !(1..=20_000_000).contains(&length) {
            return Err(Refusal::new(3, place));
        }
        self.add(place, Row::Straight(length))
    }

    /// Adds a curve before a row.
    pub fn add_curve(&mut self, place: u64, sense: Sense, radius: u64, turn: u64) -> Result<(), Refusal> {
        check_curve(radius, turn, place)?;
        self.add(place, Row::Curve(Curve { sense, radius, turn, entry: 0, exit: 0 }))
    }

    fn add(&mut self, place: u64, row: Row) -> Result<(), Refusal> {
        if place > self.rows.len() as u64 {
            return Err(Refusal::new(8, place));
        }
        if self.rows.len() == ROOM {
            return Err(Refusal::new(10, place));
        }
        self.rows.insert(place as usize, row);
        Ok(())
    }

    /// Takes a row out.
    pub fn remove(&mut self, row: u64) -> Result<(), Refusal> {
        let index = self.index(row)?;
        self.rows.remove(index);
        Ok(())
    }

    /// Sets both lengths of a curve.
    pub fn set(&mut self, row: u64, entry: u64, exit: u64) -> Result<(), Refusal> {
        if entry.max(exit) > LONGEST {
            return Err(Refusal::new(6, row));
        }
        let index = self.index(row)?;
        let Row::Curve(curve) = &mut self.rows[index] else { return Err(Refusal::new(9, row)) };
        (curve.entry, curve.exit) = (entry, exit);
        Ok(())
    }

    /// The findings of the sheet.
    pub fn check(&self, limits: &[Limit]) -> Vec<Finding> {
        check(&self.road, &self.rows, limits)
    }

    /// Gives the curves their least lengths.
    pub fn fit(&mut self, limits: &[Limit]) -> Result<(), Refusal> {
        if self.rows.is_empty() {
            return Err(Refusal::new(11, 0));
        }
        let fitted = fit(&self.road, &self.rows, limits).map_err(|row| Refusal::new(12, row as u64))?;
        for (row, lengths) in self.rows.iter_mut().zip(fitted) {
            if let Row::Curve(curve) = row {
                (curve.entry, curve.exit) = lengths;
            }
        }
        self.fitted = true;
        Ok(())
    }

    /// The parameter of a curve's clothoid.
    pub fn parameter(&self, row: u64, end: End) -> Result<u64, Refusal> {
        let index = self.index(row)?;
        let curve = self.rows[index].curve().ok_or(Refusal::new(9, row))?;
        let length = match end {
            End::Entry => curve.entry,
            End::Exit => curve.exit,
        };
        Ok(parameter(curve.radius, length))
    }

    /// Makes a fitted sheet a draft.
    pub fn reopen(&mut self) {
        self.fitted = false;
    }

    fn index(&self, row: u64) -> Result<usize, Refusal> {
        if row < self.rows.len() as u64 {
            Ok(row as usize)
        } else {
            Err(Refusal::new(8, row))
        }
    }
}
