//! Long alignments drawn at random, each of which has a fit.

use crate::fit::fit;
use crate::limits::{compulsory, Limit};
use crate::parse::{parse, Command};
use crate::random::Random;
use crate::road::Road;
use crate::rows::{Curve, Row, Sense};
use crate::sheet::ROOM;

#[derive(Clone, Copy, PartialEq, Eq, Debug)]
pub enum Kind {
    /// Chains of neighbouring curves that push each other, parted by straights.
    Chains,
    /// A curve, a straight, a curve, and so on.
    Alternating,
    Straights,
    /// Curves and straights on a road of group 3, where entry and exit may differ; some curves are neighbours.
    GroupThree,
}

impl Kind {
    pub const ALL: [Kind; 4] = [Kind::Chains, Kind::Alternating, Kind::Straights, Kind::GroupThree];

    pub fn name(self) -> &'static str {
        match self {
            Kind::Chains => "chains",
            Kind::Alternating => "alternating",
            Kind::Straights => "straights",
            Kind::GroupThree => "group 3",
        }
    }

    fn road_line(self) -> &'static str {
        match self {
            Kind::GroupThree => "road C 80 3500 1 usual",
            _ => "road C 100 3500 1 usual",
        }
    }
}

/// A road and its rows.
#[derive(Clone, Debug)]
pub struct Alignment {
    pub kind: Kind,
    pub road: Road,
    pub rows: Vec<Row>,
}

impl Alignment {
    /// As many rows as a sheet has.
    pub fn drawn(kind: Kind) -> Alignment {
        let road = opened(kind.road_line());
        let mut drawing =
            Drawing { road, random: Random::new(1), limits: compulsory(), rows: Vec::new(), chain: 0 };
        while drawing.rows.len() < ROOM {
            drawing.draw(kind);
        }
        drawing.rows.truncate(ROOM);
        Alignment { kind, road, rows: drawing.rows }
    }

    /// The first rows.
    pub fn first(&self, count: usize) -> Alignment {
        Alignment { rows: self.rows[..count].to_vec(), ..self.clone() }
    }

    /// The commands that lay it out.
    pub fn commands(&self) -> String {
        let lines = self.rows.iter().map(|row| match row {
            Row::Straight(length) => format!("straight {length}\n"),
            Row::Curve(Curve { sense: Sense::Left, radius, turn, .. }) => {
                format!("curve left {radius} {turn}\n")
            }
            Row::Curve(Curve { radius, turn, .. }) => format!("curve right {radius} {turn}\n"),
        });
        [format!("{}\n", self.kind.road_line())].into_iter().chain(lines).collect()
    }
}

fn opened(line: &str) -> Road {
    match parse(line) {
        Ok(Some(Command::Road { class, speed, edge, lanes, jerk })) => {
            Road::open(class, speed, edge, lanes, jerk).expect("a road of the table")
        }
        _ => unreachable!("a road's line"),
    }
}

struct Drawing {
    road: Road,
    random: Random,
    limits: Vec<Limit>,
    rows: Vec<Row>,
    /// How many rows the chain has that the last row ends, 0 where that is a straight.
    chain: usize,
}

impl Drawing {
    /// Draws the next rows.
    fn draw(&mut self, kind: Kind) {
        match kind {
            Kind::Chains => {
                let count = self.random.within(10, 60);
                (0..count).for_each(|_| self.neighbour(300_000, 3_000_000));
                self.straight();
            }
            Kind::Alternating => {
                self.neighbour(300_000, 6_000_000);
                self.straight();
            }
            Kind::Straights => self.straight(),
            Kind::GroupThree => {
                let count = self.random.within(1, 6);
                (0..count).for_each(|_| self.neighbour(150_000, 3_000_000));
                self.straight();
            }
        }
    }

    fn straight(&mut self) {
        self.rows.push(Row::Straight(self.random.within(50_000, 900_000)));
        self.chain = 0;
    }

    /// Draws a curve, again until the chain that it ends has a fit.
    fn neighbour(&mut self, least: u64, most: u64) {
        self.chain += 1;
        loop {
            let sense = if self.random.chance(50) { Sense::Left } else { Sense::Right };
            let radius = self.random.within(least, most);
            let turn = self.random.within(50_000, 900_000);
            self.rows.push(Row::Curve(Curve { sense, radius, turn, entry: 0, exit: 0 }));
            let chain = &self.rows[self.rows.len() - self.chain..];
            if fit(&self.road, chain, &self.limits).is_ok() {
                return;
            }
            self.rows.pop();
        }
    }
}

#[cfg(test)]
mod tests {
    use super::*;

    #[test]
    fn full_and_fitted() {
        for kind in Kind::ALL {
            let Alignment { road, rows, .. } = Alignment::drawn(kind);
            assert_eq!(rows.len(), ROOM);
            assert!(fit(&road, &rows, &compulsory()).is_ok(), "{kind:?}");
        }
    }

    /// In the chains most curves get other lengths than they have alone.
    #[test]
    fn chains_push() {
        let Alignment { road, rows, .. } = Alignment::drawn(Kind::Chains);
        let limits = compulsory();
        let alone = |row: &Row| fit(&road, &[*row], &limits).unwrap()[0];
        let fitted = fit(&road, &rows, &limits).unwrap();
        let pushed = rows.iter().zip(fitted).filter(|(row, lengths)| alone(row) != *lengths).count();
        assert!(pushed > ROOM / 4, "{pushed}");
    }
}
