//! Request A10: the edition of the circular that a chain is made under.

use crate::chain::Point;
use crate::step::{Kind, Step};

#[derive(Clone, Copy, Debug, Default, PartialEq, Eq)]
pub enum Profile {
    Circular2009,
    /// A chain without a mark is of this one.
    #[default]
    Circular2021,
}

impl Profile {
    pub fn of_year(year: i64) -> Option<Profile> {
        match year {
            2009 => Some(Profile::Circular2009),
            2021 => Some(Profile::Circular2021),
            _ => None,
        }
    }

    fn has_datum(self, datum: i64) -> bool {
        self == Profile::Circular2021 || [1, 2, 3, 4, 5, 7].contains(&datum)
    }

    /// The 2009 edition has no time-dependent frame: T and B steps alone.
    pub fn has_step(self, step: &Step) -> bool {
        let kind =
            self == Profile::Circular2021 || matches!(step.kind, Kind::Shift(_) | Kind::BursaWolf { .. });
        kind && self.has_datum(step.before.datum) && self.has_datum(step.after.datum)
    }

    pub fn has_point(self, point: &Point) -> bool {
        self.has_datum(point.at.datum)
    }
}
