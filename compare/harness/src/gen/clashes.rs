//! Lots with one fault or two at once, for every cause of a refusal in the order in which request A14's parts run.

use crate::subject::Lot;

/// A lot taken apart, so that faults can be put into it one by one.
#[derive(Clone)]
struct Parts {
    room: usize,
    lines: Vec<String>,
    fields: Vec<String>,
    feed: &'static str,
    origin: [i64; 5],
}

/// A cause of a refusal: its number, and how a lot comes to have it.
struct Cause {
    number: u8,
    put: Put,
}

enum Put {
    Room(usize),
    /// The chain's first line.
    First(&'static str),
    /// More lines at the chain's end, `|` for tabs.
    Lines(String),
    Field(usize, &'static str),
    MoreField,
    NoFeed,
    Origin(usize, i64),
}

/// A lot, and the number of the cause that comes first in it; none for the lot without a fault.
pub struct Clash {
    pub lot: Lot,
    pub number: Option<u8>,
}

/// Under each profile: no fault, each cause alone, and every two of them. Of two lines of the chain the first decides, so these are
/// tried in both orders.
pub fn clashes() -> Vec<Clash> {
    let mut all = Vec::new();
    for profile in [2009, 2021] {
        let good = good(profile);
        let causes = causes(profile);
        all.push(Clash { lot: good.lot(), number: None });
        for (place, cause) in causes.iter().enumerate() {
            all.push(good.clash(&[cause], cause.number));
            for later in &causes[place + 1..] {
                // The later cause is put in first, except where both are lines and the first line is to decide.
                let lines = matches!((&cause.put, &later.put), (Put::Lines(_), Put::Lines(_)));
                if lines {
                    all.push(good.clash(&[cause, later], cause.number));
                    all.push(good.clash(&[later, cause], later.number));
                } else {
                    all.push(good.clash(&[later, cause], cause.number));
                }
            }
        }
    }
    all
}

/// Station ARAU along one shift, near an origin of Kedah.
fn good(profile: i64) -> Parts {
    let texts = |line: &str| line.split('|').map(str::to_string).collect();
    Parts {
        room: 200,
        lines: vec![format!("E|{profile}\n"), "S|T|5|2000000|7|2006586|-15832|-4363|-9706\n".to_string()],
        fields: texts("P|ARAU|7|3|5|2000000|-113105165410|623631179950|71174811140"),
        feed: "\n",
        origin: [1, 2_149_440_000, 36_243_000_000, 50_000, -25_000],
    }
}

/// In the order of the request: the buffer; the chain's lines; the point's line and its way along the chain; the angles; Cassini.
fn causes(profile: i64) -> Vec<Cause> {
    let cause = |number: u8, put: Put| Cause { number, put };
    let line = |number: u8, text: &str| Cause { number, put: Put::Lines(text.to_string()) };
    let old = profile == 2009;
    let mut causes = vec![
        cause(27, Put::Room(199)),
        cause(2, Put::First("E|2010\n")),
        line(18, &format!("S|T|7|2006586|7|2006586|1|2|{}\n", "3".repeat(200))),
        line(19, "X\n"),
        line(19, "\n"),
        line(19, "P|ARAU|7|3|7|2006586|-113105165410|623631179950|71174811140\n"),
        line(19, "S|X|7|2006586|7|2006586|1|2|3\n"),
        line(20, "S|T|7|2006586\n"),
        line(22, "S|T|7|2006586|7|2006586|1|2|03\n"),
        line(7, "E|2021\n"),
        line(7, "E|2010\n"),
        line(2, "S|T|7|2006586|7|2006586|1|2|100000001\n"),
        line(3, "S|T|7|0|7|2006586|1|2|3\n"),
        line(if old { 25 } else { 4 }, "S|V|7|2006586|8|2006586|1|2|3\n"),
        line(if old { 25 } else { 5 }, "S|T|8|2006586|7|2006586|1|2|3\n"),
        line(5, "S|T|7|2006587|7|2006586|1|2|3\n"),
        line(6, &"S|T|7|2006586|7|2006586|0|0|0\n".repeat(8)),
        cause(18, Put::NoFeed),
        cause(19, Put::Field(0, "Q")),
        cause(20, Put::MoreField),
        cause(21, Put::Field(1, "arau")),
        cause(22, Put::Field(2, "07")),
        cause(2, Put::Field(3, "5")),
        cause(3, Put::Field(5, "0")),
        cause(9, Put::Field(5, "2000001")),
        cause(10, Put::Field(6, "0")),
        cause(11, Put::Field(8, "9705")),
        cause(2, Put::Origin(0, 5)),
        cause(12, Put::Field(7, "600000000000")),
        cause(2, Put::Origin(3, 2_000_000_001)),
        cause(2, Put::Origin(4, -2_000_000_001)),
        cause(12, Put::Origin(1, -1)),
        cause(12, Put::Origin(2, 43_200_000_001)),
        cause(13, Put::Origin(2, 43_200_000_000)),
    ];
    if old {
        let after_three = causes.iter().position(|c| matches!(c.put, Put::Field(5, "2000001")));
        causes.insert(after_three.expect("the cause of 9"), cause(25, Put::Field(4, "6")));
    }
    causes
}

impl Parts {
    fn clash(&self, causes: &[&Cause], number: u8) -> Clash {
        let mut parts = self.clone();
        for cause in causes {
            parts.put(&cause.put);
        }
        Clash { lot: parts.lot(), number: Some(number) }
    }

    fn put(&mut self, put: &Put) {
        match put {
            Put::Room(room) => self.room = *room,
            Put::First(line) => self.lines[0] = line.to_string(),
            Put::Lines(lines) => self.lines.push(lines.clone()),
            Put::Field(place, text) => self.fields[*place] = text.to_string(),
            Put::MoreField => self.fields.push("1".to_string()),
            Put::NoFeed => self.feed = "",
            Put::Origin(place, number) => self.origin[*place] = *number,
        }
    }

    fn lot(&self) -> Lot {
        let tabs = |text: String| text.replace('|', "\t").into_bytes();
        Lot {
            text: tabs(self.lines.concat()),
            line: tabs(self.fields.join("|") + self.feed),
            origin: self.origin,
            room: self.room,
        }
    }
}
