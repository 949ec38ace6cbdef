//! Velocity grids as lines, points on and about them, and what goes wrong with either.

use super::lines::{drawn_out, other_field, several_faults};
use super::numbers::{self, damaged, within, DATUM, EPOCH, LATITUDE, LONGITUDE};
use super::texts;
use crate::rng::Rng;
use crate::subject::Asked;

pub struct Grid {
    pub corner: [i64; 2],
    pub rows: i64,
    pub columns: i64,
    /// In minutes.
    pub mesh: i64,
    pub nodes: Vec<Option<[i64; 3]>>,
}

/// Small as a rule, one in a hundred with up to 4,000 nodes.
pub fn grid(rng: &mut Rng) -> Grid {
    let (rows, columns) = match rng.below(100) {
        0 => rng.pick(&[(2, 2000), (63, 63), (40, 100), (2000, 2), (50, 80)]),
        _ => (rng.between(2, 6), rng.between(2, 6)),
    };
    let mesh = rng.pick(&[5, 10]);
    let corner = [within(rng, LATITUDE.0, LATITUDE.1), within(rng, LONGITUDE.0, LONGITUDE.1)];
    let most = rng.pick(&[2500, 2500, 20, 3]);
    let bare = rng.pick(&[6, 40, 1_000_000]);
    let mut node = || (!rng.once_in(bare)).then(|| std::array::from_fn(|_| within(rng, -most, most)));
    let nodes = (0..rows * columns).map(|_| node()).collect();
    Grid { corner, rows, columns, mesh, nodes }
}

impl Grid {
    pub fn units(&self) -> i64 {
        self.mesh * 6_000_000
    }

    pub fn text(&self) -> Vec<u8> {
        self.lines().concat()
    }

    pub fn lines(&self) -> Vec<Vec<u8>> {
        let [a, b] = self.corner;
        let header = format!("G\t{a}\t{b}\t{}\t{}\t{}\n", self.rows, self.columns, self.mesh);
        let node = |node: &Option<[i64; 3]>| match node {
            Some([e, n, u]) => format!("{e}\t{n}\t{u}\n").into_bytes(),
            None => b"-\n".to_vec(),
        };
        std::iter::once(header.into_bytes()).chain(self.nodes.iter().map(node)).collect()
    }

    /// On nodes, on edges, half and quarter ways between, anywhere, or a little outside.
    pub fn point(&self, rng: &mut Rng) -> [i64; 2] {
        let m = self.units();
        let mut along = |count: i64| {
            let most = (count - 1) * m;
            match rng.below(12) {
                0..=2 => rng.between(0, count - 1) * m,
                3 | 4 => rng.between(0, 2 * (count - 1)) * (m / 2),
                5 | 6 => rng.between(0, 40 * (count - 1)) * (m / 40),
                7 => rng.between(0, count - 1) * m + rng.pick(&[-1, 1]),
                8 if rng.once_in(4) => rng.pick(&[-1, most + 1, most, -m, most + m]),
                _ => rng.between(0, most),
            }
        };
        let (north, east) = (along(self.rows), along(self.columns));
        [self.corner[0] + north, self.corner[1] + east]
    }
}

/// A datum and two epochs for which there is a V step; one in ten damaged.
pub fn asked(rng: &mut Rng, [latitude, longitude]: [i64; 2]) -> Asked {
    let (datum, before, after) = (rng.between(3, 10), numbers::epoch(rng), numbers::epoch(rng));
    let mut asked = Asked { latitude, longitude, datum, before, after };
    if rng.once_in(10) {
        match rng.below(7) {
            0 => asked.datum = damaged(rng, DATUM.0, DATUM.1),
            1 => asked.before = damaged(rng, EPOCH.0, EPOCH.1),
            2 => asked.after = damaged(rng, EPOCH.0, EPOCH.1),
            3 => (asked.datum, asked.before, asked.after) = (rng.between(1, 2), 0, 0),
            4 => asked.datum = rng.between(1, 2),
            5 => asked.latitude = damaged(rng, LATITUDE.0, LATITUDE.1),
            _ => asked.longitude = damaged(rng, LONGITUDE.0, LONGITUDE.1),
        }
    }
    asked
}

/// One or more lines spoiled, missing, left over, or a number of the header out of its range.
pub fn spoiled(rng: &mut Rng, grid: &Grid) -> Vec<u8> {
    let mut lines = grid.lines();
    for _ in 0..=rng.below(2) {
        if lines.is_empty() {
            break;
        }
        let place = if rng.once_in(3) { 0 } else { rng.index(lines.len()) };
        match rng.below(10) {
            0 => drop(lines.remove(place)),
            1 => lines.push(rng.pick(&["\n", "x", "1\t2\t3\n", "-\n", "G\n", "01\n"]).as_bytes().to_vec()),
            2 => texts::damage(rng, &mut lines[place]),
            3 => lines[place] = several_faults(rng, &lines[place]),
            4 => lines[place] = drawn_out(rng, &lines[place]),
            5 => lines[place] = out_of_range(rng, &lines[place]),
            6 => {
                let odd: [&[u8]; 8] =
                    [b"\n", b"--\n", b"-\t-\t-\n", b"-\t\n", b"1\t2\n", b"1\t-\t3\n", b"-", b"G\t1\t2\n"];
                lines[place] = rng.pick(&odd).to_vec();
            }
            _ => lines[place] = other_field(rng, &lines[place]),
        }
    }
    let mut text = lines.concat();
    if rng.once_in(12) {
        text.truncate(rng.index(text.len() + 1));
    }
    text
}

/// A number of the header or of a node past its end.
fn out_of_range(rng: &mut Rng, line: &[u8]) -> Vec<u8> {
    let body = String::from_utf8_lossy(line);
    let mut fields: Vec<String> = body.trim_end().split('\t').map(str::to_string).collect();
    let ranges: &[(i64, i64)] = match fields.len() {
        6 => &[(0, 0), LATITUDE, LONGITUDE, (2, 2000), (2, 2000), (5, 10)],
        3 => &[(-2500, 2500); 3],
        _ => return line.to_vec(),
    };
    let place = if fields.len() == 6 { 1 + rng.index(5) } else { rng.index(3) };
    let (low, high) = ranges[place];
    fields[place] = damaged(rng, low, high).to_string();
    (fields.join("\t") + "\n").into_bytes()
}
