//! A velocity grid read line by line, and the velocity at a point of it.

use crate::check::{self, Fault, Kind, Place, Profile, Step, ANGLE, LINES, NODES, RANGE};
use crate::elementary::{cos, sin, K};
use crate::malformed;
use crate::read::Reader;
use crate::round::{away, decimals};

/// A node without a value has this in its first place.
const NONE: i64 = i64::MIN;

pub struct Grid {
    latitude: i64,
    longitude: i64,
    rows: usize,
    columns: usize,
    mesh: i64,
    nodes: Vec<[i64; 3]>,
}

fn angles(latitude: i64, longitude: i64) -> bool {
    (0..=2_880_000_000).contains(&latitude) && (35_640_000_000..=43_200_000_000).contains(&longitude)
}

/// The number, the line from 1 and the place; 30 has line 0.
pub fn read(text: &[u8]) -> Result<Grid, [i64; 3]> {
    let left = [i64::from(LINES), 0, 0];
    let at = |line: i64, fault: Fault| [i64::from(fault.number), line, i64::from(fault.place)];
    let mut reader = Reader::new(text);
    if reader.done() {
        return Err(left);
    }
    let header = reader.by(Reader::grid_header).map_err(|line| at(1, malformed::grid_header(line)))?;
    let [latitude, longitude, rows, columns, mesh] = header;
    let sides = (2..=2000).contains(&rows) && (2..=2000).contains(&columns) && rows * columns <= 4000;
    if !angles(latitude, longitude) || !sides || (mesh != 5 && mesh != 10) {
        return Err(at(1, RANGE.into()));
    }
    let count = (rows * columns) as usize;
    let mut nodes = Vec::with_capacity(count);
    for place in 0..count {
        if reader.done() {
            return Err(left);
        }
        let line = place as i64 + 2;
        let node = reader.by(Reader::node).map_err(|bytes| at(line, malformed::node(bytes)))?;
        if node[0] != NONE && !check::within(&node, 2500) {
            return Err(at(line, RANGE.into()));
        }
        nodes.push(node);
    }
    if !reader.done() {
        return Err(left);
    }
    let (rows, columns) = (rows as usize, columns as usize);
    Ok(Grid { latitude, longitude, rows, columns, mesh: mesh * 6_000_000, nodes })
}

impl Reader<'_> {
    /// A node: three numbers, or a single hyphen.
    fn node(&mut self) -> Option<[i64; 3]> {
        if self.lone_hyphen() {
            return Some([NONE; 3]);
        }
        self.three()
    }
}

fn cell(offset: i64, count: usize, mesh: i64) -> Option<(usize, i64)> {
    let cells = count as i64 - 1;
    if !(0..=cells * mesh).contains(&offset) {
        return None;
    }
    let cell = (offset / mesh).min(cells - 1);
    Some((cell as usize, offset - cell * mesh))
}

impl Grid {
    /// 12, 24. A weighted sum is at most 2,500 times the mesh squared, 9·10^18, in size at every stage.
    pub fn parts(&self, latitude: i64, longitude: i64) -> Result<[i64; 3], u8> {
        if !angles(latitude, longitude) {
            return Err(ANGLE);
        }
        let m = self.mesh;
        let (row, north) = cell(latitude - self.latitude, self.rows, m).ok_or(NODES)?;
        let (column, east) = cell(longitude - self.longitude, self.columns, m).ok_or(NODES)?;
        let at = row * self.columns + column;
        let corners = [at, at + 1, at + self.columns, at + self.columns + 1].map(|place| self.nodes[place]);
        if corners.iter().any(|node| node[0] == NONE) {
            return Err(NODES);
        }
        let weights = [(m - north) * (m - east), (m - north) * east, north * (m - east), north * east];
        let part = |i: usize| {
            let sum = (0..4).map(|corner| corners[corner][i] * weights[corner]).sum();
            away(sum, m * m)
        };
        Ok([part(0), part(1), part(2)])
    }
}

fn turned([e, n, u]: [i64; 3], latitude: i64, longitude: i64) -> Result<[i64; 3], u8> {
    let (e, n, u) = (e as f64, n as f64, u as f64);
    let phi = latitude as f64 * K;
    let w = (longitude - 32_400_000_000) as f64 * K;
    let (s, c, cl, sl) = (sin(phi), cos(phi), -sin(w), cos(w));
    let x = ((-sl) * e - (s * cl) * n) + (c * cl) * u;
    let y = (cl * e - (s * sl) * n) + (c * sl) * u;
    let z = c * n + s * u;
    Ok([decimals(x, 0)?, decimals(y, 0)?, decimals(z, 0)?])
}

/// East, north, up, then the 13 numbers of the V step.
pub fn velocity(
    text: &[u8],
    [latitude, longitude]: [i64; 2],
    datum: i64,
    [before, after]: [i64; 2],
) -> Result<[i64; 16], u8> {
    let parts = read(text).map_err(|[number, _, _]| number as u8)?.parts(latitude, longitude)?;
    let [x, y, z] = turned(parts, latitude, longitude)?;
    let place = |epoch: i64| Place { datum, epoch };
    let numbers = [x, y, z, 0, 0, 0, 0];
    let step = Step { kind: Kind::Velocity, before: place(before), after: place(after), numbers };
    match check::step(Profile::Y2021, &step) {
        0 => {
            let [e, n, u] = parts;
            Ok([e, n, u, i64::from(b'V'), 0, datum, before, datum, after, x, y, z, 0, 0, 0, 0])
        }
        fault => Err(fault),
    }
}
