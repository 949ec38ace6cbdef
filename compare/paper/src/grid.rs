//! Request A9: a velocity grid in our own lines, and the velocity at a point.

use crate::angle::{angles_in_range, K};
use crate::decimal::round;
use crate::lines;
use crate::profile::Profile;
use crate::ranges;
use crate::refusal::{unless, Fault, Refusal, ANGLE, LINES, NODES, RANGE};
use crate::series::{cos, sin};
use crate::step::{self, Kind, Realization, Step};

pub const MOST_NODES: usize = 4000;

/// East, north and up in hundredths of a millimetre a year.
pub type Parts = [i64; 3];

#[derive(Clone, Debug)]
pub struct Grid {
    /// The south-west corner.
    pub latitude: i64,
    pub longitude: i64,
    pub rows: usize,
    pub columns: usize,
    /// In units of angle.
    pub mesh: i64,
    /// Eastward, rows going north.
    pub nodes: Vec<Option<Parts>>,
}

/// Of a grid's text: the number, the line from 1 (0 for 30), and the place in it.
#[derive(Clone, Copy, Debug, PartialEq, Eq)]
pub struct Refused {
    pub number: Refusal,
    pub line: usize,
    pub place: usize,
}

/// The first line with a fault decides, its form before its range; then 30.
pub fn read(text: &[u8]) -> Result<Grid, Refused> {
    let at = |line: usize| move |Fault { number, place }: Fault| Refused { number, line, place };
    let left = Refused { number: LINES, line: 0, place: 0 };
    let mut lines = lines::split(text);
    let mut grid = header(lines.next().ok_or(left)?).map_err(at(1))?;
    for place in 0..grid.rows * grid.columns {
        let node = node(lines.next().ok_or(left)?).map_err(at(place + 2))?;
        grid.nodes.push(node);
    }
    match lines.next() {
        None => Ok(grid),
        Some(_) => Err(left),
    }
}

/// Order: 18, 19, 20, 22, then 2.
fn header(line: &[u8]) -> Result<Grid, Fault> {
    let [latitude, longitude, rows, columns, mesh] = lines::grid(line)?;
    unless(angles_in_range(latitude, longitude), RANGE)?;
    let nodes = i128::from(rows) * i128::from(columns);
    unless(rows >= 2 && columns >= 2 && nodes <= MOST_NODES as i128, RANGE)?;
    unless(mesh == 5 || mesh == 10, RANGE)?;
    Ok(Grid {
        latitude,
        longitude,
        rows: rows as usize,
        columns: columns as usize,
        mesh: mesh * 60 * 100_000,
        nodes: Vec::new(),
    })
}

/// Order: 18, 20, 22, then 2.
fn node(line: &[u8]) -> Result<Option<Parts>, Fault> {
    let parts = lines::node(line)?;
    unless(parts.is_none_or(|parts| ranges::all_within(&parts, 2500)), RANGE)?;
    Ok(parts)
}

/// Along one axis: the cell, and the way into it, 0 to the mesh. On a shared edge the cell to the north or east; at the
/// grid's own outer edge the last one.
fn cell(offset: i64, count: usize, mesh: i64) -> Option<(usize, i64)> {
    let cells = count as i64 - 1;
    let on_the_grid = (0..=cells * mesh).contains(&offset);
    let cell = (offset / mesh).min(cells - 1);
    on_the_grid.then(|| (cell as usize, offset - cell * mesh))
}

/// Order: 12, 24. Each part is one exact fraction over the mesh squared, rounded once, a half away from zero.
pub fn parts(grid: &Grid, latitude: i64, longitude: i64) -> Result<Parts, Refusal> {
    unless(angles_in_range(latitude, longitude), ANGLE)?;
    let (row, north) = cell(latitude - grid.latitude, grid.rows, grid.mesh).ok_or(NODES)?;
    let (column, east) = cell(longitude - grid.longitude, grid.columns, grid.mesh).ok_or(NODES)?;
    let node = |up: usize, along: usize| grid.nodes[(row + up) * grid.columns + column + along].ok_or(NODES);
    let (south_west, south_east) = (node(0, 0)?, node(0, 1)?);
    let (north_west, north_east) = (node(1, 0)?, node(1, 1)?);
    let [mesh, north, east] = [grid.mesh, north, east].map(i128::from);
    let (south, west) = (mesh - north, mesh - east);
    Ok(std::array::from_fn(|i| {
        let sum = i128::from(south_west[i]) * south * west
            + i128::from(south_east[i]) * south * east
            + i128::from(north_west[i]) * north * west
            + i128::from(north_east[i]) * north * east;
        away_from_zero(sum, mesh * mesh)
    }))
}

fn away_from_zero(numerator: i128, denominator: i128) -> i64 {
    let size = (2 * numerator.abs() + denominator) / (2 * denominator);
    (size * numerator.signum()) as i64
}

/// docs/ORDERS.md, section 6: document 002's matrix.
pub fn turned([east, north, up]: Parts, latitude: i64, longitude: i64) -> [f64; 3] {
    let (e, n, u) = (east as f64, north as f64, up as f64);
    let phi = latitude as f64 * K;
    let w = (longitude - 32_400_000_000) as f64 * K;
    let (s_phi, c_phi) = (sin(phi), cos(phi));
    let c_lambda = -sin(w);
    let s_lambda = cos(w);
    [
        ((-s_lambda) * e - (s_phi * c_lambda) * n) + (c_phi * c_lambda) * u,
        (c_lambda * e - (s_phi * s_lambda) * n) + (c_phi * s_lambda) * u,
        c_phi * n + s_phi * u,
    ]
}

/// The three parts at the point and the V step. Order: the grid's, 12, 24, then the step's 2, 3, 4.
pub fn velocity(
    text: &[u8],
    [latitude, longitude]: [i64; 2],
    datum: i64,
    epochs: [i64; 2],
) -> Result<(Parts, Step), Refusal> {
    let grid = read(text).map_err(|refused| refused.number)?;
    let parts = parts(&grid, latitude, longitude)?;
    let [x, y, z] = turned(parts, latitude, longitude);
    let [before, after] = epochs.map(|epoch| Realization { datum, epoch });
    let step = Step { kind: Kind::Velocity([round(x, 0)?, round(y, 0)?, round(z, 0)?]), before, after };
    step::faults(Profile::Circular2021, &step)?;
    Ok((parts, step))
}
