//! Full inputs for measuring: every line of one sort.

use super::chains::{Chains, Row};
use super::grids::Grid;
use super::{angles, geodetic, lines, numbers, points, rso};
use crate::rng::Rng;

/// A sheet of steps of those kinds and, up to the size, points that go through.
pub fn sheet(rng: &mut Rng, chains: &Chains, kinds: &str, size: usize) -> Vec<u8> {
    let rows = rows(rng, chains, kinds);
    let place = [rows[0][2], rows[0][3]];
    let steps: Vec<u8> = rows.iter().flat_map(lines::step).collect();
    filled(steps, size, || {
        let position = inside(rng);
        let numbers = points::point(rng, place, position);
        lines::point(&lines::id(rng), &numbers)
    })
}

/// Steps of those kinds, joined.
pub fn rows(rng: &mut Rng, chains: &Chains, kinds: &str) -> Vec<Row> {
    let mut rows: Vec<Row> = Vec::new();
    let mut from = [rng.between(5, 9), numbers::epoch(rng)];
    for (place, kind) in kinds.bytes().enumerate() {
        let next = kinds.as_bytes().get(place + 1);
        let row = loop {
            let row = chains.row(rng, kind, from);
            let after = row[4];
            if (kind == b'F' || (5..=9).contains(&after)) && !(kind == b'F' && next == Some(&b'F')) {
                break row;
            }
        };
        from = [row[4], row[5]];
        rows.push(row);
    }
    rows
}

/// Far enough from the faces for any eight steps.
pub fn inside(rng: &mut Rng) -> [i64; 3] {
    numbers::AREA.map(|(low, high)| rng.between(low + 2_000_000_000, high - 2_000_000_000))
}

/// Lines refused for their form, for their numbers, for datum and epoch, for the start and for the area.
pub fn refusals(rng: &mut Rng, chains: &Chains, size: usize) -> Vec<u8> {
    let rows = rows(rng, chains, "BBBBBBBB");
    let place = [rows[0][2], rows[0][3]];
    let steps: Vec<u8> = rows.iter().flat_map(lines::step).collect();
    let mut count = 0;
    filled(steps, size, || {
        count += 1;
        let position = inside(rng);
        let mut point = points::point(rng, place, position);
        match count % 5 {
            0 => point[3] = 0,
            1 => point[4] = 700_000_000_000,
            2 => point[6] = -1,
            3 => point[2] = 3 + (point[2] - 2) % 8,
            _ => return lines::point(b"a1", &point),
        }
        lines::point(&lines::id(rng), &point)
    })
}

/// Lines of bad form alone: too long, an unknown convention, a field too many, a bad id, a number not plain.
pub fn malformed(rng: &mut Rng, chains: &Chains, size: usize) -> Vec<u8> {
    let mut row = rows(rng, chains, "B")[0];
    row[1] = i64::from(b'X');
    let mut count = 0;
    filled(Vec::new(), size, || {
        count += 1;
        let position = inside(rng);
        let point = points::point(rng, [row[2], row[3]], position);
        let mut line = lines::point(b"A1", &point);
        match count % 5 {
            0 => line.splice(2..2, [b'A'; 150]).for_each(drop),
            1 => return lines::step(&row),
            2 => line.insert(1, b'\t'),
            3 => line[2] = b'a',
            _ => line.insert(5, b'+'),
        }
        line
    })
}

const ORIGIN: [i64; 5] = [1, 1_440_000_000, 36_720_000_000, 50_000, -25_000];

/// An origin and points within reach of it.
pub fn plan(rng: &mut Rng, size: usize) -> Vec<u8> {
    filled(lines::origin(&ORIGIN), size, || {
        let numbers = cassini_point(rng);
        lines::geodetic(&lines::id(rng), &numbers)
    })
}

fn cassini_point(rng: &mut Rng) -> [i64; 2] {
    let latitude = rng.between(numbers::LATITUDE.0, numbers::LATITUDE.1);
    [latitude, ORIGIN[2] + rng.between(-1_000_000_000, 1_440_000_000)]
}

/// The origin and a point within reach of it, as one call takes them.
pub fn cassini(rng: &mut Rng) -> [i64; 7] {
    let [code, latitude, longitude, easting, northing] = ORIGIN;
    let [a, b] = cassini_point(rng);
    [code, latitude, longitude, easting, northing, a, b]
}

/// A geodetic point in range, with its ellipsoid and height.
pub fn geodetic(rng: &mut Rng) -> [i64; 4] {
    loop {
        let numbers = angles::geodetic(rng);
        if paper::angle::cartesian(numbers[0], numbers[1], numbers[2], numbers[3]).is_ok() {
            return numbers;
        }
    }
}

/// A code and the position of a geodetic point in range, which its ellipsoid takes back.
pub fn position(rng: &mut Rng) -> [i64; 4] {
    loop {
        let (code, at) = geodetic::placed(rng);
        let [x, y, z] = geodetic::position(code, at);
        if paper::geodetic::geodetic(code, [x, y, z]).is_ok() {
            return [code, x, y, z];
        }
    }
}

/// A grid of the Peninsula whose nodes all have values.
pub fn grid(rng: &mut Rng, rows: i64, columns: i64) -> Grid {
    let corner = [rng.between(360_000_000, 400_000_000), rng.between(36_000_000_000, 36_100_000_000)];
    let mut node = || Some(std::array::from_fn(|_| rng.between(-2500, 2500)));
    let nodes = (0..rows * columns).map(|_| node()).collect();
    Grid { corner, rows, columns, mesh: 5, nodes }
}

/// The Peninsula's projection and a point of the Peninsula.
pub fn rso(rng: &mut Rng) -> ([i64; 8], [i64; 2]) {
    let (low, high) = rso::area_of(&rso::PENINSULA);
    (rso::PENINSULA, [rng.between(numbers::LATITUDE.0, numbers::LATITUDE.1), rng.between(low, high)])
}

fn filled(mut text: Vec<u8>, size: usize, mut line: impl FnMut() -> Vec<u8>) -> Vec<u8> {
    loop {
        let next = line();
        if text.len() + next.len() > size {
            return text;
        }
        text.extend(next);
    }
}
