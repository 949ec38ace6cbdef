//! Request A14: from a chain, a point line and a state origin to a line of the lot plan.

use crate::angle::{cassini_millimetres, Origin};
use crate::chain::{self, Point};
use crate::geodetic::geodetic;
use crate::lines::{self, Named};
use crate::program::Reader;
use crate::refusal::{unless, Fault, Refusal, BUFFER, PROFILE};
use crate::sheet::Sheet;

pub const LEAST_ROOM: usize = 200;

/// Order: 27; the chain text's first refused line; the point line's; then the angles' (A1) and Cassini's, as they run.
pub fn lot_plan(text: &[u8], line: &[u8], origin: &Origin, room: usize) -> Result<String, Refusal> {
    unless(room >= LEAST_ROOM, BUFFER)?;
    let chain = chain_of(text).map_err(|fault| fault.number)?;
    let Named { id, value } = lines::point(line).map_err(|fault| fault.number)?;
    let moved = along(&chain, value)?;
    let [latitude, longitude, _] = geodetic(origin.ellipsoid, moved.position)?;
    let [easting, northing] = cassini_millimetres(origin, latitude, longitude)?;
    let (id, issue, order) = (String::from_utf8_lossy(id), moved.issue, moved.order);
    Ok(format!("C\t{id}\t{issue}\t{order}\t{easting}\t{northing}\n"))
}

/// E and S lines as on a sheet, of any length; another line is 19.
fn chain_of(text: &[u8]) -> Result<Sheet, Fault> {
    let mut sheet = Sheet::default();
    for line in lines::split(text) {
        match line.first() {
            Some(b'E' | b'S') => sheet.line(line)?,
            _ => return Err(lines::unknown(line)),
        };
    }
    Ok(sheet)
}

/// Order: 2, 3, 25, 9, 10, 11.
fn along(sheet: &Sheet, point: Point) -> Result<Point, Refusal> {
    chain::point_faults(&point)?;
    unless(sheet.profile.has_point(&point), PROFILE)?;
    chain::forward_checked(&sheet.chain, point)
}
