//! A line of the lot plan: along the chain, to angles, onto Cassini.

use crate::angle::Origin;
use crate::check::{self, BUFFER, PROFILE};
use crate::geodetic::geodetic;
use crate::read::Reader;
use crate::sheet::Sheet;
use crate::write;

/// Appends the line; the origin's numbers are ellipsoid, latitude, longitude, FE, FN.
pub fn lot_plan(
    text: &[u8],
    line: &[u8],
    origin: [i64; 5],
    room: usize,
    out: &mut Vec<u8>,
) -> Result<(), u8> {
    if room < 200 {
        return Err(BUFFER);
    }
    let sheet = chain(text)?;
    let (id, point) = Reader::only(line, b"P", Reader::point).map_err(|fault| fault.number)?;
    let fault = check::point(&point);
    if fault != 0 {
        return Err(fault);
    }
    if !sheet.profile.has(point.place.datum) {
        return Err(PROFILE);
    }
    let moved = sheet.chain.forward(point)?;
    let [latitude, longitude, _] = geodetic(origin[0], moved.xyz)?;
    let [easting, northing] = Origin::new(origin)?.cassini_millimetres(latitude, longitude)?;
    write::line(out, b'C', id, &[moved.issue, moved.order, easting, northing]);
    Ok(())
}

/// E and S lines alone.
fn chain(text: &[u8]) -> Result<Sheet, u8> {
    let mut sheet = Sheet::default();
    let mut reader = Reader::new(text);
    let (mut place, mut none) = (0, Vec::new());
    while !reader.done() {
        place += 1;
        if !matches!(reader.first(), Some(b'E' | b'S')) {
            return Err(reader.unknown().number);
        }
        sheet.line(&mut reader, place, &mut none).map_err(|fault| fault.number)?;
    }
    Ok(sheet)
}
