//! seeds FOLDER COUNT: sheets, plans and lot plans from the generator, as files for the fuzzer to start from.

use harness::gen::{chains::Chains, lots, plans, sheets};
use harness::rng::Rng;
use harness::subject::Lot;
use std::fs;
use std::io;
use std::path::Path;

fn main() -> io::Result<()> {
    let words: Vec<String> = std::env::args().collect();
    let [_, folder, count] = words.as_slice() else { return Err(io::Error::other("seeds FOLDER COUNT")) };
    let count: u32 = count.parse().map_err(io::Error::other)?;
    let (mut rng, chains) = (Rng::new(11), Chains::default());
    for name in ["sheet", "plan", "lot"] {
        let folder = Path::new(folder).join(name);
        fs::create_dir_all(&folder)?;
        for place in 0..count {
            let text = match name {
                "sheet" => sheets::sheet(&mut rng, &chains),
                "plan" => plans::plan(&mut rng),
                _ => packed(&lots::lot(&mut rng, &chains)),
            };
            fs::write(folder.join(format!("seed-{place}")), text)?;
        }
    }
    Ok(())
}

/// As oracle/lot.c takes a lot plan apart.
fn packed(lot: &Lot) -> Vec<u8> {
    let length = lot.line.len().min(255);
    let room = lot.room.clamp(72, 72 + 255) - 72;
    let mut bytes = vec![length as u8, room as u8];
    bytes.extend(lot.origin.iter().flat_map(|number| number.to_le_bytes()));
    bytes.extend(&lot.text);
    bytes.extend(&lot.line[..length]);
    bytes
}
