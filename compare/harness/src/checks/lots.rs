//! Lot plans: every clash of two refusals; the line, and that it equals each program's own parts one after another.

use crate::compare::{shown, Comparison, Mismatch, Outcome};
use crate::gen::{clashes, lots};
use crate::subject::{Answer, Lot, Subject};
use crate::tally::Function;

pub fn run(c: &mut Comparison, count: u64) -> Outcome {
    clash(c)?;
    for _ in 0..count {
        let lot = lots::lot(&mut c.rng, &c.chains);
        let expected = c.reference.lot_plan(&lot);
        c.tally.count(Function::LotPlan, &expected);
        let input = || input(&lot);
        c.hold("lot plan", input, &expected, |s| s.lot_plan(&lot))?;
        if lot.room >= 200 && expected.is_ok() {
            for s in c.all() {
                let (name, given, parts) = (s.name(), s.lot_plan(&lot), by_parts(s, &lot));
                if given != parts {
                    return Err(Mismatch(format!(
                        "lot plan {}\n  {name} {given:?}\n  by parts {parts:?}",
                        input()
                    )));
                }
            }
        }
    }
    Ok(())
}

fn input(lot: &Lot) -> String {
    format!("{} {} {:?} {}", shown(&lot.text), shown(&lot.line), lot.origin, lot.room)
}

/// One cause of a refusal or two at once: every program gives the number of the one that comes first.
fn clash(c: &mut Comparison) -> Outcome {
    for clashes::Clash { lot, number } in clashes::clashes() {
        for s in c.all() {
            let (name, given) = (s.name(), s.lot_plan(&lot));
            if given.as_ref().err().copied() != number {
                return Err(Mismatch(format!(
                    "lot plan, two refusals {}\n  {name} {given:?}\n  by their order {number:?}",
                    input(&lot)
                )));
            }
        }
        let expected = c.reference.lot_plan(&lot);
        c.tally.count(Function::LotPlan, &expected);
        c.hold("lot plan", || input(&lot), &expected, |s| s.lot_plan(&lot))?;
    }
    Ok(())
}

/// The sheet of the chain and the point, then the angles, then Cassini's millimetres.
fn by_parts(s: &dyn Subject, lot: &Lot) -> Answer<Vec<u8>> {
    let printed = s.sheet(&[lot.text.as_slice(), &lot.line].concat());
    let printed = String::from_utf8_lossy(&printed).into_owned();
    let fields: Vec<&str> = printed.trim_end().split('\t').collect();
    let ["P", id, issue, order, _, _, x, y, z] = fields[..] else { return Err(0) };
    let number = |text: &str| text.parse().unwrap_or(0);
    let [code, a, b, fe, fn_] = lot.origin;
    let [latitude, longitude, _] = s.geodetic(&[code, number(x), number(y), number(z)])?;
    let [e, n] = s.cassini_millimetres(&[code, a, b, fe, fn_, latitude, longitude])?;
    Ok(format!("C\t{id}\t{issue}\t{order}\t{e}\t{n}\n").into_bytes())
}
