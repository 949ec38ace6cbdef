//! Two chains made one, and what request A12 claims of them, asked of every program by itself.

use crate::compare::{Comparison, Mismatch, Outcome};
use crate::gen::chains::Chain;
use crate::gen::points;
use crate::subject::{Answer, Subject};
use crate::tally::Function;
use paper::numbers::{steps, PointRow};

/// How often a claim had something to say.
#[derive(Default, Debug)]
pub struct Tried {
    pub along_and_back: u64,
    pub along_answered: u64,
    pub back_answered: u64,
    pub triples: u64,
    pub with_an_empty_chain: u64,
}

pub fn run(c: &mut Comparison, count: u64) -> Result<Tried, Mismatch> {
    let mut tried = Tried::default();
    for _ in 0..count {
        let [first, second] = pair(c);
        compared(c, &first, &second)?;
        by_parts(c, &first, &second, &mut tried)?;
        empty(c, &first, &mut tried)?;
        bracketed(c, &mut tried)?;
    }
    Ok(tried)
}

/// Mostly two that join; else apart, too long together, of unlike profiles or damaged, often several at once.
fn pair(c: &mut Comparison) -> [Chain; 2] {
    let [one, two] = if c.rng.once_in(6) {
        [c.rng.index(10), c.rng.index(10)]
    } else {
        let all = c.rng.index(9);
        let one = c.rng.index(all + 1);
        [one, all - one]
    };
    let mut first = c.chains.good(&mut c.rng, one);
    let mut second = if c.rng.once_in(8) {
        c.chains.good(&mut c.rng, two)
    } else {
        c.chains.good_after(&mut c.rng, &first, two)
    };
    if c.rng.once_in(8) {
        let year = c.rng.pick(&[2009, 2021]);
        (if c.rng.once_in(2) { &mut first } else { &mut second }).profile = year;
    }
    for chain in [&mut first, &mut second] {
        if c.rng.once_in(10) {
            chain.damage(&mut c.rng);
        }
    }
    [first, second]
}

fn joined(s: &dyn Subject, first: &Chain, second: &Chain) -> Answer<Vec<i64>> {
    s.join([first.profile, second.profile], &first.numbers(), &second.numbers())
}

fn shown(chains: &[&Chain]) -> String {
    let one = |chain: &&Chain| format!("profile {} chain {:?}", chain.profile, chain.numbers());
    chains.iter().map(one).collect::<Vec<_>>().join(" and ")
}

fn compared(c: &mut Comparison, first: &Chain, second: &Chain) -> Outcome {
    let expected = joined(&c.reference, first, second);
    c.tally.count(Function::Join, &expected);
    c.hold("join", || shown(&[first, second]), &expected, |s| joined(s, first, second))
}

/// By the joined chain, or by the first and then the second: the same, refusals too; and back the other way round.
fn by_parts(c: &mut Comparison, first: &Chain, second: &Chain, tried: &mut Tried) -> Outcome {
    if first.rows.is_empty() || second.rows.is_empty() || joined(&c.reference, first, second).is_err() {
        return Ok(());
    }
    let points = [point(c, first, second, false), point(c, first, second, true)];
    let year = first.profile;
    let (one, two) = (first.numbers(), second.numbers());
    for s in c.all() {
        let both = joined(s, first, second).unwrap_or_default();
        let along = s.forward(year, &one, &points[0]).and_then(|half| s.forward(year, &two, &half));
        let back = s.inverse(year, &two, &points[1]).and_then(|half| s.inverse(year, &one, &half));
        let whole = [s.forward(year, &both, &points[0]), s.inverse(year, &both, &points[1])];
        if whole != [along, back] {
            let name = s.name();
            let input = shown(&[first, second]);
            return Err(Mismatch(format!(
                "joined chain {input} points {points:?}\n  {name} by parts {along:?} {back:?}\n  joined {whole:?}"
            )));
        }
    }
    let whole = joined(&c.reference, first, second).unwrap_or_default();
    tried.along_answered += u64::from(c.reference.forward(year, &whole, &points[0]).is_ok());
    tried.back_answered += u64::from(c.reference.inverse(year, &whole, &points[1]).is_ok());
    tried.along_and_back += 1;
    Ok(())
}

/// At the joined chain's start (its end, going back), one in eight damaged.
fn point(c: &mut Comparison, first: &Chain, second: &Chain, back: bool) -> PointRow {
    let whole = Chain {
        profile: first.profile,
        rows: [first.rows.as_slice(), &second.rows].concat(),
        begin: first.begin,
        end: second.end,
    };
    let steps = steps(&whole.numbers()).expect("whole rows");
    let rng = &mut c.rng;
    let position = match rng.below(4) {
        0 if back => points::led_back(rng, &whole, &steps),
        0 => points::led_along(rng, &whole, &steps),
        1 => points::at_a_face(rng),
        _ => points::position(rng),
    };
    let (begin, end) =
        ([whole.rows[0][2], whole.rows[0][3]], whole.rows.last().map_or([0; 2], |r| [r[4], r[5]]));
    let mut point = points::point(rng, if back { end } else { begin }, position);
    if rng.once_in(8) {
        points::damage(rng, &mut point);
    }
    point
}

/// An empty chain of like profile changes nothing, on either side.
fn empty(c: &mut Comparison, chain: &Chain, tried: &mut Tried) -> Outcome {
    let none = Chain { rows: Vec::new(), ..chain.clone() };
    if joined(&c.reference, chain, &none).is_err() {
        return Ok(());
    }
    tried.with_an_empty_chain += 1;
    for s in c.all() {
        let same = Ok(chain.numbers());
        if joined(s, chain, &none) != same || joined(s, &none, chain) != same {
            let name = s.name();
            return Err(Mismatch(format!("{name} joins an empty chain to {} otherwise", shown(&[chain]))));
        }
    }
    Ok(())
}

/// Three chains: where one bracketing is accepted so is the other, with the same chain.
fn bracketed(c: &mut Comparison, tried: &mut Tried) -> Outcome {
    let lengths: [usize; 3] = std::array::from_fn(|_| c.rng.index(4));
    let mut one = c.chains.good(&mut c.rng, lengths[0]);
    let two = c.chains.good_after(&mut c.rng, &one, lengths[1]);
    let mut three = c.chains.good_after(&mut c.rng, &two, lengths[2]);
    if c.rng.once_in(6) {
        one.damage(&mut c.rng);
    }
    if c.rng.once_in(6) {
        three.damage(&mut c.rng);
    }
    let years = [one.profile, two.profile, three.profile];
    let [a, b, d] = [one.numbers(), two.numbers(), three.numbers()];
    for s in c.all() {
        let left = s.join([years[0], years[1]], &a, &b).and_then(|ab| s.join([years[0], years[2]], &ab, &d));
        let right = s.join([years[1], years[2]], &b, &d).and_then(|bd| s.join([years[0], years[1]], &a, &bd));
        if left != right && (left.is_ok() || right.is_ok()) {
            let name = s.name();
            let input = shown(&[&one, &two, &three]);
            return Err(Mismatch(format!(
                "three chains {input}\n  {name} from the left {left:?}\n  from the right {right:?}"
            )));
        }
        tried.triples += u64::from(left.is_ok() && s.name() == "independent");
    }
    Ok(())
}
