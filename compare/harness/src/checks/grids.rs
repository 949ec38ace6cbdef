//! Velocities from a grid: the three parts and the V step, and a grid's refusal with its line and place.

use crate::compare::{shown, Comparison, Mismatch, Outcome};
use crate::gen::grids::{self, Grid};
use crate::subject::{Asked, Subject};
use crate::tally::Function;
use paper::numbers::steps;

pub fn run(c: &mut Comparison, count: u64) -> Outcome {
    let mut done = 0;
    while done < count {
        let grid = grids::grid(&mut c.rng);
        let text = grid.text();
        let points = if text.len() > 2000 { 2 } else { 8 };
        for _ in 0..points {
            let point = grid.point(&mut c.rng);
            let asked = grids::asked(&mut c.rng, point);
            compared(c, &text, &asked)?;
            between_its_nodes(c, &grid, &text, &asked)?;
        }
        if text.len() < 2000 || c.rng.once_in(10) {
            let bad = grids::spoiled(&mut c.rng, &grid);
            let point = grid.point(&mut c.rng);
            let asked = grids::asked(&mut c.rng, point);
            compared(c, &bad, &asked)?;
            let expected = c.reference.grid_fault(&bad);
            c.hold("fault of a grid", || shown(&bad), &expected, |s| s.grid_fault(&bad))?;
        }
        done += points;
    }
    Ok(())
}

fn compared(c: &mut Comparison, text: &[u8], asked: &Asked) -> Outcome {
    let expected = c.reference.grid_velocity(text, asked);
    c.tally.count(Function::Grid, &expected);
    let input = || format!("{} {asked:?}", shown(text));
    c.hold("velocity of a grid", input, &expected, |s| s.grid_velocity(text, asked))
}

/// Asked of every program by itself: a part lies between the least and the greatest of the nodes about the point, is
/// the node's own at a node, and the step is one that a chain takes.
fn between_its_nodes(c: &Comparison, grid: &Grid, text: &[u8], asked: &Asked) -> Outcome {
    let mesh = grid.units();
    let (north, east) = (asked.latitude - grid.corner[0], asked.longitude - grid.corner[1]);
    for s in c.all() {
        let Ok(answer) = s.grid_velocity(text, asked) else { continue };
        let about = |offset: i64| [offset.div_euclid(mesh), -(-offset).div_euclid(mesh)];
        let mut nodes = Vec::new();
        for row in about(north) {
            for column in about(east) {
                nodes.extend(grid.nodes[(row * grid.columns + column) as usize]);
            }
        }
        let within = (0..3).all(|i| {
            let values = || nodes.iter().map(|node| node[i]);
            (values().min()..=values().max()).contains(&Some(answer[i]))
        });
        let step = steps(&answer[3..]).expect("a whole row");
        if !within || nodes.len() != 4 || paper::chain::chain_faults(2021, &step).is_err() {
            let name = s.name();
            return Err(Mismatch(format!(
                "velocity of a grid {} {asked:?}\n  {name} gives {answer:?} among {nodes:?}",
                shown(text)
            )));
        }
    }
    Ok(())
}
