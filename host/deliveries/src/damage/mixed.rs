//! Values drawn anew, so that several breaks of one ten meet in one delivery.

use std::collections::BTreeSet;

use super::{strike, ValueStep};
use crate::graft::{composite_ids, line_ids, linear_ids, node_ids};
use crate::model::{Model, Tramo};
use crate::random::Random;
use crate::values::fresh_id;

/// The keys stay different, or nothing past them would be read.
pub const MIXED_ORDERS: &[ValueStep] = &[|random, model| {
    strike(random.one_of(model.lines()), |line| {
        let course = model.line_vertices(line);
        let before = model.vertice.clone();
        while model.vertice == before {
            let mut orders: Vec<u64> = (0..course.len() as u64 + 2).collect();
            random.shuffle(&mut orders);
            for (&vertex, order) in course.iter().zip(orders) {
                model.vertice[vertex].no_orden = order;
            }
        }
    })
}];

pub const MIXED_TRAMO: &[ValueStep] = &[|random, model| {
    let tramos = (0..model.tramo.len()).collect();
    strike(random.one_of(tramos), |place: usize| {
        let before = model.tramo[place].clone();
        while model.tramo[place] == before {
            model.tramo[place] = redraw(random, model, &before);
        }
    })
}];

fn redraw(random: &mut Random, model: &Model, tramo: &Tramo) -> Tramo {
    let line = known_or_fresh(random, &line_ids(model));
    Tramo {
        id_olin: known_or_fresh(random, &linear_ids(model)),
        id_linea: random.pick(&[None, Some(tramo.id_tramo), Some(line)]),
        id_nodoi: known_or_fresh(random, &node_ids(model)),
        id_nodof: known_or_fresh(random, &node_ids(model)),
        ..tramo.clone()
    }
}

/// Where all that are named are there, some composites are left without a
/// member, several at once.
pub const MIXED_COMPOSITES: &[ValueStep] = &[|random, model| {
    let known: Vec<u64> = composite_ids(model).into_iter().collect();
    let before = model.clone();
    if known.is_empty() || model.memberships().is_empty() {
        return false;
    }
    while *model == before {
        let one = random.pick(&known);
        for member in model.memberships() {
            *member = match random.below(3) {
                0 => None,
                1 => Some(one),
                _ => Some(random.pick(&known)),
            };
        }
    }
    true
}];

fn known_or_fresh(random: &mut Random, known: &BTreeSet<u64>) -> u64 {
    if random.chance(1, 8) {
        return fresh_id(random, known);
    }
    let ids: Vec<u64> = known.iter().copied().collect();
    random.pick(&ids)
}
