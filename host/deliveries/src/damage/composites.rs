//! Composite ids that name nothing, composites that nothing names, and the
//! near misses of both: reasons 40 and 70.

use super::topology::ids_of_other_files;
use super::{places_where, strike, ValueStep};
use crate::graft::{composite_ids, slip_in};
use crate::model::{Model, ObComp};
use crate::random::Random;
use crate::values::{fresh_id, ID_MOST};

// Reason 40.

pub const UNKNOWN_COMPOSITE: &[ValueStep] = &[
    |random, model| {
        let id = unknown_id(random, model);
        let objects = model.ob_pun.iter_mut().map(|point| &mut point.id_ocomp);
        strike(random.one_of(objects.collect()), |named| *named = Some(id))
    },
    |random, model| {
        let id = unknown_id(random, model);
        let objects = model.ob_tex.iter_mut().map(|text| &mut text.id_ocomp);
        strike(random.one_of(objects.collect()), |named| *named = Some(id))
    },
    |random, model| {
        let id = unknown_id(random, model);
        let objects = model.ob_lin.iter_mut().map(|linear| &mut linear.id_ocomp);
        strike(random.one_of(objects.collect()), |named| *named = Some(id))
    },
    |random, model| {
        let named = model.composites_named();
        let places = places_where(&model.ob_comp, |composite| {
            named.contains(&composite.id_ocomp)
        });
        strike(random.one_of(places), |place| {
            model.ob_comp.remove(place);
        })
    },
];

/// An id of no composite: 0, the largest, one of another file, or any.
fn unknown_id(random: &mut Random, model: &Model) -> u64 {
    let known = composite_ids(model);
    let mut wishes = ids_of_other_files(model);
    wishes.extend([0, ID_MOST]);
    let strange = wishes.difference(&known).copied().collect();
    match random.one_of(strange) {
        Some(id) if random.chance(2, 3) => id,
        _ => fresh_id(random, &known),
    }
}

// Reason 70.

pub const IDLE_COMPOSITE: &[ValueStep] = &[
    |random, model| {
        let id = fresh_id(random, &composite_ids(model));
        add_composite(random, model, id)
    },
    // Its id may well be that of an object, a tramo or a line.
    |random, model| {
        let ids = ids_of_other_files(model)
            .difference(&composite_ids(model))
            .copied()
            .collect();
        random
            .one_of(ids)
            .map_or(false, |id| add_composite(random, model, id))
    },
    |random, model| members_go(random, model, |_| None),
    |random, model| {
        model.ob_comp.len() > 1 && members_go(random, model, |others| others.last().copied())
    },
];

fn add_composite(random: &mut Random, model: &mut Model, id_ocomp: u64) -> bool {
    strike(random.one_of(model.ob_comp.clone()), |like| {
        slip_in(random, &mut model.ob_comp, ObComp { id_ocomp, ..like });
    })
}

/// All members of a composite leave it, for one of the others or for none.
fn members_go(random: &mut Random, model: &mut Model, to: fn(&[u64]) -> Option<u64>) -> bool {
    let mut ids: Vec<u64> = model.ob_comp.iter().map(|record| record.id_ocomp).collect();
    random.shuffle(&mut ids);
    strike(ids.pop(), |left| {
        for member in model.memberships() {
            if *member == Some(left) {
                *member = to(&ids);
            }
        }
    })
}

// Near misses.

pub const COMPOSITE_ADDED: &[ValueStep] = &[|random, model| {
    let id = fresh_id(random, &composite_ids(model));
    !model.ob_comp.is_empty()
        && strike(random.one_of(dispensable(model)), |member| {
            *member = Some(id)
        })
        && add_composite(random, model, id)
}];

pub const OBJECT_MOVES: &[ValueStep] = &[|random, model| {
    let mut to: Vec<Option<u64>> = model
        .ob_comp
        .iter()
        .map(|record| Some(record.id_ocomp))
        .collect();
    to.push(None);
    let mut pairs = Vec::new();
    for member in dispensable(model) {
        let mut others = to.clone();
        others.retain(|other| other != member);
        if let Some(other) = random.one_of(others) {
            pairs.push((member, other));
        }
    }
    strike(random.one_of(pairs), |(member, other)| *member = other)
}];

/// What names no composite, or one that another object names too.
fn dispensable(model: &mut Model) -> Vec<&mut Option<u64>> {
    let named = model.composites_named();
    let is_shared = |id: u64| named.iter().filter(|&&other| other == id).count() > 1;
    let mut members = model.memberships();
    members.retain(|member| member.map_or(true, is_shared));
    members
}
