//! Lawful deliveries whose ids and codes are chosen against the library's table of hints (crates/index, hint.rt): a key's first place
//! there is its remainder by one prime, and its first step its quotient's remainder by another, so that keys may share a place, or be
//! on one way of places that few of them can have.

use crate::throughout::Case;
use deliveries::Model;
use std::collections::BTreeMap;

const PLACES: u64 = 32_749;
const STEPS: u64 = 32_719;
/// Keys that are equal by it share all their places.
const PERIOD: u64 = PLACES * STEPS;
/// The step after which the next one is the same.
const STEADY: u64 = 24_539;
/// So many keys of ids share a place and the steady step.
const TURNS: u64 = 9;

/// The lines of the lawful deliveries, without composites and with them.
pub const FULL: &str = "OK 16384 16384 16384 16384 16384 16384 16384 00000";
pub const FULL_COMPOSED: &str = "OK 16384 16384 16384 16384 16384 16384 16384 16384";

pub const HOSTILE: [Case; 15] = [
    ("ids of OB_PUN from one place", FULL, |model| {
        name_points(model, from_one_place)
    }),
    ("ids of OB_TEX from one place", FULL, |model| {
        name_texts(model, from_one_place)
    }),
    ("ids of OB_LIN from one place", FULL, |model| {
        name_linears(model, from_one_place)
    }),
    ("ids of TRAMO from one place", FULL, |model| {
        name_tramos(model, from_one_place)
    }),
    ("ids of lines from one place", FULL, |model| {
        name_lines(model, from_one_place)
    }),
    ("ids of NODO from one place", FULL, |model| {
        name_nodes(model, from_one_place)
    }),
    ("ids of OB_PUN on one way", FULL, |model| {
        name_points(model, on_one_way)
    }),
    ("ids of OB_TEX on one way", FULL, |model| {
        name_texts(model, on_one_way)
    }),
    ("ids of OB_LIN on one way", FULL, |model| {
        name_linears(model, on_one_way)
    }),
    ("ids of TRAMO on one way", FULL, |model| {
        name_tramos(model, on_one_way)
    }),
    ("ids of lines on one way", FULL, |model| {
        name_lines(model, on_one_way)
    }),
    ("ids of NODO on one way", FULL, |model| {
        name_nodes(model, on_one_way)
    }),
    ("keys of VERTICE on one way", FULL, |model| {
        name_lines(model, with_keys_on_one_way)
    }),
    ("codes that share all places", FULL, share_all_places),
    ("ids and codes of all files", FULL, |model| {
        name_points(model, on_one_way);
        name_texts(model, on_one_way);
        name_linears(model, on_one_way);
        name_tramos(model, on_one_way);
        name_lines(model, with_keys_on_one_way);
        name_nodes(model, on_one_way);
        share_all_places(model);
    }),
];

/// Those that are made of a delivery with composites.
pub const HOSTILE_COMPOSED: [Case; 2] = [
    ("ids of OB_COMP from one place", FULL_COMPOSED, |model| {
        name_composites(model, from_one_place)
    }),
    ("ids of OB_COMP on one way", FULL_COMPOSED, |model| {
        name_composites(model, on_one_way)
    }),
];

/// Ids by their number, counted from 0. The key of an id is one more.
type Ids = fn(u64) -> u64;

fn from_one_place(number: u64) -> u64 {
    number * PLACES + 6
}

/// Each key's places are those that follow on one way, which has few more places than a ninth of the keys.
fn way(number: u64) -> u64 {
    number / TURNS * STEADY % PLACES + (STEADY - 1) * PLACES
}

fn on_one_way(number: u64) -> u64 {
    way(number) + number % TURNS * PERIOD - 1
}

/// A line whose vertex of order 1 is on the way: the vertex's key is 100,000 times the line's and the order.
fn with_keys_on_one_way(number: u64) -> u64 {
    let least = (way(number) - 1) * inverse(100_000) % PERIOD;
    least + number % TURNS * PERIOD - 1
}

/// What the number is to be multiplied by for 1, by the period: its power of one less than the period's count of units.
fn inverse(number: u64) -> u64 {
    let mut left = (PLACES - 1) * (STEPS - 1) - 1;
    let (mut power, mut product) = (number % PERIOD, 1);
    while left > 0 {
        if left % 2 == 1 {
            product = product * power % PERIOD;
        }
        power = power * power % PERIOD;
        left /= 2;
    }
    product
}

/// The new names of these, in their order.
fn renamed<T: Ord>(old: impl Iterator<Item = T>, ids: Ids) -> BTreeMap<T, u64> {
    let mut names = BTreeMap::new();
    for name in old {
        let next = ids(names.len() as u64);
        names.entry(name).or_insert(next);
    }
    names
}

fn name_points(model: &mut Model, ids: Ids) {
    for (number, point) in model.ob_pun.iter_mut().enumerate() {
        point.id_opun = ids(number as u64);
    }
}

fn name_texts(model: &mut Model, ids: Ids) {
    for (number, text) in model.ob_tex.iter_mut().enumerate() {
        text.id_otex = ids(number as u64);
    }
}

fn name_linears(model: &mut Model, ids: Ids) {
    let names = renamed(model.ob_lin.iter().map(|linear| linear.id_olin), ids);
    for linear in &mut model.ob_lin {
        linear.id_olin = names[&linear.id_olin];
    }
    for tramo in &mut model.tramo {
        tramo.id_olin = names[&tramo.id_olin];
    }
}

fn name_tramos(model: &mut Model, ids: Ids) {
    for (number, tramo) in model.tramo.iter_mut().enumerate() {
        tramo.id_linea = Some(tramo.line());
        tramo.id_tramo = ids(number as u64);
    }
}

fn name_lines(model: &mut Model, ids: Ids) {
    let names = renamed(model.vertice.iter().map(|vertex| vertex.id_linea), ids);
    for vertex in &mut model.vertice {
        vertex.id_linea = names[&vertex.id_linea];
    }
    for tramo in &mut model.tramo {
        tramo.id_linea = Some(names[&tramo.line()]);
    }
}

fn name_nodes(model: &mut Model, ids: Ids) {
    let names = renamed(model.nodo.iter().map(|node| node.id_nodo), ids);
    for node in &mut model.nodo {
        node.id_nodo = names[&node.id_nodo];
    }
    for tramo in &mut model.tramo {
        tramo.id_nodoi = names[&tramo.id_nodoi];
        tramo.id_nodof = names[&tramo.id_nodof];
    }
    for point in &mut model.ob_pun {
        point.id_nodo = point.id_nodo.map(|id| names[&id]);
    }
}

fn name_composites(model: &mut Model, ids: Ids) {
    let names = renamed(
        model.ob_comp.iter().map(|composite| composite.id_ocomp),
        ids,
    );
    for composite in &mut model.ob_comp {
        composite.id_ocomp = names[&composite.id_ocomp];
    }
    for member in model.memberships() {
        *member = member.map(|id| names[&id]);
    }
}

/// Codes of seven visible bytes. A code's key is its bytes as one number, so that a period apart they share all places.
fn codes() -> impl Iterator<Item = Vec<u8>> {
    let numbers = (0x21_21_21_21_21_21_21u64..).step_by(PERIOD as usize);
    let codes = numbers.map(|number| number.to_be_bytes()[1..].to_vec());
    codes.filter(|code| code.iter().all(|byte| (0x21..0x7F).contains(byte)))
}

fn share_all_places(model: &mut Model) {
    let old = model.catalogo.iter().map(|record| record.codigo.clone());
    let names: BTreeMap<Vec<u8>, Vec<u8>> = old.zip(codes()).collect();
    let catalogue = model.catalogo.iter_mut().map(|record| &mut record.codigo);
    let points = model.ob_pun.iter_mut().map(|record| &mut record.codigo);
    let texts = model.ob_tex.iter_mut().map(|record| &mut record.codigo);
    let linears = model.ob_lin.iter_mut().map(|record| &mut record.codigo);
    let tramos = model.tramo.iter_mut().map(|record| &mut record.codigo);
    for code in catalogue
        .chain(points)
        .chain(texts)
        .chain(linears)
        .chain(tramos)
    {
        *code = names[code].clone();
    }
}
