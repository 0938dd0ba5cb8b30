//! Deliveries in which every record of a file breaks one rule of 50 to 58, or as many records as the rule allows, and one with a single
//! twin. Each is made of a lawful one, and nothing else is broken: where nodes become what they weren't, they have no codes.

use super::Case;
use deliveries::{Kind, Kinds, Model, Nodo, Posicion, Random};
use std::collections::{BTreeMap, BTreeSet};

pub const ASTRAY: [Case; 12] = [
    ("50, each second order", "NO 50 6 00001 02", |model| {
        blank_codes(model);
        for vertex in &mut model.vertice {
            vertex.no_orden *= 2;
        }
    }),
    (
        "51, lines of one vertex",
        "NO 51 6 00001 02",
        single_vertices,
    ),
    ("52, all start elsewhere", "NO 52 5 00001 06", |model| {
        blank_codes(model);
        let elsewhere = elsewhere(model);
        for tramo in &mut model.tramo {
            tramo.id_nodoi = elsewhere[&tramo.id_nodoi];
        }
    }),
    ("53, all end elsewhere", "NO 53 5 00001 07", |model| {
        blank_codes(model);
        let elsewhere = elsewhere(model);
        for tramo in &mut model.tramo {
            tramo.id_nodof = elsewhere[&tramo.id_nodof];
        }
    }),
    ("54, all at one place", "NO 54 7 00002 00", |model| {
        blank_codes(model);
        let here = model.nodo[0].posicion;
        for point in &mut model.ob_pun {
            point.posicion = here;
        }
        for vertex in &mut model.vertice {
            vertex.posicion = here;
        }
        for node in &mut model.nodo {
            node.posicion = here;
        }
    }),
    ("54, each place twice", "NO 54 7 08193 00", places_twice),
    (
        "54, one twin at the far end",
        "NO 54 7 16384 00",
        last_is_twin,
    ),
    (
        "55, all points elsewhere",
        "NO 55 2 00001 03",
        points_elsewhere,
    ),
    ("56, all nodes but one idle", "NO 56 7 00001 00", idle_nodes),
    (
        "57, all tramos of one object",
        "NO 57 4 00002 00",
        |model| {
            let id = model.ob_lin[0].id_olin;
            for tramo in &mut model.tramo {
                tramo.id_olin = id;
            }
        },
    ),
    ("58, all codes disagree", "NO 58 7 00001 02", |model| {
        recode(model, |kind| match kind {
            Kind::Isolated => b'C',
            Kind::End => b'H',
            Kind::Intermediate => b'E',
            Kind::Both => b'I',
        });
    }),
    (
        "58, isolated where they aren't",
        "NO 58 7 00001 02",
        |model| {
            recode(
                model,
                |kind| {
                    if kind == Kind::Isolated {
                        b'E'
                    } else {
                        b'A'
                    }
                },
            );
        },
    ),
];

/// Each node's code by what it is.
fn recode(model: &mut Model, code: fn(Kind) -> u8) {
    let kinds = Kinds::of(model);
    for node in &mut model.nodo {
        node.tipo = code(kinds.kind(node));
    }
}

fn blank_codes(model: &mut Model) {
    for node in &mut model.nodo {
        node.tipo = b' ';
    }
}

/// Each tramo has a line of its own with a single vertex, at the node where it both begins and ends.
fn single_vertices(model: &mut Model) {
    blank_codes(model);
    for (place, tramo) in model.tramo.iter_mut().enumerate() {
        let node = &model.nodo[place];
        tramo.id_linea = None;
        tramo.id_nodoi = node.id_nodo;
        tramo.id_nodof = node.id_nodo;
        let vertex = &mut model.vertice[place];
        vertex.id_linea = tramo.id_tramo;
        vertex.no_orden = 1;
        vertex.posicion = node.posicion;
    }
    Random::new(51).shuffle(&mut model.vertice);
}

/// For each node another one with another X or Y.
fn elsewhere(model: &Model) -> BTreeMap<u64, u64> {
    let nodes = &model.nodo;
    let after = |place: usize| {
        let mut others = (1..nodes.len()).map(|step| &nodes[(place + step) % nodes.len()]);
        let other = others.find(|other| other.posicion.xy() != nodes[place].posicion.xy());
        (nodes[place].id_nodo, other.unwrap().id_nodo)
    };
    (0..nodes.len()).map(after).collect()
}

/// The second half of the nodes stand where the first half do, one by one. Lines of two vertices go from each place to the next.
fn places_twice(model: &mut Model) {
    blank_codes(model);
    let half = model.nodo.len() / 2;
    for place in 0..half {
        model.nodo[half + place].posicion = model.nodo[place].posicion;
    }
    for point in &mut model.ob_pun {
        point.id_nodo = None;
    }
    for (place, tramo) in model.tramo.iter_mut().enumerate() {
        tramo.id_linea = Some((place % half) as u64);
        tramo.id_nodoi = model.nodo[place % half].id_nodo;
        tramo.id_nodof = model.nodo[(place + 1) % half].id_nodo;
    }
    for (place, vertex) in model.vertice.iter_mut().enumerate() {
        let (line, end) = (place / 2, place % 2);
        vertex.id_linea = line as u64;
        vertex.no_orden = end as u64 + 1;
        vertex.posicion = model.nodo[(line + end) % half].posicion;
    }
    Random::new(54).shuffle(&mut model.vertice);
}

/// A node that no tramo names goes to the end of its file and to the place of one that a tramo names, with the point objects on it.
fn last_is_twin(model: &mut Model) {
    blank_codes(model);
    let named: BTreeSet<u64> = model
        .tramo
        .iter()
        .flat_map(|tramo| [tramo.id_nodoi, tramo.id_nodof])
        .collect();
    let is_named = |node: &Nodo| named.contains(&node.id_nodo);
    let last = model.nodo.len() - 1;
    let loose = model.nodo.iter().position(|node| !is_named(node)).unwrap();
    model.nodo.swap(loose, last);
    let here = model
        .nodo
        .iter()
        .find(|node| is_named(node))
        .unwrap()
        .posicion;
    model.nodo[last].posicion = here;
    for point in &mut model.ob_pun {
        if point.id_nodo == Some(model.nodo[last].id_nodo) {
            point.posicion = here;
        }
    }
}

/// Each point object names a node and stands beside it.
fn points_elsewhere(model: &mut Model) {
    let places: BTreeMap<u64, Posicion> = model
        .nodo
        .iter()
        .map(|node| (node.id_nodo, node.posicion))
        .collect();
    for (point, node) in model.ob_pun.iter_mut().zip(&model.nodo) {
        let id = point.id_nodo.unwrap_or(node.id_nodo);
        point.id_nodo = Some(id);
        point.posicion = places[&id];
        point.posicion.x = beside(places[&id].x);
    }
}

fn beside(x: Option<i64>) -> Option<i64> {
    x.map(|x| if x > 0 { x - 1 } else { x + 1 })
}

/// All tramos begin and end at the last node. No other node has a vertex at its place or a point object on it.
fn idle_nodes(model: &mut Model) {
    blank_codes(model);
    let places: BTreeSet<_> = model.nodo.iter().map(|node| node.posicion.xy()).collect();
    let held = &model.nodo[model.nodo.len() - 1];
    let mut highest: BTreeMap<u64, u64> = BTreeMap::new();
    for vertex in &model.vertice {
        let most = highest.entry(vertex.id_linea).or_default();
        *most = vertex.no_orden.max(*most);
    }
    let mut free = (1..)
        .map(|x| Posicion::at((x, -5_000_000_000), None))
        .filter(|place| !places.contains(&place.xy()));
    for vertex in &mut model.vertice {
        if vertex.no_orden == 1 || vertex.no_orden == highest[&vertex.id_linea] {
            vertex.posicion = held.posicion;
        } else if places.contains(&vertex.posicion.xy()) {
            vertex.posicion = free.next().unwrap();
        }
    }
    for tramo in &mut model.tramo {
        tramo.id_nodoi = held.id_nodo;
        tramo.id_nodof = held.id_nodo;
    }
    for point in &mut model.ob_pun {
        point.id_nodo = None;
    }
}
