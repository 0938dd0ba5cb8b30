//! Lawful additions to a delivery: a piece with everything in it, for a damage
//! that finds no place to strike, and the filling of one file up to a count.

use std::collections::BTreeSet;

use crate::kinds::mend_codes;
use crate::layout::{
    CATALOGO, FILES, NODO, OB_COMP, OB_LIN, OB_PUN, OB_TEX, TRAMO, TYPES, VERTICE,
};
use crate::model::{Catalogo, Model, Nodo, ObComp, ObLin, ObPun, ObTex, Posicion, Tramo, Vertice};
use crate::random::Random;
use crate::values::{fresh_code, fresh_id, text, ID_MOST, X_MOST, Y_MOST};

// Every id of a role that occurs, also in references that name nothing, so
// that what is added stays apart from what was damaged before.

pub fn node_ids(model: &Model) -> BTreeSet<u64> {
    let mut ids = node_ids_in_use(model);
    ids.extend(model.nodo.iter().map(|node| node.id_nodo));
    ids
}

/// The node ids that tramos and point objects name.
pub fn node_ids_in_use(model: &Model) -> BTreeSet<u64> {
    let starts = model.tramo.iter().map(|tramo| tramo.id_nodoi);
    let ends = model.tramo.iter().map(|tramo| tramo.id_nodof);
    let named = model.ob_pun.iter().filter_map(|point| point.id_nodo);
    starts.chain(ends).chain(named).collect()
}

pub fn linear_ids(model: &Model) -> BTreeSet<u64> {
    let own = model.ob_lin.iter().map(|linear| linear.id_olin);
    let named = model.tramo.iter().map(|tramo| tramo.id_olin);
    own.chain(named).collect()
}

pub fn tramo_ids(model: &Model) -> BTreeSet<u64> {
    model.tramo.iter().map(|tramo| tramo.id_tramo).collect()
}

pub fn line_ids(model: &Model) -> BTreeSet<u64> {
    let own = model.vertice.iter().map(|vertex| vertex.id_linea);
    let used = model.tramo.iter().map(Tramo::line);
    own.chain(used).collect()
}

pub fn point_ids(model: &Model) -> BTreeSet<u64> {
    model.ob_pun.iter().map(|point| point.id_opun).collect()
}

pub fn text_ids(model: &Model) -> BTreeSet<u64> {
    model.ob_tex.iter().map(|text| text.id_otex).collect()
}

pub fn composite_ids(model: &Model) -> BTreeSet<u64> {
    let own = model.ob_comp.iter().map(|composite| composite.id_ocomp);
    own.chain(model.composites_named()).collect()
}

pub fn codes(model: &Model) -> BTreeSet<Vec<u8>> {
    let mut codes = codes_in_use(model);
    codes.extend(model.catalogo.iter().map(|record| record.codigo.clone()));
    codes
}

/// The codes that objects and tramos have.
pub fn codes_in_use(model: &Model) -> BTreeSet<Vec<u8>> {
    let points = model.ob_pun.iter().map(|record| &record.codigo);
    let texts = model.ob_tex.iter().map(|record| &record.codigo);
    let linears = model.ob_lin.iter().map(|record| &record.codigo);
    let tramos = model.tramo.iter().map(|record| &record.codigo);
    let composites = model.ob_comp.iter().map(|record| &record.codigo);
    let objects = points.chain(texts).chain(linears).chain(composites);
    objects.chain(tramos).cloned().collect()
}

/// Puts a record anywhere in its file.
pub fn slip_in<T>(random: &mut Random, records: &mut Vec<T>, record: T) {
    let place = random.index(records.len() + 1);
    records.insert(place, record);
}

/// A place where neither vertex nor node stands.
pub fn free_place(random: &mut Random, model: &Model) -> (i64, i64) {
    loop {
        let place = (
            random.between(-X_MOST, X_MOST),
            random.between(-Y_MOST, Y_MOST),
        );
        let xy = (Some(place.0), Some(place.1));
        if !model.has_vertex_at(xy) && !model.nodo.iter().any(|node| node.posicion.xy() == xy) {
            return place;
        }
    }
}

/// Adds a lawful piece with at least one record in each file: a line of so
/// many vertices at different places, its tramo and linear object, its two end
/// nodes, a point object on the first of them and one on its own, a text, a
/// composite of some of these or of all, and a new code for each.
pub fn graft(random: &mut Random, model: &mut Model, vertices: usize) {
    let code_of_type: Vec<Vec<u8>> = TYPES
        .iter()
        .map(|&tipo| graft_code(random, model, tipo))
        .collect();
    let course: Vec<(i64, i64)> = (0..vertices).map(|_| free_place(random, model)).collect();
    let start = graft_node(random, model, course[0]);
    let end = graft_node(random, model, course[vertices - 1]);
    let id_olin = fresh_id(random, &linear_ids(model));
    let mut line_or_tramo = line_ids(model);
    line_or_tramo.extend(tramo_ids(model));
    let id_tramo = fresh_id(random, &line_or_tramo);
    for (before, &place) in course.iter().enumerate() {
        let vertex = Vertice {
            id_linea: id_tramo,
            no_orden: before as u64 + 1,
            posicion: Posicion::at(place, None),
        };
        slip_in(random, &mut model.vertice, vertex);
    }
    let tramo = Tramo {
        id_tramo,
        id_olin,
        id_perim: None,
        id_linea: None,
        codigo: code_of_type[3].clone(),
        id_nodoi: start,
        id_nodof: end,
        sentido: random.pick(b"+- "),
    };
    slip_in(random, &mut model.tramo, tramo);
    let composite = graft_composite(random, model, &code_of_type[4]);
    let linear = ObLin {
        id_olin,
        id_ocomp: Some(composite).filter(|_| random.chance(1, 2)),
        codigo: code_of_type[2].clone(),
        nombre_i: text(random, 60),
        centroide: Posicion::default(),
    };
    slip_in(random, &mut model.ob_lin, linear);
    graft_point(random, model, &code_of_type[0], Some(start), course[0]);
    let elsewhere = free_place(random, model);
    graft_point(random, model, &code_of_type[0], None, elsewhere);
    graft_text(random, model, &code_of_type[1], elsewhere);
    join(random, model, composite);
}

/// Some object belongs to the composite: one that belonged to none, as the
/// point objects and the text of a graft do.
fn join(random: &mut Random, model: &mut Model, composite: u64) {
    let mut free = model.memberships();
    free.retain(|membership| membership.is_none());
    let joins = random.one_of(free);
    *joins.expect("a graft has objects without a composite") = Some(composite);
}

fn graft_composite(random: &mut Random, model: &mut Model, codigo: &[u8]) -> u64 {
    let id_ocomp = fresh_id(random, &composite_ids(model));
    let composite = ObComp {
        id_ocomp,
        codigo: codigo.to_vec(),
        nombre_i: text(random, 60),
        centroide: Posicion::default(),
    };
    slip_in(random, &mut model.ob_comp, composite);
    id_ocomp
}

fn graft_code(random: &mut Random, model: &mut Model, tipo: u8) -> Vec<u8> {
    let codigo = fresh_code(random, &codes(model));
    let record = Catalogo {
        codigo: codigo.clone(),
        tipo,
        nombre_c: text(random, 60),
        definici: text(random, 60),
    };
    slip_in(random, &mut model.catalogo, record);
    codigo
}

fn graft_node(random: &mut Random, model: &mut Model, place: (i64, i64)) -> u64 {
    let id_nodo = fresh_id(random, &node_ids(model));
    let node = Nodo {
        id_nodo,
        tipo: b'E',
        posicion: Posicion::at(place, None),
    };
    slip_in(random, &mut model.nodo, node);
    id_nodo
}

fn graft_point(
    random: &mut Random,
    model: &mut Model,
    codigo: &[u8],
    id_nodo: Option<u64>,
    place: (i64, i64),
) {
    let point = ObPun {
        id_opun: fresh_id(random, &point_ids(model)),
        id_ocomp: None,
        id_nodo,
        codigo: codigo.to_vec(),
        nombre_i: text(random, 60),
        orientac: None,
        magnific: Some(1),
        posicion: Posicion::at(place, Some(0)),
    };
    slip_in(random, &mut model.ob_pun, point);
}

fn graft_text(random: &mut Random, model: &mut Model, codigo: &[u8], place: (i64, i64)) {
    let record = ObTex {
        id_otex: fresh_id(random, &text_ids(model)),
        id_ocomp: None,
        codigo: codigo.to_vec(),
        literal: text(random, 60),
        altura: Some(0),
        anchura: None,
        orientac: Some(35_959),
        justifi: Some(9),
        posicion: Posicion::at(place, None),
    };
    slip_in(random, &mut model.ob_tex, record);
}

/// Fills a file with lawful records up to the count. Filling OB_LIN fills
/// TRAMO as well, since each linear object wants a tramo, and filling OB_COMP
/// fills OB_PUN, since each composite wants an object.
pub fn fill(random: &mut Random, model: &mut Model, file: usize, count: usize) {
    graft(random, model, 3);
    match file {
        CATALOGO => fill_catalogo(model, count),
        OB_PUN => fill_ob_pun(model, count),
        OB_TEX => fill_ob_tex(model, count),
        OB_LIN => fill_ob_lin(model, count),
        TRAMO => fill_tramo(model, count),
        VERTICE => fill_vertice(random, model, count),
        NODO => fill_nodo(model, count),
        OB_COMP => fill_ob_comp(model, count),
        _ => panic!("there are {FILES} files"),
    }
    // What was added may pass by nodes that were there.
    mend_codes(random, model);
    crate::lawful::shuffle_files(random, model);
}

fn unused<'a>(taken: &'a BTreeSet<u64>) -> impl Iterator<Item = u64> + 'a {
    (0..=ID_MOST).filter(move |id| !taken.contains(id))
}

fn fill_catalogo(model: &mut Model, count: usize) {
    let taken = codes(model);
    let mut numbers = (0..10_000_000).map(|number| format!("{:07}", number).into_bytes());
    while model.catalogo.len() < count {
        let codigo = numbers.find(|code| !taken.contains(code)).unwrap();
        model.catalogo.push(Catalogo {
            codigo,
            tipo: TYPES[model.catalogo.len() % TYPES.len()],
            nombre_c: Vec::new(),
            definici: Vec::new(),
        });
    }
}

fn fill_ob_pun(model: &mut Model, count: usize) {
    let taken = point_ids(model);
    let like = model.ob_pun[0].clone();
    let missing = count.saturating_sub(model.ob_pun.len());
    model
        .ob_pun
        .extend(unused(&taken).take(missing).map(|id_opun| ObPun {
            id_opun,
            ..like.clone()
        }));
}

fn fill_ob_tex(model: &mut Model, count: usize) {
    let taken = text_ids(model);
    let like = model.ob_tex[0].clone();
    let missing = count.saturating_sub(model.ob_tex.len());
    model
        .ob_tex
        .extend(unused(&taken).take(missing).map(|id_otex| ObTex {
            id_otex,
            ..like.clone()
        }));
}

/// More tramos over one line.
fn fill_tramo(model: &mut Model, count: usize) {
    let taken = tramo_ids(model);
    let like = model.tramo[0].clone();
    let missing = count.saturating_sub(model.tramo.len());
    model
        .tramo
        .extend(unused(&taken).take(missing).map(|id_tramo| Tramo {
            id_tramo,
            id_linea: Some(like.line()),
            ..like.clone()
        }));
}

/// Every tramo that shares its linear object gets one of its own.
fn fill_ob_lin(model: &mut Model, count: usize) {
    fill_tramo(model, count);
    let taken = linear_ids(model);
    let like = model.ob_lin[0].clone();
    let mut fresh = unused(&taken);
    let mut named = BTreeSet::new();
    for tramo in &mut model.tramo {
        if !named.insert(tramo.id_olin) {
            tramo.id_olin = fresh.next().unwrap();
            model.ob_lin.push(ObLin {
                id_olin: tramo.id_olin,
                ..like.clone()
            });
        }
    }
}

/// Every point object whose composite has another member gets one of its own.
fn fill_ob_comp(model: &mut Model, count: usize) {
    fill_ob_pun(model, count);
    let taken = composite_ids(model);
    let like = model.ob_comp[0].clone();
    let mut fresh = unused(&taken);
    let mut named: BTreeSet<Option<u64>> = BTreeSet::from([None]);
    named.extend(model.ob_tex.iter().map(|text| text.id_ocomp));
    named.extend(model.ob_lin.iter().map(|linear| linear.id_ocomp));
    for point in &mut model.ob_pun {
        if model.ob_comp.len() < count && !named.insert(point.id_ocomp) {
            let id_ocomp = fresh.next().unwrap();
            point.id_ocomp = Some(id_ocomp);
            model.ob_comp.push(ObComp {
                id_ocomp,
                ..like.clone()
            });
        }
    }
}

/// One line grows in its middle: its last vertex becomes the last of many.
fn fill_vertice(random: &mut Random, model: &mut Model, count: usize) {
    let missing = count.saturating_sub(model.vertice.len());
    let line = model.tramo[0].line();
    let last = model.vertex_of_highest_order(line).unwrap();
    let first_new = model.vertice[last].no_orden;
    model.vertice[last].no_orden += missing as u64;
    for step in 0..missing as u64 {
        model.vertice.push(Vertice {
            id_linea: line,
            no_orden: first_new + step,
            posicion: Posicion::at((random.between(0, 999_999), 0), None),
        });
    }
}

/// A tower of nodes over one vertex, each at its own height.
fn fill_nodo(model: &mut Model, count: usize) {
    let taken = node_ids(model);
    let place = model.vertice[0].posicion;
    let heights: BTreeSet<Option<i64>> = model
        .nodo
        .iter()
        .filter(|node| node.posicion.xy() == place.xy())
        .map(|node| node.posicion.z)
        .collect();
    let missing = count.saturating_sub(model.nodo.len());
    let free = (-9_999_999..).map(Some).filter(|z| !heights.contains(z));
    let tower = unused(&taken).zip(free).take(missing);
    model.nodo.extend(tower.map(|(id_nodo, z)| Nodo {
        id_nodo,
        tipo: b' ',
        posicion: Posicion { z, ..place },
    }));
}
