//! Deliveries in which every record of a file breaks one rule of 30 to 41, or as many records as the rule allows. Each is made of a
//! lawful one, and nothing else is broken in a ten up to the rule's own.

use super::Case;
use deliveries::{Catalogo, Model, Nodo};
use std::collections::BTreeSet;

pub const REPEATED: [Case; 8] = [
    ("30, one key in CATALOGO", "NO 30 1 00002 01", |model| {
        let code = model.catalogo[0].codigo.clone();
        for record in &mut model.catalogo {
            record.codigo = code.clone();
        }
    }),
    ("30, one key in OB_PUN", "NO 30 2 00002 01", |model| {
        for point in &mut model.ob_pun {
            point.id_opun = 7;
        }
    }),
    ("30, one key in OB_TEX", "NO 30 3 00002 01", |model| {
        for text in &mut model.ob_tex {
            text.id_otex = 7;
        }
    }),
    ("30, one key in OB_LIN", "NO 30 4 00002 01", |model| {
        for linear in &mut model.ob_lin {
            linear.id_olin = 7;
        }
    }),
    ("30, one key in TRAMO", "NO 30 5 00002 01", |model| {
        for tramo in &mut model.tramo {
            tramo.id_tramo = 7;
        }
    }),
    ("30, one key in VERTICE", "NO 30 6 00002 02", |model| {
        for vertex in &mut model.vertice {
            vertex.id_linea = 7;
            vertex.no_orden = 1;
        }
    }),
    ("30, one key in NODO", "NO 30 7 00002 01", |model| {
        for node in &mut model.nodo {
            node.id_nodo = 7;
        }
    }),
    ("30, each key twice in NODO", "NO 30 7 08193 01", |model| {
        let half = model.nodo.len() / 2;
        for place in 0..half {
            model.nodo[half + place].id_nodo = model.nodo[place].id_nodo;
        }
    }),
];

pub const UNKNOWN: [Case; 14] = [
    ("40, ID_OCOMP of OB_PUN", "NO 40 2 00001 02", |model| {
        for point in &mut model.ob_pun {
            point.id_ocomp = Some(point.id_opun);
        }
    }),
    ("40, ID_NODO of OB_PUN", "NO 40 2 00001 03", |model| {
        for (point, id) in model.ob_pun.iter_mut().zip(strange_nodes(&model.nodo)) {
            point.id_nodo = Some(id);
        }
    }),
    ("40, CODIGO of OB_PUN", "NO 40 2 00001 04", |model| {
        for (point, code) in model.ob_pun.iter_mut().zip(strange_codes(&model.catalogo)) {
            point.codigo = code;
        }
    }),
    ("40, ID_OCOMP of OB_TEX", "NO 40 3 00001 02", |model| {
        for text in &mut model.ob_tex {
            text.id_ocomp = Some(text.id_otex);
        }
    }),
    ("40, CODIGO of OB_TEX", "NO 40 3 00001 03", |model| {
        for (text, code) in model.ob_tex.iter_mut().zip(strange_codes(&model.catalogo)) {
            text.codigo = code;
        }
    }),
    ("40, ID_OCOMP of OB_LIN", "NO 40 4 00001 02", |model| {
        for linear in &mut model.ob_lin {
            linear.id_ocomp = Some(linear.id_olin);
        }
    }),
    ("40, CODIGO of OB_LIN", "NO 40 4 00001 03", |model| {
        for (linear, code) in model.ob_lin.iter_mut().zip(strange_codes(&model.catalogo)) {
            linear.codigo = code;
        }
    }),
    ("40, ID_OLIN of TRAMO", "NO 40 5 00001 02", |model| {
        let taken = model.ob_lin.iter().map(|linear| linear.id_olin).collect();
        for (tramo, id) in model.tramo.iter_mut().zip(strange_ids(taken)) {
            tramo.id_olin = id;
        }
    }),
    ("40, ID_PERIM of TRAMO", "NO 40 5 00001 03", |model| {
        for tramo in &mut model.tramo {
            tramo.id_perim = Some(tramo.id_tramo);
        }
    }),
    ("40, ID_LINEA of TRAMO", "NO 40 5 00001 04", |model| {
        let taken = model.vertice.iter().map(|vertex| vertex.id_linea).collect();
        for (tramo, id) in model.tramo.iter_mut().zip(strange_ids(taken)) {
            tramo.id_linea = Some(id);
        }
    }),
    ("40, CODIGO of TRAMO", "NO 40 5 00001 05", |model| {
        for (tramo, code) in model.tramo.iter_mut().zip(strange_codes(&model.catalogo)) {
            tramo.codigo = code;
        }
    }),
    ("40, ID_NODOI of TRAMO", "NO 40 5 00001 06", |model| {
        for (tramo, id) in model.tramo.iter_mut().zip(strange_nodes(&model.nodo)) {
            tramo.id_nodoi = id;
        }
    }),
    ("40, ID_NODOF of TRAMO", "NO 40 5 00001 07", |model| {
        for (tramo, id) in model.tramo.iter_mut().zip(strange_nodes(&model.nodo)) {
            tramo.id_nodof = id;
        }
    }),
    ("40, ID_LINEA of VERTICE", "NO 40 6 00001 01", unused_lines),
];

pub const MISTYPED: [Case; 2] = [
    ("41, in files 2 to 5", "NO 41 2 00001 04", |model| {
        for record in &mut model.catalogo {
            record.tipo = match record.tipo {
                b'P' => b'X',
                b'X' => b'L',
                b'L' => b'T',
                _ => b'P',
            };
        }
    }),
    ("41, in TRAMO", "NO 41 5 00001 05", |model| {
        for (tramo, point) in model.tramo.iter_mut().zip(&model.ob_pun) {
            tramo.codigo = point.codigo.clone();
        }
    }),
];

/// Ids that aren't taken, each once.
pub fn strange_ids(taken: BTreeSet<u64>) -> impl Iterator<Item = u64> {
    (5_000_000_000..).filter(move |id| !taken.contains(id))
}

fn strange_nodes(nodes: &[Nodo]) -> impl Iterator<Item = u64> {
    strange_ids(nodes.iter().map(|node| node.id_nodo).collect())
}

/// Codes that the catalogue has not, each once.
pub fn strange_codes(catalogue: &[Catalogo]) -> impl Iterator<Item = Vec<u8>> {
    let taken: BTreeSet<Vec<u8>> = catalogue
        .iter()
        .map(|record| record.codigo.clone())
        .collect();
    let codes = (0..10_000_000).map(|number| format!("{number:07}").into_bytes());
    codes.filter(move |code| !taken.contains(code))
}

/// All tramos run along one line of two vertices, the last of the file. The other vertices are of lines that no tramo uses.
fn unused_lines(model: &mut Model) {
    let taken = model.vertice.iter().map(|vertex| vertex.id_linea).collect();
    let ids: Vec<u64> = strange_ids(taken).take(model.vertice.len()).collect();
    let used = model.vertice.len() - 2;
    for (place, vertex) in model.vertice.iter_mut().enumerate() {
        vertex.id_linea = ids[place.min(used)];
        vertex.no_orden = if place > used { 2 } else { 1 };
    }
    for tramo in &mut model.tramo {
        tramo.id_linea = Some(ids[used]);
    }
}
