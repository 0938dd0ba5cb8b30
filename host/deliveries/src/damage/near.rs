//! Near misses: changes after which a lawful delivery is still lawful.

use super::topology::{is_numbered, points_on_nodes, End};
use super::{places_where, strike, ValueStep};
use crate::graft::{
    codes, composite_ids, free_place, line_ids, linear_ids, node_ids, point_ids, slip_in, text_ids,
    tramo_ids,
};
use crate::kinds::{lawful_code, mend_codes, Kinds};
use crate::lawful::shuffle_files;
use crate::layout::TYPES;
use crate::model::{Catalogo, Model, Nodo, ObPun, Posicion, Tramo, Vertice};
use crate::random::Random;
use crate::values::{
    fresh_code, fresh_id, height, optional, orientation, text, tidy, visible_byte, NO_BREAK,
    X_MOST, Y_MOST, Z_MOST,
};

// Z counts for nothing but the difference of nodes.

pub const VERTEX_HEIGHT: &[ValueStep] = &[|random, model| {
    let middle = model.middle_vertices();
    let mut ends: Vec<usize> = (0..model.vertice.len()).collect();
    ends.retain(|vertex| !middle.contains(vertex));
    strike(random.one_of(ends), |vertex: usize| {
        change_height(random, &mut model.vertice[vertex].posicion);
    })
}];

pub const NODE_HEIGHT: &[ValueStep] = &[|random, model| {
    let nodes = (0..model.nodo.len()).collect();
    strike(random.one_of(nodes), |node: usize| {
        let position = model.nodo[node].posicion;
        model.nodo[node].posicion.z = free_height(random, model, position);
    })
}];

pub const POINT_HEIGHT: &[ValueStep] = &[|random, model| {
    strike(random.one_of(points_on_nodes(model)), |(point, _)| {
        change_height(random, &mut model.ob_pun[point].posicion);
    })
}];

fn change_height(random: &mut Random, position: &mut Posicion) {
    let before = position.z;
    while position.z == before {
        position.z = height(random);
    }
}

/// A Z that no node has at this X and Y. Missing and 0 differ.
fn free_height(random: &mut Random, model: &Model, at: Posicion) -> Option<i64> {
    let any = height(random);
    let mut z = random.pick(&[None, Some(0), any]);
    while model.has_node_at(&Posicion { z, ..at }) {
        z = Some(random.between(-Z_MOST, Z_MOST));
    }
    z
}

// Nodes, and what holds them.

pub const NODE_ABOVE: &[ValueStep] = &[|random, model| {
    strike(random.one_of(model.nodo.clone()), |below| {
        let id = add_node_above(random, model, below.posicion);
        if !model.has_vertex_at(below.posicion.xy()) {
            // Only point objects hold the lower one, so two hold the upper.
            let mut holders = model.ob_pun.clone();
            holders.retain(|point| point.id_nodo == Some(below.id_nodo));
            strike(random.one_of(holders), |point| {
                hold_by_points(random, model, &point, id, below.posicion);
            });
        }
    })
}];

pub const END_NODE_ABOVE: &[ValueStep] = &[
    |random, model| end_node_above(random, model, End::Start),
    |random, model| end_node_above(random, model, End::Finish),
];

fn end_node_above(random: &mut Random, model: &mut Model, end: End) -> bool {
    let mut pairs = Vec::new();
    for (place, tramo) in model.tramo.iter().enumerate() {
        if let Some(vertex) = end.vertex(model, tramo) {
            pairs.push((place, model.vertice[vertex].posicion));
        }
    }
    strike(
        random.one_of(pairs),
        |(tramo, position): (usize, Posicion)| {
            let id = add_node_above(random, model, position);
            *end.node_id(&mut model.tramo[tramo]) = id;
        },
    )
}

pub const NODE_AT_MIDDLE: &[ValueStep] = &[|random, model| {
    strike(random.one_of(model.middle_vertices()), |vertex: usize| {
        let position = model.vertice[vertex].posicion;
        add_node_above(random, model, position);
    })
}];

fn add_node_above(random: &mut Random, model: &mut Model, at: Posicion) -> u64 {
    let id_nodo = fresh_id(random, &node_ids(model));
    let mut node = Nodo {
        id_nodo,
        tipo: b' ',
        posicion: Posicion {
            z: free_height(random, model, at),
            ..at
        },
    };
    node.tipo = lawful_code(random, Kinds::of(model).kind(&node));
    slip_in(random, &mut model.nodo, node);
    id_nodo
}

/// Two further point objects that name the node; they may stand at one place.
fn hold_by_points(random: &mut Random, model: &mut Model, like: &ObPun, node: u64, at: Posicion) {
    for _ in 0..2 {
        let point = ObPun {
            id_opun: fresh_id(random, &point_ids(model)),
            id_nodo: Some(node),
            posicion: Posicion {
                z: height(random),
                ..at
            },
            ..like.clone()
        };
        slip_in(random, &mut model.ob_pun, point);
    }
}

pub const NODE_HELD_BY_POINTS: &[ValueStep] = &[|random, model| {
    strike(random.one_of(model.ob_pun.clone()), |like| {
        let at = Posicion::at(free_place(random, model), None);
        let id = add_node_above(random, model, at);
        hold_by_points(random, model, &like, id, at);
    })
}];

pub const POINT_LETS_GO: &[ValueStep] = &[|random, model| {
    let mut points = points_on_nodes(model);
    points.retain(|&(point, node)| {
        let node = &model.nodo[node];
        let mut others = model.namers(node.id_nodo);
        others.retain(|&other| other != point);
        model.has_vertex_at(node.posicion.xy()) || others.len() > 1
    });
    strike(random.one_of(points), |(point, _)| {
        model.ob_pun[point].id_nodo = None;
    })
}];

// Tramos and lines.

pub const SECOND_TRAMO: &[ValueStep] = &[|random, model| {
    strike(random.one_of(model.tramo.clone()), |first| {
        let tramo = Tramo {
            id_tramo: fresh_id(random, &tramo_ids(model)),
            id_linea: Some(first.line()),
            sentido: random.pick(b"+- "),
            ..first
        };
        slip_in(random, &mut model.tramo, tramo);
    })
}];

pub const SENSE_CHANGED: &[ValueStep] = &[|random, model| {
    let tramos = (0..model.tramo.len()).collect();
    strike(random.one_of(tramos), |tramo: usize| {
        let sense = &mut model.tramo[tramo].sentido;
        let mut others = b"+- ".to_vec();
        others.retain(|other| other != sense);
        *sense = random.pick(&others);
    })
}];

pub const LINE_ID_SPELLED: &[ValueStep] = &[|random, model| {
    let own = places_where(&model.tramo, |tramo| tramo.line() == tramo.id_tramo);
    strike(random.one_of(own), |place: usize| {
        let tramo = &mut model.tramo[place];
        tramo.id_linea = match tramo.id_linea {
            None => Some(tramo.id_tramo),
            Some(_) => None,
        };
    })
}];

pub const VERTEX_REMOVED: &[ValueStep] = &[|random, model| {
    let mut middle = model.middle_vertices();
    middle.retain(|&vertex| is_dispensable(model, vertex));
    strike(random.one_of(middle), |vertex| {
        let removed = model.vertice.remove(vertex);
        for vertex in &mut model.vertice {
            if vertex.id_linea == removed.id_linea && vertex.no_orden > removed.no_orden {
                vertex.no_orden -= 1;
            }
        }
        mend_codes(random, model);
    })
}];

/// No node at this vertex is held by it alone.
fn is_dispensable(model: &Model, vertex: usize) -> bool {
    let xy = model.vertice[vertex].posicion.xy();
    let there = places_where(&model.vertice, |other| other.posicion.xy() == xy);
    let mut nodes = model.nodo.iter().filter(|node| node.posicion.xy() == xy);
    there.len() > 1 || nodes.all(|node| model.is_held_by_points(node.id_nodo))
}

pub const VERTEX_ADDED: &[ValueStep] = &[|random, model| {
    let mut later = Vec::new();
    for line in model.lines() {
        let course = model.line_vertices(line);
        if is_numbered(model, &course) {
            later.extend_from_slice(&course[1..]);
        }
    }
    strike(random.one_of(later), |next: usize| {
        let before = model.vertice[next].clone();
        for vertex in &mut model.vertice {
            if vertex.id_linea == before.id_linea && vertex.no_orden >= before.no_orden {
                vertex.no_orden += 1;
            }
        }
        // Two vertices of a line may stand at one place.
        let vertex = Vertice {
            posicion: if random.chance(1, 3) {
                before.posicion
            } else {
                Posicion::at(free_place(random, model), height(random))
            },
            ..before
        };
        slip_in(random, &mut model.vertice, vertex);
        mend_codes(random, model);
    })
}];

// Positions.

pub const MINUS_BEFORE_NONZERO: &[ValueStep] = &[
    |random, model| {
        let texts = (0..model.ob_tex.len()).collect();
        strike(random.one_of(texts), |text: usize| {
            model.ob_tex[text].posicion = below_zero(random);
        })
    },
    |random, model| {
        let free = places_where(&model.ob_pun, |point| point.id_nodo.is_none());
        strike(random.one_of(free), |point: usize| {
            model.ob_pun[point].posicion = below_zero(random);
        })
    },
    |random, model| {
        let linears = (0..model.ob_lin.len()).collect();
        strike(random.one_of(linears), |linear: usize| {
            model.ob_lin[linear].centroide = below_zero(random);
        })
    },
    |random, model| {
        let composites = (0..model.ob_comp.len()).collect();
        strike(random.one_of(composites), |composite: usize| {
            model.ob_comp[composite].centroide = below_zero(random);
        })
    },
];

fn below_zero(random: &mut Random) -> Posicion {
    let x = random.pick(&[-1, -10, -100_000_000, -X_MOST]);
    let y = random.pick(&[-1, -10, -1_000_000_000, -Y_MOST]);
    let z = random.pick(&[None, Some(-1), Some(-10_000_000), Some(-Z_MOST)]);
    Posicion::at((x, y), z)
}

pub const MIRRORED: &[ValueStep] = &[
    |_, model| mirror(model, |position| &mut position.x),
    |_, model| mirror(model, |position| &mut position.y),
    |_, model| mirror(model, |position| &mut position.z),
];

fn mirror(model: &mut Model, axis: fn(&mut Posicion) -> &mut Option<i64>) -> bool {
    let points = model.ob_pun.iter_mut().map(|record| &mut record.posicion);
    let texts = model.ob_tex.iter_mut().map(|record| &mut record.posicion);
    let linears = model.ob_lin.iter_mut().map(|record| &mut record.centroide);
    let vertices = model.vertice.iter_mut().map(|record| &mut record.posicion);
    let nodes = model.nodo.iter_mut().map(|record| &mut record.posicion);
    let composites = model.ob_comp.iter_mut().map(|record| &mut record.centroide);
    let all = points
        .chain(texts)
        .chain(linears)
        .chain(composites)
        .chain(vertices)
        .chain(nodes);
    let mut changed = false;
    for position in all {
        let value = axis(position);
        changed |= *value != value.map(|value| -value);
        *value = value.map(|value| -value);
    }
    changed
}

// Ids and codes.

pub const RENAMED_ID: &[ValueStep] = &[
    rename_node,
    rename_linear,
    rename_line,
    rename_tramo,
    rename_composite,
    |random, model| {
        let id = fresh_id(random, &point_ids(model));
        let points = (0..model.ob_pun.len()).collect();
        strike(random.one_of(points), |point: usize| {
            model.ob_pun[point].id_opun = id;
        })
    },
    |random, model| {
        let id = fresh_id(random, &text_ids(model));
        let texts = (0..model.ob_tex.len()).collect();
        strike(random.one_of(texts), |text: usize| {
            model.ob_tex[text].id_otex = id;
        })
    },
];

fn rename_node(random: &mut Random, model: &mut Model) -> bool {
    let new = fresh_id(random, &node_ids(model));
    strike(random.one_of(model.nodo.clone()), |node| {
        let rename = |id: &mut u64| {
            if *id == node.id_nodo {
                *id = new;
            }
        };
        model
            .nodo
            .iter_mut()
            .for_each(|node| rename(&mut node.id_nodo));
        for tramo in &mut model.tramo {
            rename(&mut tramo.id_nodoi);
            rename(&mut tramo.id_nodof);
        }
        for point in &mut model.ob_pun {
            point.id_nodo.iter_mut().for_each(rename);
        }
    })
}

fn rename_linear(random: &mut Random, model: &mut Model) -> bool {
    let new = fresh_id(random, &linear_ids(model));
    strike(random.one_of(model.ob_lin.clone()), |old| {
        for linear in &mut model.ob_lin {
            if linear.id_olin == old.id_olin {
                linear.id_olin = new;
            }
        }
        for tramo in &mut model.tramo {
            if tramo.id_olin == old.id_olin {
                tramo.id_olin = new;
            }
        }
    })
}

fn rename_composite(random: &mut Random, model: &mut Model) -> bool {
    let new = fresh_id(random, &composite_ids(model));
    let composites = (0..model.ob_comp.len()).collect();
    strike(random.one_of(composites), |place: usize| {
        let old = std::mem::replace(&mut model.ob_comp[place].id_ocomp, new);
        for member in model.memberships() {
            if *member == Some(old) {
                *member = Some(new);
            }
        }
    })
}

fn rename_line(random: &mut Random, model: &mut Model) -> bool {
    let new = fresh_id(random, &line_ids(model));
    strike(random.one_of(model.lines()), |old| {
        for tramo in &mut model.tramo {
            if tramo.line() == old {
                tramo.id_linea = Some(new);
            }
        }
        for vertex in &mut model.vertice {
            if vertex.id_linea == old {
                vertex.id_linea = new;
            }
        }
    })
}

/// The line stays what it was, so it has to be named from now on.
fn rename_tramo(random: &mut Random, model: &mut Model) -> bool {
    let new = fresh_id(random, &tramo_ids(model));
    let tramos = (0..model.tramo.len()).collect();
    strike(random.one_of(tramos), |place: usize| {
        let tramo = &mut model.tramo[place];
        tramo.id_linea = Some(tramo.line());
        tramo.id_tramo = new;
    })
}

pub const UNUSED_CODE: &[ValueStep] = &[|random, model| {
    let record = Catalogo {
        codigo: fresh_code(random, &codes(model)),
        tipo: random.pick(TYPES),
        nombre_c: text(random, 60),
        definici: text(random, 60),
    };
    slip_in(random, &mut model.catalogo, record);
    true
}];

// Fields that may hold one of several things.

/// Another code that agrees with what the node is, a blank among them.
pub const NODE_TYPE: &[ValueStep] = &[|random, model| {
    let kinds = Kinds::of(model);
    let nodes = (0..model.nodo.len()).collect();
    strike(random.one_of(nodes), |place: usize| {
        let node = &mut model.nodo[place];
        let before = node.tipo;
        while node.tipo == before {
            node.tipo = lawful_code(random, kinds.kind(node));
        }
    })
}];

pub const OPTIONAL_FIELDS: &[ValueStep] = &[
    |random, model| {
        let points = (0..model.ob_pun.len()).collect();
        strike(random.one_of(points), |point: usize| {
            model.ob_pun[point].orientac = orientation(random);
            model.ob_pun[point].magnific = optional(random, 1_000);
        })
    },
    |random, model| {
        let texts = (0..model.ob_tex.len()).collect();
        strike(random.one_of(texts), |text: usize| {
            model.ob_tex[text].anchura = optional(random, 1_000);
            model.ob_tex[text].orientac = orientation(random);
        })
    },
    |random, model| {
        let texts = (0..model.ob_tex.len()).collect();
        strike(random.one_of(texts), |text: usize| {
            model.ob_tex[text].justifi = random.pick(&[Some(1), Some(9)]);
        })
    },
    |random, model| {
        let linears = (0..model.ob_lin.len()).collect();
        strike(random.one_of(linears), |linear: usize| {
            change_centroid(random, &mut model.ob_lin[linear].centroide);
        })
    },
    |random, model| {
        let composites = (0..model.ob_comp.len()).collect();
        strike(random.one_of(composites), |composite: usize| {
            change_centroid(random, &mut model.ob_comp[composite].centroide);
        })
    },
];

/// A centroid has X and Y, with or without Z, or nothing.
fn change_centroid(random: &mut Random, centroid: &mut Posicion) {
    *centroid = if *centroid == Posicion::default() {
        Posicion::at((0, -Y_MOST), height(random))
    } else {
        Posicion::default()
    };
}

/// All free words of the delivery. Each may be 60 bytes long.
fn free_texts(model: &mut Model) -> Vec<&mut Vec<u8>> {
    let mut texts = Vec::new();
    for record in &mut model.catalogo {
        texts.push(&mut record.nombre_c);
        texts.push(&mut record.definici);
    }
    texts.extend(model.ob_pun.iter_mut().map(|record| &mut record.nombre_i));
    texts.extend(model.ob_tex.iter_mut().map(|record| &mut record.literal));
    texts.extend(model.ob_lin.iter_mut().map(|record| &mut record.nombre_i));
    texts.extend(model.ob_comp.iter_mut().map(|record| &mut record.nombre_i));
    texts
}

pub const BAR_IN_TEXT: &[ValueStep] = &[
    |random, model| {
        strike(random.one_of(free_texts(model)), |text| {
            put_bar(random, text)
        })
    },
    |random, model| {
        strike(random.one_of(free_texts(model)), |text| {
            *text = vec![b'|'; 60]
        })
    },
    code_with_bar,
];

fn put_bar(random: &mut Random, text: &mut Vec<u8>) {
    let place = random.index(text.len() + 1);
    if text.len() < 60 {
        text.insert(place, b'|');
    } else {
        text[place.min(59)] = b'|';
    }
}

fn code_with_bar(random: &mut Random, model: &mut Model) -> bool {
    let taken = codes(model);
    let mut pairs = Vec::new();
    for record in &model.catalogo {
        let mut barred = record.codigo.clone();
        barred.truncate(6);
        let place = random.index(barred.len() + 1);
        barred.insert(place, b'|');
        pairs.push((record.codigo.clone(), barred));
    }
    pairs.retain(|(_, barred)| !taken.contains(barred) && is_tidy(barred));
    strike(random.one_of(pairs), |(old, new)| {
        rename_code(model, &old, &new)
    })
}

/// What was cut off may have left a blank of either sort at the end.
fn is_tidy(code: &[u8]) -> bool {
    tidy(code.to_vec(), code.len()) == code
}

fn rename_code(model: &mut Model, old: &[u8], new: &[u8]) {
    let catalogued = model.catalogo.iter_mut().map(|record| &mut record.codigo);
    let points = model.ob_pun.iter_mut().map(|record| &mut record.codigo);
    let texts = model.ob_tex.iter_mut().map(|record| &mut record.codigo);
    let linears = model.ob_lin.iter_mut().map(|record| &mut record.codigo);
    let tramos = model.tramo.iter_mut().map(|record| &mut record.codigo);
    let composites = model.ob_comp.iter_mut().map(|record| &mut record.codigo);
    let objects = points.chain(texts).chain(linears).chain(composites);
    let all = catalogued.chain(objects).chain(tramos);
    for code in all.filter(|code| *code == old) {
        *code = new.to_vec();
    }
}

// A no-break blank may stand within a text, as near its ends as can be.

pub const NO_BREAK_WITHIN: &[ValueStep] = &[
    |random, model| {
        let mut texts = free_texts(model);
        texts.retain(|text| text.len() > 2);
        strike(random.one_of(texts), |text| {
            let inner = text.len() - 2;
            let any = 1 + random.index(inner);
            text[random.pick(&[1, inner, any])] = NO_BREAK;
        })
    },
    |random, model| {
        strike(random.one_of(free_texts(model)), |text| {
            *text = vec![NO_BREAK; 60];
            text[0] = visible_byte(random);
            text[59] = visible_byte(random);
        })
    },
    code_with_no_break,
    // The byte beside it may begin and end a text.
    |random, model| {
        let next: [&[u8]; 4] = [b"\xA1", b"\xA1x", b"x\xA1", b"\xA1\xA0\xA1"];
        strike(random.one_of(free_texts(model)), |text| {
            *text = random.pick(&next).to_vec();
        })
    },
];

/// NA with a no-break blank and more behind it is a code like others.
fn code_with_no_break(random: &mut Random, model: &mut Model) -> bool {
    let taken = codes(model);
    let mut pairs = Vec::new();
    for record in &model.catalogo {
        for new in [&b"NA\xA0A"[..], b"N\xA0D", b"1\xA0\xA0\xA0\xA0\xA02"] {
            pairs.push((record.codigo.clone(), new.to_vec()));
        }
    }
    pairs.retain(|(_, new)| !taken.contains(new));
    strike(random.one_of(pairs), |(old, new)| {
        rename_code(model, &old, &new)
    })
}

pub const NA_IN_NAME: &[ValueStep] = &[|random, model| {
    let word = random.pick(&[b"NA", b"ND"]);
    strike(random.one_of(free_texts(model)), |text| {
        *text = word.to_vec()
    })
}];

pub const FREE_WORDS: &[ValueStep] = &[|random, model| {
    let texts = free_texts(model);
    let any = !texts.is_empty();
    for words in texts {
        *words = text(random, 60);
    }
    any
}];

pub const RESHUFFLED: &[ValueStep] = &[|random, model| {
    shuffle_files(random, model);
    model.catalogo.len() > 1
        || model.ob_pun.len() > 1
        || model.ob_tex.len() > 1
        || model.vertice.len() > 1
        || model.nodo.len() > 1
        || model.ob_comp.len() > 1
}];
