//! Damage to orders, ends, nodes and objects: reasons 50 to 58.

use std::collections::BTreeSet;

use super::{places_where, strike, ValueStep};
use crate::graft::{free_place, line_ids, linear_ids, node_ids, point_ids, slip_in, tramo_ids};
use crate::kinds::Kinds;
use crate::model::{Model, Nodo, ObLin, ObPun, Posicion, Tramo, Vertice};
use crate::random::Random;
use crate::values::{fresh_id, height, moved, ORDER_MOST, X_MOST, Y_MOST};

// Reasons 50 and 51.

pub const ORDER_ZERO: &[ValueStep] = &[
    |random, model| {
        change_course(random, model, 2, |_, model, course| {
            model.vertice[course[0]].no_orden = 0;
        })
    },
    |random, model| {
        change_course(random, model, 2, |random, model, course| {
            let extra = Vertice {
                no_orden: 0,
                ..model.vertice[course[0]]
            };
            slip_in(random, &mut model.vertice, extra);
        })
    },
    // Counted from 0.
    |random, model| {
        change_course(random, model, 2, |_, model, course| {
            for &vertex in course {
                model.vertice[vertex].no_orden -= 1;
            }
        })
    },
];

pub const ORDER_GAP: &[ValueStep] = &[
    // Counted from 2.
    |random, model| {
        change_course(random, model, 2, |_, model, course| {
            for &vertex in course {
                model.vertice[vertex].no_orden += 1;
            }
        })
    },
    |random, model| {
        change_course(random, model, 2, |random, model, course| {
            let last = &mut model.vertice[course[course.len() - 1]].no_orden;
            *last = random.pick(&[*last + 1, *last + 8, ORDER_MOST]);
        })
    },
    |random, model| {
        change_course(random, model, 2, |_, model, course| {
            model.vertice.remove(course[0]);
        })
    },
    |random, model| {
        change_course(random, model, 3, |random, model, course| {
            let middle = random.pick(&course[1..course.len() - 1]);
            model.vertice.remove(middle);
        })
    },
    |random, model| {
        change_course(random, model, 2, |random, model, course| {
            let last = &model.vertice[course[course.len() - 1]];
            let extra = Vertice {
                no_orden: last.no_orden + 2,
                ..*last
            };
            slip_in(random, &mut model.vertice, extra);
        })
    },
];

pub const SINGLE_VERTEX: &[ValueStep] = &[
    |random, model| {
        change_course(random, model, 2, |random, model, course| {
            let line = model.vertice[course[0]].id_linea;
            model
                .vertice
                .retain(|vertex| vertex.id_linea != line || vertex.no_orden == 1);
            if random.chance(1, 2) {
                end_where_it_starts(model, line);
            }
        })
    },
    |random, model| {
        change_course(random, model, 2, |_, model, course| {
            model.vertice.remove(course[1]);
        })
    },
    line_of_one_vertex,
];

/// Changes a line with so many vertices at least, numbered from 1 without a
/// gap. They are given as places in VERTICE, by order.
fn change_course(
    random: &mut Random,
    model: &mut Model,
    least: usize,
    to: fn(&mut Random, &mut Model, &[usize]),
) -> bool {
    let lines = model.lines().into_iter();
    let mut courses: Vec<Vec<usize>> = lines.map(|line| model.line_vertices(line)).collect();
    courses.retain(|course| course.len() >= least && is_numbered(model, course));
    strike(random.one_of(courses), |course| to(random, model, &course))
}

/// Numbered from 1 without a gap, as in a lawful line.
pub fn is_numbered(model: &Model, course: &[usize]) -> bool {
    (1..)
        .zip(course)
        .all(|(order, &vertex)| model.vertice[vertex].no_orden == order)
}

/// So that the single vertex is all that is wrong with the line.
fn end_where_it_starts(model: &mut Model, line: u64) {
    for tramo in &mut model.tramo {
        if tramo.line() == line {
            tramo.id_nodof = tramo.id_nodoi;
        }
    }
}

/// A further tramo over a line of its own with a single vertex, at the node
/// where it both begins and ends.
fn line_of_one_vertex(random: &mut Random, model: &mut Model) -> bool {
    let mut pairs = Vec::new();
    for tramo in &model.tramo {
        if let Some(node) = model.node(tramo.id_nodoi) {
            pairs.push((tramo.clone(), model.nodo[node].posicion));
        }
    }
    strike(random.one_of(pairs), |(like, posicion)| {
        let mut taken = line_ids(model);
        taken.extend(tramo_ids(model));
        let id_tramo = fresh_id(random, &taken);
        let tramo = Tramo {
            id_tramo,
            id_linea: random.pick(&[None, Some(id_tramo)]),
            id_nodof: like.id_nodoi,
            ..like
        };
        let vertex = Vertice {
            id_linea: id_tramo,
            no_orden: 1,
            posicion,
        };
        slip_in(random, &mut model.tramo, tramo);
        slip_in(random, &mut model.vertice, vertex);
    })
}

// Reasons 52 and 53.

pub const START_ELSEWHERE: &[ValueStep] = &[
    |random, model| move_vertex(random, model, End::Start),
    |random, model| move_node(random, model, End::Start),
    |random, model| change_node(random, model, End::Start),
];

pub const END_ELSEWHERE: &[ValueStep] = &[
    |random, model| move_vertex(random, model, End::Finish),
    |random, model| move_node(random, model, End::Finish),
    |random, model| change_node(random, model, End::Finish),
];

/// An end of a tramo. The sense has no part in which is which.
#[derive(Clone, Copy)]
pub enum End {
    Start,
    Finish,
}

/// A tramo's end where vertex and node stand at one X and Y.
struct SoundEnd {
    tramo: usize,
    vertex: usize,
    node: usize,
}

impl End {
    pub fn vertex(self, model: &Model, tramo: &Tramo) -> Option<usize> {
        match self {
            End::Start => model.vertex_of_order_one(tramo.line()),
            End::Finish => model.vertex_of_highest_order(tramo.line()),
        }
    }

    pub fn node_id(self, tramo: &mut Tramo) -> &mut u64 {
        match self {
            End::Start => &mut tramo.id_nodoi,
            End::Finish => &mut tramo.id_nodof,
        }
    }

    pub fn node(self, model: &Model, tramo: &Tramo) -> Option<usize> {
        match self {
            End::Start => model.node(tramo.id_nodoi),
            End::Finish => model.node(tramo.id_nodof),
        }
    }

    fn sound(self, model: &Model) -> Vec<SoundEnd> {
        let mut found = Vec::new();
        for (place, tramo) in model.tramo.iter().enumerate() {
            if let (Some(vertex), Some(node)) = (self.vertex(model, tramo), self.node(model, tramo))
            {
                if model.vertice[vertex].posicion.xy() == model.nodo[node].posicion.xy() {
                    found.push(SoundEnd {
                        tramo: place,
                        vertex,
                        node,
                    });
                }
            }
        }
        found
    }
}

fn move_vertex(random: &mut Random, model: &mut Model, end: End) -> bool {
    strike(random.one_of(end.sound(model)), |sound| {
        move_in_x_or_y(random, &mut model.vertice[sound.vertex].posicion);
    })
}

fn move_node(random: &mut Random, model: &mut Model, end: End) -> bool {
    strike(random.one_of(end.sound(model)), |sound| {
        move_in_x_or_y(random, &mut model.nodo[sound.node].posicion);
    })
}

/// The tramo goes to a node elsewhere.
fn change_node(random: &mut Random, model: &mut Model, end: End) -> bool {
    let mut pairs = Vec::new();
    for sound in end.sound(model) {
        let here = model.nodo[sound.node].posicion.xy();
        let elsewhere = places_where(&model.nodo, |node| node.posicion.xy() != here);
        pairs.extend(elsewhere.into_iter().map(|node| (sound.tramo, node)));
    }
    strike(random.one_of(pairs), |(tramo, node): (usize, usize)| {
        *end.node_id(&mut model.tramo[tramo]) = model.nodo[node].id_nodo;
    })
}

/// One of the two is enough. Z may change as well: it counts for nothing.
fn move_in_x_or_y(random: &mut Random, position: &mut Posicion) {
    if random.chance(1, 2) {
        position.x = position.x.map(|x| moved(random, x, X_MOST));
    } else {
        position.y = position.y.map(|y| moved(random, y, Y_MOST));
    }
    if random.chance(1, 4) {
        position.z = height(random);
    }
}

// Reason 54.

pub const TWIN_NODE: &[ValueStep] = &[
    |random, model| {
        strike(random.one_of(model.nodo.clone()), |node| {
            add_node(random, model, node.posicion);
        })
    },
    // Two at one X and Y get one Z, or both none.
    |random, model| {
        let mut pairs = Vec::new();
        for (place, node) in model.nodo.iter().enumerate() {
            let xy = node.posicion.xy();
            let others = places_where(&model.nodo, |other| other.posicion.xy() == xy);
            pairs.extend(others.into_iter().map(|other| (place, other)));
        }
        pairs.retain(|(place, other)| place != other);
        strike(random.one_of(pairs), |(place, other): (usize, usize)| {
            model.nodo[place].posicion = model.nodo[other].posicion;
        })
    },
];

fn add_node(random: &mut Random, model: &mut Model, posicion: Posicion) {
    let id_nodo = fresh_id(random, &node_ids(model));
    add_node_of_id(random, model, id_nodo, posicion);
}

fn add_node_of_id(random: &mut Random, model: &mut Model, id_nodo: u64, posicion: Posicion) {
    let node = Nodo {
        id_nodo,
        tipo: random.pick(b"AE "),
        posicion,
    };
    slip_in(random, &mut model.nodo, node);
}

// Reason 55.

pub const POINT_ELSEWHERE: &[ValueStep] = &[
    |random, model| {
        strike(random.one_of(points_on_nodes(model)), |(point, _)| {
            move_in_x_or_y(random, &mut model.ob_pun[point].posicion);
        })
    },
    |random, model| {
        strike(random.one_of(points_on_nodes(model)), |(_, node)| {
            move_in_x_or_y(random, &mut model.nodo[node].posicion);
        })
    },
    // It names a node elsewhere.
    |random, model| {
        let mut pairs = Vec::new();
        for (place, point) in model.ob_pun.iter().enumerate() {
            let here = point.posicion.xy();
            let elsewhere = places_where(&model.nodo, |node| node.posicion.xy() != here);
            pairs.extend(elsewhere.into_iter().map(|node| (place, node)));
        }
        strike(random.one_of(pairs), |(place, node): (usize, usize)| {
            model.ob_pun[place].id_nodo = Some(model.nodo[node].id_nodo);
        })
    },
];

/// Point objects that stand at the node they name, each with that node.
pub fn points_on_nodes(model: &Model) -> Vec<(usize, usize)> {
    let mut found = Vec::new();
    for (place, point) in model.ob_pun.iter().enumerate() {
        if let Some(node) = point.id_nodo.and_then(|id| model.node(id)) {
            if model.nodo[node].posicion.xy() == point.posicion.xy() {
                found.push((place, node));
            }
        }
    }
    found
}

// Reason 56.

pub const IDLE_NODE: &[ValueStep] = &[
    |random, model| {
        let position = Posicion::at(free_place(random, model), height(random));
        add_node(random, model, position);
        true
    },
    |random, model| idle_among(random, model, vec![Posicion::at((0, 0), None)]),
    |random, model| {
        let crosses = crosses(model);
        idle_among(random, model, crosses)
    },
    // A point object or text at the place holds no node unless it names it.
    |random, model| {
        let points = model.ob_pun.iter().map(|point| point.posicion);
        let texts = model.ob_tex.iter().map(|text| text.posicion);
        let places = points.chain(texts).collect();
        idle_among(random, model, places)
    },
    |random, model| {
        let ids: Vec<u64> = ids_of_other_files(model)
            .difference(&node_ids(model))
            .copied()
            .collect();
        strike(random.one_of(ids), |id| {
            let position = Posicion::at(free_place(random, model), None);
            add_node_of_id(random, model, id, position);
        })
    },
    points_let_go,
    held_by_one_point,
];

/// A further node at one of the places, where neither vertex nor node stands.
fn idle_among(random: &mut Random, model: &mut Model, mut places: Vec<Posicion>) -> bool {
    places.retain(|place| {
        let xy = place.xy();
        !model.has_vertex_at(xy) && !model.nodo.iter().any(|node| node.posicion.xy() == xy)
    });
    strike(random.one_of(places), |place| {
        add_node(random, model, place);
    })
}

/// The X of one vertex with the Y of another, or its own two changed over.
fn crosses(model: &Model) -> Vec<Posicion> {
    let mut places = Vec::new();
    for one in &model.vertice {
        for other in &model.vertice {
            places.push(Posicion {
                y: other.posicion.y,
                ..one.posicion
            });
        }
        if let (Some(x), Some(y)) = one.posicion.xy() {
            if y.abs() <= X_MOST {
                places.push(Posicion::at((y, x), None));
            }
        }
    }
    places
}

/// Ids that a program might look up in the wrong file.
pub fn ids_of_other_files(model: &Model) -> BTreeSet<u64> {
    let mut ids = point_ids(model);
    ids.extend(tramo_ids(model));
    ids.extend(line_ids(model));
    ids.extend(linear_ids(model));
    ids
}

/// All point objects that hold a loose node lose their node id, or all but one:
/// one alone doesn't hold it.
fn points_let_go(random: &mut Random, model: &mut Model) -> bool {
    let loose = model.nodo.iter().filter(|node| {
        !model.has_vertex_at(node.posicion.xy()) && model.is_held_by_points(node.id_nodo)
    });
    let ids = loose.map(|node| node.id_nodo).collect();
    strike(random.one_of(ids), |id: u64| {
        let mut namers = model.namers(id);
        random.shuffle(&mut namers);
        let kept = random.index(2);
        for &point in &namers[kept..] {
            model.ob_pun[point].id_nodo = None;
        }
    })
}

/// A further node where only one point object names it, and perhaps another
/// lies there and names none.
fn held_by_one_point(random: &mut Random, model: &mut Model) -> bool {
    strike(random.one_of(model.ob_pun.clone()), |like| {
        let position = Posicion::at(free_place(random, model), height(random));
        let id = fresh_id(random, &node_ids(model));
        add_node_of_id(random, model, id, position);
        for id_nodo in [Some(id), None] {
            let point = ObPun {
                id_opun: fresh_id(random, &point_ids(model)),
                id_nodo,
                posicion: position,
                ..like.clone()
            };
            slip_in(random, &mut model.ob_pun, point);
        }
    })
}

// Reason 57.

pub const IDLE_LINEAR: &[ValueStep] = &[
    |random, model| {
        let id = fresh_id(random, &linear_ids(model));
        add_linear(random, model, id)
    },
    // Its id may well be a tramo's or a line's.
    |random, model| {
        let ids = ids_of_other_files(model)
            .difference(&linear_ids(model))
            .copied()
            .collect();
        random
            .one_of(ids)
            .map_or(false, |id| add_linear(random, model, id))
    },
    tramos_go_to_another_linear,
];

fn add_linear(random: &mut Random, model: &mut Model, id_olin: u64) -> bool {
    strike(random.one_of(model.ob_lin.clone()), |like| {
        let linear = ObLin { id_olin, ..like };
        slip_in(random, &mut model.ob_lin, linear);
    })
}

fn tramos_go_to_another_linear(random: &mut Random, model: &mut Model) -> bool {
    let mut linears: Vec<u64> = model.ob_lin.iter().map(|linear| linear.id_olin).collect();
    random.shuffle(&mut linears);
    if linears.len() < 2 {
        return false;
    }
    for tramo in &mut model.tramo {
        if tramo.id_olin == linears[0] {
            tramo.id_olin = linears[1];
        }
    }
    true
}

// Reason 58.

pub const OTHER_KIND: &[ValueStep] = &[
    // Another code for a node that stays what it is.
    |random, model| {
        let kinds = Kinds::of(model);
        let nodes = (0..model.nodo.len()).collect();
        strike(random.one_of(nodes), |place: usize| {
            let node = &mut model.nodo[place];
            node.tipo = random.pick(&kinds.kind(node).other_codes());
        })
    },
    // A line that now passes a node which is said to be an end alone, or isolated.
    |random, model| {
        let said = places_where(&model.nodo, |node| b"AE".contains(&node.tipo));
        let node = random.one_of(said).map(|place| model.nodo[place].posicion);
        let lines = numbered_lines(model);
        strike(node.zip(random.one_of(lines)), |(at, course)| {
            pass_by(random, model, &course, at);
        })
    },
    // One code for all, whatever they are.
    |random, model| {
        let kinds = Kinds::of(model);
        let others = model.nodo.iter().map(|node| kinds.kind(node).other_codes());
        strike(random.one_of(others.flatten().collect()), |code| {
            for node in &mut model.nodo {
                node.tipo = code;
            }
        })
    },
];

/// The lines that are numbered from 1 without a gap, as places in VERTICE by order.
fn numbered_lines(model: &Model) -> Vec<Vec<usize>> {
    let lines = model.lines().into_iter();
    let mut courses: Vec<Vec<usize>> = lines.map(|line| model.line_vertices(line)).collect();
    courses.retain(|course| course.len() > 1 && is_numbered(model, course));
    courses
}

/// A further middle vertex of the line, at this X and Y.
fn pass_by(random: &mut Random, model: &mut Model, course: &[usize], at: Posicion) {
    for &vertex in &course[1..] {
        model.vertice[vertex].no_orden += 1;
    }
    let vertex = Vertice {
        id_linea: model.vertice[course[0]].id_linea,
        no_orden: 2,
        posicion: Posicion {
            z: height(random),
            ..at
        },
    };
    slip_in(random, &mut model.vertice, vertex);
}
