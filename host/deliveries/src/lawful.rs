//! Lawful deliveries. They are laid from the ground up: courses of lines, the
//! nodes these need, further nodes that something else holds, and only then
//! the records that refer to them.

use std::collections::{BTreeMap, BTreeSet};

use crate::full::MOST_RECORDS;
use crate::kinds::{lawful_code, Kinds};
use crate::layout::{PLAIN_TYPES, TYPES};
use crate::model::{Catalogo, Model, Nodo, ObComp, ObLin, ObPun, ObTex, Posicion, Tramo, Vertice};
use crate::random::Random;
use crate::values::{
    any_id, coordinate, fresh_code, height, ids, justification, optional, orientation, take_id,
    text, X_MOST, Y_MOST, Z_MOST,
};

/// How many records a file holds.
#[derive(Clone, Copy, Debug, PartialEq, Eq)]
pub enum Size {
    /// 0 to 12 in each file.
    Small,
    /// 0 to so many in each file; at least 8 must be allowed.
    UpTo(usize),
    /// Exactly so many in each file but OB_COMP, 8 to 16,384, always shuffled.
    /// There are no composites: what a seed gave before there were any it
    /// still gives, so that times can be held against earlier ones.
    Exact(usize),
    /// Exactly so many in each file, OB_COMP too.
    Composed(usize),
}

type Xy = (i64, i64);

struct Counts {
    catalogo: usize,
    ob_pun: usize,
    ob_tex: usize,
    ob_lin: usize,
    tramo: usize,
    vertice: usize,
    nodo: usize,
    ob_comp: usize,
    /// The types that codes are drawn of.
    types: &'static [u8],
    /// Places where lines may begin and end. There are never more of them
    /// than nodes may be made.
    end_places: usize,
}

/// A lawful delivery.
pub fn lawful(random: &mut Random, size: Size) -> Model {
    let counts = match size {
        Size::Small => counts_up_to(random, 12),
        Size::UpTo(most) => counts_up_to(random, most),
        Size::Exact(count) => counts_exactly(count),
        Size::Composed(count) => Counts {
            ob_comp: count,
            types: TYPES,
            ..counts_exactly(count)
        },
    };
    let is_exact = matches!(size, Size::Exact(_) | Size::Composed(_));
    let spread = match size {
        _ if is_exact => Spread::Plain,
        _ => random.pick(&[Spread::Grid, Spread::Plain, Spread::Wild]),
    };
    let mut model = lay(random, &counts, spread);
    if is_exact {
        shuffle_files(random, &mut model);
    } else {
        arrange_files(random, &mut model);
    }
    model
}

fn counts_exactly(count: usize) -> Counts {
    assert!(
        (8..=MOST_RECORDS).contains(&count),
        "an exact size lies from 8 to 16,384"
    );
    Counts {
        catalogo: count,
        ob_pun: count,
        ob_tex: count,
        ob_lin: count,
        tramo: count,
        vertice: count,
        nodo: count,
        ob_comp: 0,
        types: PLAIN_TYPES,
        end_places: count / 3 + 1,
    }
}

fn counts_up_to(random: &mut Random, most: usize) -> Counts {
    assert!(most >= 8, "a size allows at least 8 records a file");
    let barren = random.chance(1, 64);
    let mut up_to = |empty_in: u64, least: usize, most: usize| {
        if barren || random.chance(1, empty_in) {
            0
        } else {
            least + random.index(most + 1 - least)
        }
    };
    let tramo = up_to(5, 1, most);
    let catalogo = up_to(12, 1, most);
    let ob_pun = up_to(4, 1, most);
    let ob_tex = up_to(4, 1, most);
    let ob_lin = if tramo == 0 {
        0
    } else {
        1 + random.index(tramo)
    };
    // Each composite wants an object that names it.
    let namers = (ob_pun + ob_tex + ob_lin).min(most);
    Counts {
        catalogo,
        ob_pun,
        ob_tex,
        ob_lin,
        tramo,
        vertice: if tramo == 0 {
            0
        } else {
            2 + random.index(most - 1)
        },
        nodo: if barren { 0 } else { random.index(most + 1) },
        ob_comp: if random.chance(1, 3) {
            0
        } else {
            random.index(namers + 1)
        },
        types: TYPES,
        end_places: 1 + random.index(most),
    }
}

/// Where the places of a delivery lie.
#[derive(Clone, Copy)]
enum Spread {
    /// Close together, so that many fall on one another.
    Grid,
    /// As on a map sheet.
    Plain,
    /// At the edges of what the fields hold.
    Wild,
}

fn place(random: &mut Random, spread: Spread) -> Xy {
    match spread {
        Spread::Grid => (random.between(-2, 2), random.between(-2, 2)),
        Spread::Plain if !random.chance(1, 16) => (
            random.between(40_000_000, 50_000_000),
            random.between(400_000_000, 500_000_000),
        ),
        _ => (coordinate(random, X_MOST), coordinate(random, Y_MOST)),
    }
}

fn different_places(random: &mut Random, spread: Spread, count: usize) -> Vec<Xy> {
    let mut taken = BTreeSet::new();
    let mut list = Vec::with_capacity(count);
    let mut misses = 0;
    while list.len() < count {
        // A grid may be full before there are enough.
        let found = if misses < 8 {
            place(random, spread)
        } else {
            (
                random.between(-X_MOST, X_MOST),
                random.between(-Y_MOST, Y_MOST),
            )
        };
        if taken.insert(found) {
            list.push(found);
            misses = 0;
        } else {
            misses += 1;
        }
    }
    list
}

fn lay(random: &mut Random, counts: &Counts, spread: Spread) -> Model {
    let courses = courses(random, counts, spread);
    let ground = nodes(random, counts, spread, &courses);
    let linear_ids = ids(random, counts.ob_lin);
    let (tramos, line_ids) = tramos(random, counts, &courses, &ground, &linear_ids);
    let mut model = Model {
        catalogo: Vec::new(),
        ob_pun: points(random, counts.ob_pun, spread, &ground),
        ob_tex: texts(random, counts.ob_tex, spread),
        ob_lin: linears(random, &linear_ids, spread),
        tramo: tramos,
        vertice: vertices(random, &courses, &line_ids),
        nodo: ground.nodes,
        ob_comp: Vec::new(),
    };
    if counts.ob_comp > 0 {
        model.ob_comp = composites(random, counts.ob_comp, spread);
        give_composites(random, &mut model);
    }
    give_codes(random, &mut model, counts);
    give_node_codes(random, &mut model);
    model
}

/// A code for part of the nodes, by what each is.
fn give_node_codes(random: &mut Random, model: &mut Model) {
    let kinds = Kinds::of(model);
    for node in &mut model.nodo {
        node.tipo = lawful_code(random, kinds.kind(node));
    }
}

/// The X and Y of each line's vertices, in order.
fn courses(random: &mut Random, counts: &Counts, spread: Spread) -> Vec<Vec<Xy>> {
    let end_places = different_places(random, spread, counts.end_places);
    line_lengths(random, counts.vertice, counts.tramo)
        .into_iter()
        .map(|length| course(random, length, &end_places, spread))
        .collect()
}

/// Lengths of 2 and more that use up all vertices, for no more lines than
/// there are tramos.
fn line_lengths(random: &mut Random, vertices: usize, most_lines: usize) -> Vec<usize> {
    let mut lengths = Vec::new();
    let mut left = vertices;
    while left > 0 {
        let wish = if lengths.len() + 1 == most_lines {
            left
        } else {
            line_length(random, left)
        };
        let length = if wish + 2 > left { left } else { wish };
        lengths.push(length);
        left -= length;
    }
    lengths
}

fn line_length(random: &mut Random, left: usize) -> usize {
    if left <= 16 && random.chance(1, 4) {
        return left;
    }
    // Now and then a very long one.
    if random.chance(1, 400) {
        return 2 + random.index(left / 16 + 1);
    }
    match random.below(20) {
        0..=7 => 2,
        8..=13 => 3,
        14..=18 => 4 + random.index(9),
        _ => 13 + random.index(48),
    }
}

fn course(random: &mut Random, length: usize, end_places: &[Xy], spread: Spread) -> Vec<Xy> {
    let start = random.pick(end_places);
    let end = if random.chance(1, 8) {
        start
    } else {
        random.pick(end_places)
    };
    let mut course = vec![start];
    while course.len() + 1 < length {
        let next = match random.below(8) {
            0 => random.pick(end_places),
            1 => random.pick(&course),
            _ => place(random, spread),
        };
        course.push(next);
    }
    course.push(end);
    course
}

/// The nodes and what the other records need to know of them.
struct Ground {
    nodes: Vec<Nodo>,
    /// The nodes at a place, as places in `nodes`.
    at: BTreeMap<Xy, Vec<usize>>,
    /// The nodes that only point objects can hold, two each.
    loose: Vec<usize>,
}

fn nodes(random: &mut Random, counts: &Counts, spread: Spread, courses: &[Vec<Xy>]) -> Ground {
    let mut ground = Ground {
        nodes: Vec::new(),
        at: BTreeMap::new(),
        loose: Vec::new(),
    };
    let mut taken = BTreeSet::new();
    for course in courses {
        for end in [course[0], course[course.len() - 1]] {
            if !ground.at.contains_key(&end) {
                ground.add(random, end, &mut taken);
            }
        }
    }
    while ground.nodes.len() < counts.nodo {
        let may_be_loose = 2 * ground.loose.len() + 2 <= counts.ob_pun;
        if may_be_loose && (courses.is_empty() || random.chance(1, 3)) {
            let anywhere = place(random, spread);
            ground.loose.push(ground.nodes.len());
            ground.add(random, anywhere, &mut taken);
        } else if courses.is_empty() {
            break;
        } else {
            // At a vertex: over another node, or alone on a middle one.
            let course = &courses[random.index(courses.len())];
            let on_vertex = random.pick(course);
            ground.add(random, on_vertex, &mut taken);
        }
    }
    let own_ids = ids(random, ground.nodes.len());
    for (node, id_nodo) in ground.nodes.iter_mut().zip(own_ids) {
        node.id_nodo = id_nodo;
    }
    ground
}

impl Ground {
    fn add(&mut self, random: &mut Random, at: Xy, taken: &mut BTreeSet<(Xy, Option<i64>)>) {
        // No two nodes share X, Y and Z.
        let mut z = height(random);
        while !taken.insert((at, z)) {
            z = Some(random.between(-Z_MOST, Z_MOST));
        }
        self.at.entry(at).or_default().push(self.nodes.len());
        self.nodes.push(Nodo {
            id_nodo: 0,
            tipo: b' ',
            posicion: Posicion::at(at, z),
        });
    }

    /// Any of the nodes at a place may begin or end a tramo there.
    fn one_at(&self, random: &mut Random, at: Xy) -> u64 {
        self.nodes[random.pick(&self.at[&at])].id_nodo
    }
}

/// The tramos, each line used by one at least and each linear object named by
/// one at least, together with the ids of the lines.
fn tramos(
    random: &mut Random,
    counts: &Counts,
    courses: &[Vec<Xy>],
    ground: &Ground,
    linear_ids: &[u64],
) -> (Vec<Tramo>, Vec<u64>) {
    let own_ids = ids(random, counts.tramo);
    let line_ids = line_ids(random, courses.len(), &own_ids);
    let mut tramos = Vec::with_capacity(counts.tramo);
    for (place, &id_tramo) in own_ids.iter().enumerate() {
        let line = if place < courses.len() {
            place
        } else {
            random.index(courses.len())
        };
        let id_olin = if place < linear_ids.len() {
            linear_ids[place]
        } else {
            random.pick(linear_ids)
        };
        let course = &courses[line];
        let own_line = line_ids[line] == id_tramo;
        tramos.push(Tramo {
            id_tramo,
            id_olin,
            id_perim: None,
            id_linea: if own_line && random.chance(2, 3) {
                None
            } else {
                Some(line_ids[line])
            },
            codigo: Vec::new(),
            id_nodoi: ground.one_at(random, course[0]),
            id_nodof: ground.one_at(random, course[course.len() - 1]),
            sentido: random.pick(b"++- "),
        });
    }
    (tramos, line_ids)
}

/// Line `n` is used by tramo `n`, and half of the lines have that tramo's id,
/// so that a blank line id may stand for them. Some others have the id of a
/// tramo that uses another line.
fn line_ids(random: &mut Random, lines: usize, tramo_ids: &[u64]) -> Vec<u64> {
    let own: Vec<bool> = (0..lines).map(|_| random.chance(1, 2)).collect();
    let mut taken: BTreeSet<u64> = (0..lines)
        .filter(|&line| own[line])
        .map(|line| tramo_ids[line])
        .collect();
    (0..lines)
        .map(|line| {
            if own[line] {
                return tramo_ids[line];
            }
            let wish = if random.chance(1, 3) {
                random.pick(tramo_ids)
            } else {
                any_id(random)
            };
            take_id(random, wish, &mut taken)
        })
        .collect()
}

fn vertices(random: &mut Random, courses: &[Vec<Xy>], line_ids: &[u64]) -> Vec<Vertice> {
    let mut list = Vec::new();
    for (course, &id_linea) in courses.iter().zip(line_ids) {
        for (before, &at) in course.iter().enumerate() {
            list.push(Vertice {
                id_linea,
                no_orden: before as u64 + 1,
                posicion: Posicion::at(at, height(random)),
            });
        }
    }
    list
}

/// Point objects: first those that hold the loose nodes, by twos.
fn points(random: &mut Random, count: usize, spread: Spread, ground: &Ground) -> Vec<ObPun> {
    let own_ids = ids(random, count);
    own_ids
        .into_iter()
        .enumerate()
        .map(|(place, id_opun)| {
            let node = if place < 2 * ground.loose.len() {
                Some(ground.loose[place / 2])
            } else if ground.nodes.is_empty() || random.chance(1, 2) {
                None
            } else {
                Some(random.index(ground.nodes.len()))
            };
            point(
                random,
                id_opun,
                node.map(|node| &ground.nodes[node]),
                spread,
            )
        })
        .collect()
}

fn point(random: &mut Random, id_opun: u64, node: Option<&Nodo>, spread: Spread) -> ObPun {
    let at = match node {
        Some(node) => node.posicion,
        None => Posicion::at(place(random, spread), None),
    };
    ObPun {
        id_opun,
        id_ocomp: None,
        id_nodo: node.map(|node| node.id_nodo),
        codigo: Vec::new(),
        nombre_i: text(random, 60),
        orientac: orientation(random),
        magnific: optional(random, 1_000),
        // Only X and Y are the node's.
        posicion: Posicion {
            z: height(random),
            ..at
        },
    }
}

fn texts(random: &mut Random, count: usize, spread: Spread) -> Vec<ObTex> {
    ids(random, count)
        .into_iter()
        .map(|id_otex| ObTex {
            id_otex,
            id_ocomp: None,
            codigo: Vec::new(),
            literal: text(random, 60),
            altura: Some(random.below(1_000)),
            anchura: optional(random, 1_000),
            orientac: orientation(random),
            justifi: justification(random),
            posicion: Posicion::at(place(random, spread), height(random)),
        })
        .collect()
}

fn linears(random: &mut Random, linear_ids: &[u64], spread: Spread) -> Vec<ObLin> {
    linear_ids
        .iter()
        .map(|&id_olin| ObLin {
            id_olin,
            id_ocomp: None,
            codigo: Vec::new(),
            nombre_i: text(random, 60),
            centroide: centroid(random, spread),
        })
        .collect()
}

fn composites(random: &mut Random, count: usize, spread: Spread) -> Vec<ObComp> {
    ids(random, count)
        .into_iter()
        .map(|id_ocomp| ObComp {
            id_ocomp,
            codigo: Vec::new(),
            nombre_i: text(random, 60),
            centroide: centroid(random, spread),
        })
        .collect()
}

/// Each composite is named by an object at least, of any file that can; half
/// of the others belong to none.
fn give_composites(random: &mut Random, model: &mut Model) {
    let own_ids: Vec<u64> = model.ob_comp.iter().map(|record| record.id_ocomp).collect();
    let mut objects = model.memberships();
    random.shuffle(&mut objects);
    for (turn, membership) in objects.into_iter().enumerate() {
        *membership = match own_ids.get(turn) {
            Some(&id) => Some(id),
            None if random.chance(1, 2) => None,
            None => Some(random.pick(&own_ids)),
        };
    }
}

/// None, X and Y alone, or all three.
fn centroid(random: &mut Random, spread: Spread) -> Posicion {
    match random.below(3) {
        0 => Posicion::default(),
        1 => Posicion::at(place(random, spread), None),
        _ => Posicion::at(place(random, spread), height(random)),
    }
}

/// A catalogue with a code at least for every type in use, and a code of its
/// type for every record that needs one.
fn give_codes(random: &mut Random, model: &mut Model, counts: &Counts) {
    let in_use = [
        !model.ob_pun.is_empty(),
        !model.ob_tex.is_empty(),
        !model.ob_lin.is_empty(),
        !model.tramo.is_empty(),
        !model.ob_comp.is_empty(),
    ];
    let mut types: Vec<u8> = (0..TYPES.len())
        .filter(|&place| in_use[place])
        .map(|place| TYPES[place])
        .collect();
    while types.len() < counts.catalogo {
        types.push(random.pick(counts.types));
    }
    let mut taken = BTreeSet::new();
    let mut by_type: BTreeMap<u8, Vec<Vec<u8>>> = BTreeMap::new();
    for tipo in types {
        let codigo = fresh_code(random, &taken);
        taken.insert(codigo.clone());
        by_type.entry(tipo).or_default().push(codigo.clone());
        model.catalogo.push(Catalogo {
            codigo,
            tipo,
            nombre_c: text(random, 60),
            definici: text(random, 60),
        });
    }
    let mut code = |tipo: u8| {
        let codes = &by_type[&tipo];
        codes[random.index(codes.len())].clone()
    };
    for record in &mut model.ob_pun {
        record.codigo = code(b'P');
    }
    for record in &mut model.ob_tex {
        record.codigo = code(b'X');
    }
    for record in &mut model.ob_lin {
        record.codigo = code(b'L');
    }
    for record in &mut model.tramo {
        record.codigo = code(b'T');
    }
    for record in &mut model.ob_comp {
        record.codigo = code(b'C');
    }
}

/// Files may hold their records in any order.
pub(crate) fn shuffle_files(random: &mut Random, model: &mut Model) {
    random.shuffle(&mut model.catalogo);
    random.shuffle(&mut model.ob_pun);
    random.shuffle(&mut model.ob_tex);
    random.shuffle(&mut model.ob_lin);
    random.shuffle(&mut model.tramo);
    random.shuffle(&mut model.vertice);
    random.shuffle(&mut model.nodo);
    random.shuffle(&mut model.ob_comp);
}

/// Small deliveries are also met as laid, or turned round.
fn arrange_files(random: &mut Random, model: &mut Model) {
    match random.below(6) {
        0 => {}
        1 => model.vertice.reverse(),
        2 => random.shuffle(&mut model.vertice),
        _ => shuffle_files(random, model),
    }
}
