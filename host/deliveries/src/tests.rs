//! The generator held against the rules, coarsely: which reasons occur, not
//! where.

use std::collections::{BTreeMap, BTreeSet};

use crate::damage::{byte_steps, value_steps};
use crate::graft::fill;
use crate::layout::{field_start, Form};
use crate::values::{code_is_missing, is_a_byte, ID_MOST, X_MOST, Y_MOST, Z_MOST};
use crate::*;

fn doubled<T: Ord>(mut keys: impl Iterator<Item = T>) -> bool {
    let mut seen = BTreeSet::new();
    !keys.all(|key| seen.insert(key))
}

/// The reasons from 30 on that occur among the values.
fn value_reasons(model: &Model) -> BTreeSet<u8> {
    let mut found = BTreeSet::new();
    let mut tell = |reason: u8, broken: bool| {
        if broken {
            found.insert(reason);
        }
    };

    tell(
        30,
        doubled(model.catalogo.iter().map(|record| &record.codigo)),
    );
    tell(
        30,
        doubled(model.ob_pun.iter().map(|record| record.id_opun)),
    );
    tell(
        30,
        doubled(model.ob_tex.iter().map(|record| record.id_otex)),
    );
    tell(
        30,
        doubled(model.ob_lin.iter().map(|record| record.id_olin)),
    );
    tell(
        30,
        doubled(model.tramo.iter().map(|record| record.id_tramo)),
    );
    tell(
        30,
        doubled(
            model
                .vertice
                .iter()
                .map(|record| (record.id_linea, record.no_orden)),
        ),
    );
    tell(30, doubled(model.nodo.iter().map(|record| record.id_nodo)));
    tell(
        30,
        doubled(model.ob_comp.iter().map(|record| record.id_ocomp)),
    );

    let types: BTreeMap<&Vec<u8>, u8> = model
        .catalogo
        .iter()
        .map(|record| (&record.codigo, record.tipo))
        .collect();
    let mut coded: Vec<(&Vec<u8>, u8)> = Vec::new();
    coded.extend(model.ob_pun.iter().map(|record| (&record.codigo, b'P')));
    coded.extend(model.ob_tex.iter().map(|record| (&record.codigo, b'X')));
    coded.extend(model.ob_lin.iter().map(|record| (&record.codigo, b'L')));
    coded.extend(model.tramo.iter().map(|record| (&record.codigo, b'T')));
    coded.extend(model.ob_comp.iter().map(|record| (&record.codigo, b'C')));
    for (code, tipo) in coded {
        tell(40, !types.contains_key(code));
        tell(
            41,
            types
                .get(code)
                .map_or(false, |&catalogued| catalogued != tipo),
        );
    }

    let nodes: BTreeMap<u64, Posicion> = model
        .nodo
        .iter()
        .map(|node| (node.id_nodo, node.posicion))
        .collect();
    let mut lines: BTreeMap<u64, BTreeMap<u64, Posicion>> = BTreeMap::new();
    for vertex in &model.vertice {
        lines
            .entry(vertex.id_linea)
            .or_default()
            .insert(vertex.no_orden, vertex.posicion);
    }
    let linears: BTreeSet<u64> = model.ob_lin.iter().map(|linear| linear.id_olin).collect();
    let used: BTreeSet<u64> = model.tramo.iter().map(Tramo::line).collect();
    let composites: BTreeSet<u64> = model.ob_comp.iter().map(|one| one.id_ocomp).collect();
    let mut members: Vec<Option<u64>> = Vec::new();
    members.extend(model.ob_pun.iter().map(|point| point.id_ocomp));
    members.extend(model.ob_tex.iter().map(|text| text.id_ocomp));
    members.extend(model.ob_lin.iter().map(|linear| linear.id_ocomp));
    for id in members.iter().flatten() {
        tell(40, !composites.contains(id));
    }
    for composite in &composites {
        tell(70, !members.contains(&Some(*composite)));
    }
    tell(40, lines.keys().any(|line| !used.contains(line)));
    for tramo in &model.tramo {
        tell(40, tramo.id_perim.is_some());
        tell(40, !linears.contains(&tramo.id_olin));
        tell(40, !lines.contains_key(&tramo.line()));
        tell(40, !nodes.contains_key(&tramo.id_nodoi));
        tell(40, !nodes.contains_key(&tramo.id_nodof));
    }

    for orders in lines.values() {
        let lacks = |order: u64| !orders.contains_key(&order);
        tell(
            50,
            orders
                .keys()
                .any(|&order| order == 0 || order > 1 && lacks(order - 1)),
        );
        tell(51, !lacks(1) && lacks(2));
    }
    for tramo in &model.tramo {
        let xy = |node: u64| nodes.get(&node).map(Posicion::xy);
        if let Some(orders) = lines.get(&tramo.line()) {
            let first = orders.get(&1).map(Posicion::xy);
            let last = orders.values().last().map(Posicion::xy);
            tell(52, first.is_some() && first != xy(tramo.id_nodoi));
            tell(53, last != xy(tramo.id_nodof));
        }
    }
    tell(
        54,
        doubled(
            model
                .nodo
                .iter()
                .map(|node| (node.posicion.xy(), node.posicion.z)),
        ),
    );
    let mut namers: BTreeMap<u64, usize> = BTreeMap::new();
    for point in &model.ob_pun {
        if let Some(id) = point.id_nodo {
            *namers.entry(id).or_default() += 1;
            tell(40, !nodes.contains_key(&id));
            tell(
                55,
                nodes
                    .get(&id)
                    .map_or(false, |node| node.xy() != point.posicion.xy()),
            );
        }
    }
    let ends: BTreeSet<u64> = model
        .tramo
        .iter()
        .flat_map(|tramo| [tramo.id_nodoi, tramo.id_nodof])
        .collect();
    let ground: BTreeSet<_> = model
        .vertice
        .iter()
        .map(|vertex| vertex.posicion.xy())
        .collect();
    let is_idle = |node: &Nodo| {
        let twice = namers.get(&node.id_nodo).map_or(false, |&times| times > 1);
        !ends.contains(&node.id_nodo) && !ground.contains(&node.posicion.xy()) && !twice
    };
    tell(56, model.nodo.iter().any(is_idle));
    let (mut first_or_last, mut between) = (BTreeSet::new(), BTreeSet::new());
    for orders in lines.values() {
        let last = orders.keys().last();
        for (order, position) in orders {
            let is_end = *order == 1 || Some(order) == last;
            let places = if is_end {
                &mut first_or_last
            } else {
                &mut between
            };
            places.insert(position.xy());
        }
    }
    let disagrees = |node: &Nodo| {
        let xy = node.posicion.xy();
        let is_end = ends.contains(&node.id_nodo) || first_or_last.contains(&xy);
        let is_between = between.contains(&xy);
        match node.tipo {
            b'A' => is_end || is_between,
            b'C' => !is_end && !is_between,
            b'E' => !is_end || is_between,
            b'I' => is_end || !is_between,
            b'H' => !is_end || !is_between,
            _ => false,
        }
    };
    tell(58, model.nodo.iter().any(disagrees));
    let named: BTreeSet<u64> = model.tramo.iter().map(|tramo| tramo.id_olin).collect();
    tell(57, linears.iter().any(|linear| !named.contains(linear)));
    found
}

/// The reasons below 30 that occur among the bytes.
fn form_reasons(files: &Files) -> BTreeSet<u8> {
    let mut found = BTreeSet::new();
    for file in 0..FILES {
        if files[file].len() > MOST_RECORDS * RECORD[file] {
            found.insert(10);
        }
        if files[file].len() % RECORD[file] != 0 {
            found.insert(11);
        }
        for record in files[file].chunks_exact(RECORD[file]) {
            record_reasons(file, record, &mut found);
        }
    }
    found
}

fn record_reasons(file: usize, record: &[u8], found: &mut BTreeSet<u8>) {
    let mut tell = |reason: u8, broken: bool| {
        if broken {
            found.insert(reason);
        }
    };
    tell(20, !record.ends_with(b"\r\n"));
    let mut contents: Vec<&[u8]> = Vec::new();
    let mut rest = &record[..record.len() - 1];
    for field in fields(file) {
        contents.push(&rest[..field.width]);
        tell(
            21,
            rest.len() > field.width + 1 && rest[field.width] != b'|',
        );
        rest = &rest[field.width + 1..];
    }
    let all = |bytes: &[u8], wanted: u8| bytes.iter().all(|&byte| byte == wanted);
    let blank: Vec<bool> = contents.iter().map(|bytes| all(bytes, b' ')).collect();
    for (place, field) in fields(file).iter().enumerate() {
        let bytes = contents[place];
        let sound = match field.form {
            Form::N => blank[place] || bytes.iter().all(u8::is_ascii_digit),
            Form::A => blank[place] || is_lawful_text(bytes),
        };
        tell(22, field.form == Form::N && !sound);
        tell(23, field.form == Form::A && !sound);
        let says = |word: &[u8]| bytes.starts_with(word) && all(&bytes[2..], b' ');
        let missing = blank[place] || field.is_code() && (says(b"NA") || says(b"ND"));
        tell(24, field.must && missing);
        let outside = match field.domain {
            Domain::Any => false,
            Domain::OneOf(inside) => !inside.contains(&bytes[0]),
            Domain::Angle => bytes > b"35959" || &bytes[3..] > b"59",
        };
        tell(25, sound && !missing && outside);
        if field.is_sign() {
            tell(24, blank[place] != blank[place + 1]);
            tell(25, bytes == b"-" && all(contents[place + 1], b'0'));
        }
    }
    let centroid = match file {
        OB_LIN => &blank[4..10],
        OB_COMP => &blank[3..9],
        _ => &[],
    };
    if centroid.contains(&false) {
        tell(24, centroid[..4].contains(&true));
    }
}

/// Whether a field that isn't blank keeps the A rule: its text goes from the
/// first byte to the last that isn't blank.
fn is_lawful_text(bytes: &[u8]) -> bool {
    let end = bytes.iter().rposition(|&byte| byte != b' ').unwrap();
    let a0_at_an_end = bytes[0] == 0xA0 || bytes[end] == 0xA0;
    bytes.iter().all(|&byte| is_a_byte(byte)) && bytes[0] != b' ' && !a0_at_an_end
}

fn size_of_seed(seed: u64) -> Size {
    match seed % 16 {
        0 => Size::UpTo(40),
        1 => Size::Exact(8 + seed as usize % 30),
        2 => Size::Composed(8 + seed as usize % 30),
        _ => Size::Small,
    }
}

#[test]
fn layout_is_that_of_the_document() {
    for (file, &length) in RECORD.iter().enumerate() {
        let widths: usize = fields(file).iter().map(|field| field.width).sum();
        assert_eq!(widths + fields(file).len() + 1, length);
    }
    let must = |file: usize| {
        let places = 1..=fields(file).len();
        places
            .filter(|&place| fields(file)[place - 1].must)
            .collect::<Vec<_>>()
    };
    assert_eq!(must(CATALOGO), [1, 2]);
    assert_eq!(must(OB_PUN), [1, 4, 8, 9, 10, 11]);
    assert_eq!(must(OB_TEX), [1, 3, 5, 8, 9, 10, 11, 12]);
    assert_eq!(must(OB_LIN), [1, 3]);
    assert_eq!(must(TRAMO), [1, 2, 5, 6, 7]);
    assert_eq!(must(VERTICE), [1, 2, 3, 4, 5, 6]);
    assert_eq!(must(NODO), [1, 3, 4, 5, 6]);
    assert_eq!(must(OB_COMP), [1, 2]);
}

#[test]
fn a_node_is_written_as_in_the_document() {
    let model = Model {
        nodo: vec![Nodo {
            id_nodo: 1,
            tipo: b' ',
            posicion: Posicion::at((100, 200), None),
        }],
        ..Model::default()
    };
    let expected = b"0000000001| |+|000000100|+|0000000200| |        \r\n";
    assert_eq!(write(&model)[NODO], expected);
}

#[test]
fn same_seed_same_bytes() {
    for seed in 0..50 {
        let small = || write(&lawful(&mut Random::new(seed), Size::Small));
        assert_eq!(small(), small());
        let exact = || full(&mut Random::new(seed), 40);
        assert_eq!(exact(), exact());
        let eight = || composed(&mut Random::new(seed), 40);
        assert_eq!(eight(), eight());
        let broken = || damaged(&mut Random::new(seed));
        assert_eq!(broken(), broken());
    }
    assert_ne!(full(&mut Random::new(1), 40), full(&mut Random::new(2), 40));
}

#[test]
fn lawful_deliveries_are_lawful() {
    for seed in 0..2500 {
        let size = size_of_seed(seed);
        let model = lawful(&mut Random::new(seed), size);
        let files = write(&model);
        for file in 0..FILES {
            assert_eq!(files[file].len() % RECORD[file], 0);
            if size == Size::Small {
                assert!(files[file].len() <= 12 * RECORD[file]);
            }
        }
        assert_eq!(form_reasons(&files), BTreeSet::new(), "seed {}", seed);
        assert_eq!(value_reasons(&model), BTreeSet::new(), "seed {}", seed);
    }
}

#[test]
fn full_deliveries_are_full_and_lawful() {
    for n in [8, 9, 64, 1000, MOST_RECORDS] {
        let plain = full(&mut Random::new(n as u64), n);
        let eight = composed(&mut Random::new(n as u64), n);
        for file in 0..FILES {
            let many = if file == OB_COMP { 0 } else { n };
            assert_eq!(plain[file].len(), many * RECORD[file]);
            assert_eq!(eight[file].len(), n * RECORD[file]);
        }
        for (size, files) in [(Size::Exact(n), plain), (Size::Composed(n), eight)] {
            assert_eq!(form_reasons(&files), BTreeSet::new());
            let model = lawful(&mut Random::new(n as u64), size);
            assert_eq!(value_reasons(&model), BTreeSet::new());
            assert_eq!(write(&model), files);
        }
    }
}

type Sight = (&'static str, fn(&Model) -> bool);

fn any_position(model: &Model, wanted: fn(&Posicion) -> bool) -> bool {
    let vertices = model.vertice.iter().map(|record| record.posicion);
    let nodes = model.nodo.iter().map(|record| record.posicion);
    vertices.chain(nodes).any(|position| wanted(&position))
}

fn any_code(model: &Model, wanted: fn(&[u8]) -> bool) -> bool {
    model.catalogo.iter().any(|record| wanted(&record.codigo))
}

fn any_name(model: &Model, wanted: fn(&[u8]) -> bool) -> bool {
    model.ob_lin.iter().any(|record| wanted(&record.nombre_i))
}

fn line_lengths(model: &Model) -> Vec<usize> {
    let lines = model.lines().into_iter();
    lines.map(|line| model.line_vertices(line).len()).collect()
}

fn nodes_of(model: &Model, wanted: fn(&Model, &Nodo) -> bool) -> bool {
    model.nodo.iter().any(|node| wanted(model, node))
}

fn is_end(model: &Model, node: &Nodo) -> bool {
    let mut tramos = model.tramo.iter();
    tramos.any(|tramo| tramo.id_nodoi == node.id_nodo || tramo.id_nodof == node.id_nodo)
}

fn has_coded(model: &Model, code: u8, kind: Kind) -> bool {
    let kinds = Kinds::of(model);
    let mut coded = model.nodo.iter().filter(|node| node.tipo == code);
    coded.any(|node| kinds.kind(node) == kind)
}

fn tramo_pairs(model: &Model, wanted: fn(&Tramo, &Tramo) -> bool) -> bool {
    let mut firsts = model.tramo.iter().enumerate();
    firsts.any(|(place, first)| {
        model.tramo[place + 1..]
            .iter()
            .any(|second| wanted(first, second))
    })
}

/// Whether a composite has members in these of OB_PUN, OB_TEX and OB_LIN alone.
fn has_members(model: &Model, files: [bool; 3]) -> bool {
    let mut composites = model.ob_comp.iter().map(|one| Some(one.id_ocomp));
    composites.any(|id| {
        let points = model.ob_pun.iter().any(|point| point.id_ocomp == id);
        let texts = model.ob_tex.iter().any(|text| text.id_ocomp == id);
        let linears = model.ob_lin.iter().any(|linear| linear.id_ocomp == id);
        [points, texts, linears] == files
    })
}

const SIGHTS: &[Sight] = &[
    ("all empty", |model| *model == Model::default()),
    ("empty CATALOGO", |model| model.catalogo.is_empty()),
    ("empty OB_PUN", |model| {
        model.ob_pun.is_empty() && !model.tramo.is_empty()
    }),
    ("empty OB_TEX", |model| {
        model.ob_tex.is_empty() && !model.tramo.is_empty()
    }),
    ("empty TRAMO", |model| {
        model.tramo.is_empty() && !model.nodo.is_empty()
    }),
    ("point without node", |model| {
        model.ob_pun.iter().any(|point| point.id_nodo.is_none())
    }),
    ("point with node", |model| {
        model.ob_pun.iter().any(|point| point.id_nodo.is_some())
    }),
    ("point naming node 0", |model| {
        model.ob_pun.iter().any(|point| point.id_nodo == Some(0))
    }),
    ("point away from its node in Z", |model| {
        model.ob_pun.iter().any(|point| {
            let node = point.id_nodo.and_then(|id| model.node(id));
            node.map_or(false, |node| {
                model.nodo[node].posicion.z != point.posicion.z
            })
        })
    }),
    ("text without options", |model| {
        model
            .ob_tex
            .iter()
            .any(|text| text.anchura.is_none() && text.orientac.is_none())
    }),
    ("text with options", |model| {
        model
            .ob_tex
            .iter()
            .any(|text| text.anchura.is_some() && text.orientac.is_some())
    }),
    ("no centroid", |model| {
        model
            .ob_lin
            .iter()
            .any(|linear| linear.centroide.x.is_none())
    }),
    ("centroid of X and Y", |model| {
        model
            .ob_lin
            .iter()
            .any(|linear| linear.centroide.x.is_some() && linear.centroide.z.is_none())
    }),
    ("full centroid", |model| {
        model
            .ob_lin
            .iter()
            .any(|linear| linear.centroide.z.is_some())
    }),
    ("blank line id", |model| {
        model.tramo.iter().any(|tramo| tramo.id_linea.is_none())
    }),
    ("line id equal to own", |model| {
        model
            .tramo
            .iter()
            .any(|tramo| tramo.id_linea == Some(tramo.id_tramo))
    }),
    ("line id unlike own", |model| {
        model
            .tramo
            .iter()
            .any(|tramo| tramo.line() != tramo.id_tramo)
    }),
    ("line with the id of another tramo", |model| {
        tramo_pairs(model, |one, other| {
            one.line() != other.line() && one.line() == other.id_tramo
        })
    }),
    ("line 0 by a blank id", |model| {
        model
            .tramo
            .iter()
            .any(|tramo| tramo.id_linea.is_none() && tramo.id_tramo == 0)
    }),
    ("sense +", |model| {
        model.tramo.iter().any(|tramo| tramo.sentido == b'+')
    }),
    ("sense -", |model| {
        model.tramo.iter().any(|tramo| tramo.sentido == b'-')
    }),
    ("blank sense", |model| {
        model.tramo.iter().any(|tramo| tramo.sentido == b' ')
    }),
    ("shared line with the same nodes", |model| {
        tramo_pairs(model, |one, other| {
            one.line() == other.line()
                && (one.id_nodoi, one.id_nodof) == (other.id_nodoi, other.id_nodof)
        })
    }),
    ("shared line with other nodes", |model| {
        tramo_pairs(model, |one, other| {
            one.line() == other.line() && one.id_nodoi != other.id_nodoi
        })
    }),
    ("several tramos of a linear object", |model| {
        tramo_pairs(model, |one, other| one.id_olin == other.id_olin)
    }),
    ("closed line", |model| {
        model
            .tramo
            .iter()
            .any(|tramo| tramo.id_nodoi == tramo.id_nodof)
    }),
    ("line of 2", |model| line_lengths(model).contains(&2)),
    ("line of 3", |model| line_lengths(model).contains(&3)),
    ("line of 10 and more", |model| {
        line_lengths(model).iter().any(|&length| length >= 10)
    }),
    ("vertices out of order", |model| {
        model
            .vertice
            .windows(2)
            .any(|two| two[0].id_linea == two[1].id_linea && two[0].no_orden > two[1].no_orden)
    }),
    ("nodes above each other", |model| {
        doubled(model.nodo.iter().map(|node| node.posicion.xy()))
    }),
    ("Z missing and Z 0 at one place", |model| {
        nodes_of(model, |model, node| {
            let below = Posicion {
                z: None,
                ..node.posicion
            };
            node.posicion.z == Some(0) && model.has_node_at(&below)
        })
    }),
    ("node held by a middle vertex alone", |model| {
        nodes_of(model, |model, node| {
            !is_end(model, node) && model.namers(node.id_nodo).is_empty()
        })
    }),
    ("node held by two points alone", |model| {
        nodes_of(model, |model, node| {
            !model.has_vertex_at(node.posicion.xy())
        })
    }),
    ("node held by three points alone", |model| {
        nodes_of(model, |model, node| {
            !model.has_vertex_at(node.posicion.xy()) && model.namers(node.id_nodo).len() == 3
        })
    }),
    ("node named by one point", |model| {
        nodes_of(model, |model, node| model.namers(node.id_nodo).len() == 1)
    }),
    ("node 0", |model| model.node(0).is_some()),
    ("largest node id", |model| model.node(ID_MOST).is_some()),
    ("tramo 0", |model| {
        model.tramo.iter().any(|tramo| tramo.id_tramo == 0)
    }),
    ("linear object 0", |model| {
        model.ob_lin.iter().any(|linear| linear.id_olin == 0)
    }),
    ("ids equal in 32 bits", |model| {
        doubled(model.nodo.iter().map(|node| node.id_nodo as u32))
    }),
    ("zero X", |model| {
        any_position(model, |position| position.x == Some(0))
    }),
    ("largest X", |model| {
        any_position(model, |position| position.x == Some(X_MOST))
    }),
    ("least X", |model| {
        any_position(model, |position| position.x == Some(-X_MOST))
    }),
    ("largest Y", |model| {
        any_position(model, |position| position.y == Some(Y_MOST))
    }),
    ("least Y", |model| {
        any_position(model, |position| position.y == Some(-Y_MOST))
    }),
    ("missing Z", |model| {
        any_position(model, |position| position.z.is_none())
    }),
    ("zero Z", |model| {
        any_position(model, |position| position.z == Some(0))
    }),
    ("least Z", |model| {
        any_position(model, |position| position.z == Some(-Z_MOST))
    }),
    ("code with blank", |model| {
        any_code(model, |code| code.contains(&b' '))
    }),
    ("code with bar", |model| {
        any_code(model, |code| code.contains(&b'|'))
    }),
    ("code with byte A0", |model| {
        any_code(model, |code| code.contains(&0xA0))
    }),
    ("code with byte FF", |model| {
        any_code(model, |code| code.contains(&0xFF))
    }),
    ("code na", |model| any_code(model, |code| code == b"na")),
    ("code N.D.", |model| any_code(model, |code| code == b"N.D.")),
    ("code in use of an odd shape", |model| {
        model.tramo.iter().any(|tramo| tramo.codigo.len() < 7)
    }),
    ("unused code", |model| {
        !model.catalogo.is_empty() && model.ob_pun.is_empty() && {
            model.catalogo.iter().any(|record| record.tipo == b'P')
        }
    }),
    ("name NA", |model| any_name(model, |name| name == b"NA")),
    ("name ND", |model| any_name(model, |name| name == b"ND")),
    ("empty name", |model| {
        any_name(model, |name| name.is_empty())
    }),
    ("name with bar", |model| {
        any_name(model, |name| name.contains(&b'|'))
    }),
    ("name with byte A0", |model| {
        any_name(model, |name| name.contains(&0xA0))
    }),
    ("name of full width", |model| {
        any_name(model, |name| name.len() == 60)
    }),
    ("name with blanks within", |model| {
        any_name(model, |name| name.windows(2).any(|two| two == b"  "))
    }),
    ("node without TIPO", |model| {
        nodes_of(model, |_, node| node.tipo == b' ')
    }),
    ("node A", |model| {
        nodes_of(model, |_, node| node.tipo == b'A')
    }),
    ("node E", |model| {
        nodes_of(model, |_, node| node.tipo == b'E')
    }),
    ("node I", |model| {
        nodes_of(model, |_, node| node.tipo == b'I')
    }),
    ("node H", |model| {
        nodes_of(model, |_, node| node.tipo == b'H')
    }),
    ("node C that is an end", |model| {
        has_coded(model, b'C', Kind::End)
    }),
    ("node C that is intermediate", |model| {
        has_coded(model, b'C', Kind::Intermediate)
    }),
    ("node C that is both", |model| {
        has_coded(model, b'C', Kind::Both)
    }),
    ("isolated node without TIPO", |model| {
        has_coded(model, b' ', Kind::Isolated)
    }),
    ("node without TIPO that is both", |model| {
        has_coded(model, b' ', Kind::Both)
    }),
    ("both on one line alone", |model| {
        model.lines().len() == 1 && has_coded(model, b'H', Kind::Both)
    }),
    ("no composites beside objects", |model| {
        model.ob_comp.is_empty() && !model.ob_pun.is_empty()
    }),
    ("composite of points", |model| {
        has_members(model, [true, false, false])
    }),
    ("composite of texts", |model| {
        has_members(model, [false, true, false])
    }),
    ("composite of linear objects", |model| {
        has_members(model, [false, false, true])
    }),
    ("composite of all three", |model| {
        has_members(model, [true; 3])
    }),
    ("composite 0 and an object of none", |model| {
        let blank = model.ob_tex.iter().any(|text| text.id_ocomp.is_none());
        blank && model.ob_comp.iter().any(|one| one.id_ocomp == 0)
    }),
    ("composite with the id of its linear object", |model| {
        model
            .ob_lin
            .iter()
            .any(|linear| linear.id_ocomp == Some(linear.id_olin))
    }),
    ("composite with a centroid without Z", |model| {
        let mut places = model.ob_comp.iter().map(|one| one.centroide);
        places.any(|place| place.x.is_some() && place.z.is_none())
    }),
    ("composite without a centroid", |model| {
        let mut places = model.ob_comp.iter().map(|one| one.centroide);
        places.any(|place| place == Posicion::default())
    }),
    ("code C that nothing uses", |model| {
        model.ob_comp.is_empty() && model.catalogo.iter().any(|record| record.tipo == b'C')
    }),
    ("orientation 0", |model| {
        model.ob_pun.iter().any(|point| point.orientac == Some(0))
    }),
    ("largest orientation", |model| {
        model
            .ob_tex
            .iter()
            .any(|text| text.orientac == Some(35_959))
    }),
    ("justification 1", |model| {
        model.ob_tex.iter().any(|text| text.justifi == Some(1))
    }),
    ("justification 9", |model| {
        model.ob_tex.iter().any(|text| text.justifi == Some(9))
    }),
];

#[test]
fn lawful_deliveries_show_everything() {
    let mut unseen: Vec<&Sight> = SIGHTS.iter().collect();
    for seed in 0..4000 {
        let model = lawful(&mut Random::new(seed), Size::Small);
        unseen.retain(|(_, is_seen)| !is_seen(&model));
    }
    let names: Vec<&str> = unseen.iter().map(|(name, _)| *name).collect();
    assert_eq!(names, Vec::<&str>::new());
}

fn sorted_records(files: &Files) -> Vec<Vec<&[u8]>> {
    let records = |file: usize| {
        let mut list: Vec<&[u8]> = files[file].chunks(RECORD[file]).collect();
        list.sort_unstable();
        list
    };
    (0..FILES).map(records).collect()
}

/// The reasons after an aim, as far as they can be told: those of the values
/// only where no byte was damaged.
fn reasons_after(aim: Aim, before: &Files, model: &Model, files: &Files) -> BTreeSet<u8> {
    let mut found = form_reasons(files);
    if aim.layer() == Layer::Values {
        assert_eq!(write(model), *files);
        found.extend(value_reasons(model));
    } else if found.is_empty() && sorted_records(before) != sorted_records(files) {
        for records in sorted_records(files) {
            if doubled(records.into_iter()) {
                found.insert(30);
            }
        }
    }
    found
}

fn assert_outcome(aim: Aim, seed: u64, before: &Files, model: &Model, files: &Files) {
    let found = reasons_after(aim, before, model, files);
    match aim.outcome() {
        Outcome::Lawful => assert!(found.is_empty(), "seed {}, {}: {:?}", seed, aim, found),
        Outcome::Broken(reason) => {
            let least = found.iter().next().copied().unwrap_or(0);
            let kept = found.contains(&reason) && least / 10 == reason / 10;
            assert!(kept, "seed {}, {}: {:?}", seed, aim, found);
        }
        Outcome::Open => {}
    }
    let changed = before != files;
    assert!(
        changed || aim.is_near_miss(),
        "seed {}, {}: no change",
        seed,
        aim
    );
}

#[test]
fn aims_do_what_they_say() {
    for aim in AIMS.iter().copied().filter(|aim| !aim.is_big()) {
        let mut changes = 0;
        for seed in 0..60 {
            let mut random = Random::new(seed);
            let mut model = lawful(&mut random, size_of_seed(seed));
            let before = write(&model);
            let mut files = before.clone();
            damage(&mut random, &mut model, &mut files, aim);
            assert_outcome(aim, seed, &before, &model, &files);
            if files != before {
                changes += 1;
            }
        }
        assert!(changes > 30, "{} changed only {} of 60", aim, changes);
    }
}

/// Each single step strikes somewhere, and then brings about what its aim
/// promises.
#[test]
fn steps_do_what_their_aims_say() {
    for aim in AIMS
        .iter()
        .copied()
        .filter(|&aim| !aim.is_big() && aim != Aim::AllEmpty)
    {
        let steps = match aim.layer() {
            Layer::Values => value_steps(aim).len(),
            Layer::Bytes => byte_steps(aim).len(),
        };
        for step in 0..steps {
            let mut strikes = 0;
            for seed in 0..30 {
                let mut random = Random::new(seed);
                let mut model = lawful(&mut random, Size::UpTo(16));
                let before = write(&model);
                let mut files = before.clone();
                let struck = match aim.layer() {
                    Layer::Values => value_steps(aim)[step](&mut random, &mut model),
                    Layer::Bytes => byte_steps(aim)[step](&mut random, &mut files),
                };
                if struck && aim.layer() == Layer::Values {
                    files = write(&model);
                }
                if struck {
                    strikes += 1;
                    assert_outcome(aim, seed, &before, &model, &files);
                }
            }
            assert!(strikes > 0, "step {} of {} never strikes", step, aim);
        }
    }
}

#[test]
fn any_file_can_be_filled_lawfully() {
    for file in 0..FILES {
        let mut random = Random::new(file as u64);
        let mut model = lawful(&mut random, Size::Small);
        fill(&mut random, &mut model, file, MOST_RECORDS);
        let files = write(&model);
        assert_eq!(files[file].len(), MOST_RECORDS * RECORD[file]);
        assert_eq!(form_reasons(&files), BTreeSet::new());
        assert_eq!(value_reasons(&model), BTreeSet::new());
    }
}

#[test]
fn big_aims_do_what_they_say() {
    for (aim, seeds) in [(Aim::AtTheLimit, 0..2), (Aim::TooLong, 0..8)] {
        for seed in seeds {
            let mut random = Random::new(seed);
            let mut model = lawful(&mut random, Size::Small);
            let before = write(&model);
            let mut files = before.clone();
            damage(&mut random, &mut model, &mut files, aim);
            assert_outcome(aim, seed, &before, &model, &files);
        }
    }
}

/// Every field, counted from 0, that an aim changed over many seeds.
fn struck_fields(aim: Aim) -> BTreeSet<(usize, usize)> {
    let mut struck = BTreeSet::new();
    for seed in 0..2000 {
        let mut random = Random::new(seed);
        let mut model = lawful(&mut random, Size::Composed(8));
        let before = write(&model);
        let mut files = before.clone();
        damage(&mut random, &mut model, &mut files, aim);
        for file in 0..FILES {
            let mut bytes = before[file].iter().zip(&files[file]);
            if let Some(byte) = bytes.position(|(old, new)| old != new) {
                let places = 0..fields(file).len();
                let mut begun =
                    places.filter(|&place| field_start(file, place) <= byte % RECORD[file]);
                struck.extend(begun.next_back().map(|place| (file, place)));
            }
        }
    }
    struck
}

fn fields_where(wanted: fn(&Field) -> bool) -> BTreeSet<(usize, usize)> {
    let mut found = BTreeSet::new();
    for file in 0..FILES {
        let places = 0..fields(file).len();
        found.extend(
            places
                .filter(|&place| wanted(&fields(file)[place]))
                .map(|place| (file, place)),
        );
    }
    found
}

#[test]
fn aims_strike_every_field_they_can() {
    assert_eq!(
        struck_fields(Aim::MissingField),
        fields_where(|field| field.must)
    );
    assert_eq!(
        struck_fields(Aim::OutsideDomain),
        fields_where(Field::has_domain)
    );
    assert_eq!(
        struck_fields(Aim::BrokenNumber),
        fields_where(|field| field.form == Form::N)
    );
    assert_eq!(
        struck_fields(Aim::BrokenText),
        fields_where(|field| field.form == Form::A)
    );
    assert_eq!(
        struck_fields(Aim::NoBreakPadding),
        fields_where(|field| field.form == Form::A)
    );
    assert!(struck_fields(Aim::MinusZero).is_superset(&fields_where(Field::is_sign)));
    assert!(struck_fields(Aim::MissingPartner).is_superset(&fields_where(Field::is_sign)));
    let before_a_bar = fields_where(|_| true).len() - FILES;
    assert_eq!(struck_fields(Aim::NoBar).len(), before_a_bar);
}

#[test]
fn damaged_deliveries_use_every_small_aim() {
    let mut seen = BTreeSet::new();
    for seed in 0..3000 {
        let (_, aims) = damaged(&mut Random::new(seed));
        assert!((1..=3).contains(&aims.len()));
        seen.extend(aims);
    }
    let small: BTreeSet<Aim> = AIMS.iter().copied().filter(|aim| !aim.is_big()).collect();
    assert_eq!(seen, small);
}

#[test]
fn the_table_is_in_the_order_of_the_aims() {
    for (place, &aim) in AIMS.iter().enumerate() {
        assert_eq!(aim as usize, place);
    }
    assert_eq!(Aim::MixedComposites as usize + 1, AIMS.len());
    let told = [
        10, 11, 20, 21, 22, 23, 24, 25, 30, 40, 41, 50, 51, 52, 53, 54, 55, 56, 57, 58, 70,
    ];
    for reason in told {
        assert!(AIMS
            .iter()
            .any(|aim| aim.outcome() == Outcome::Broken(reason)));
    }
}

#[test]
fn an_aim_says_what_it_is() {
    assert_eq!(
        Aim::MinusZero.to_string(),
        "MinusZero, for reason 25: - before zero"
    );
    assert_eq!(
        Aim::SecondTramo.to_string(),
        "SecondTramo, a near miss: a further tramo over a line"
    );
    assert_eq!(
        Aim::Truncated.to_string(),
        "Truncated, blunt: a file cut at any length"
    );
}

#[test]
fn drawn_codes_are_never_missing() {
    for seed in 0..500 {
        let model = lawful(&mut Random::new(seed), Size::Small);
        assert!(!model
            .catalogo
            .iter()
            .any(|record| code_is_missing(&record.codigo)));
    }
}
