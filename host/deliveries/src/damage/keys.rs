//! Damage to keys, references and types: reasons 30, 40 and 41.

use std::collections::BTreeSet;

use super::{places_where, strike, ValueStep};
use crate::graft::{
    codes, codes_in_use, free_place, line_ids, linear_ids, node_ids, node_ids_in_use, slip_in,
    tramo_ids,
};
use crate::layout::TYPES;
use crate::model::{Model, Posicion, Tramo, Vertice};
use crate::random::Random;
use crate::values::{any_id, code_beside, fresh_id, ID_MOST};

/// Changes any one of the records.
fn change<T>(random: &mut Random, records: &mut [T], to: impl FnOnce(&mut T)) -> bool {
    let place = random.one_of((0..records.len()).collect());
    strike(place, |place| to(&mut records[place]))
}

// Reason 30.

pub const DOUBLED_KEY: &[ValueStep] = &[
    |random, model| {
        double(random, &mut model.catalogo, |key, to| {
            to.codigo = key.codigo
        })
    },
    |random, model| {
        double(random, &mut model.ob_pun, |key, to| {
            to.id_opun = key.id_opun
        })
    },
    |random, model| {
        double(random, &mut model.ob_tex, |key, to| {
            to.id_otex = key.id_otex
        })
    },
    |random, model| {
        double(random, &mut model.ob_lin, |key, to| {
            to.id_olin = key.id_olin
        })
    },
    |random, model| {
        double(random, &mut model.tramo, |key, to| {
            to.id_tramo = key.id_tramo
        })
    },
    |random, model| double(random, &mut model.vertice, give_line_and_order),
    |random, model| double(random, &mut model.nodo, |key, to| to.id_nodo = key.id_nodo),
    |random, model| {
        double(random, &mut model.ob_comp, |key, to| {
            to.id_ocomp = key.id_ocomp
        })
    },
];

/// Gives a record's key to another one, or to a copy of itself.
fn double<T: Clone>(random: &mut Random, records: &mut Vec<T>, give_key: fn(T, &mut T)) -> bool {
    let from = random.one_of((0..records.len()).collect());
    strike(from, |from: usize| {
        let record = records[from].clone();
        if records.len() > 1 && random.chance(2, 3) {
            let step = 1 + random.index(records.len() - 1);
            let to = (from + step) % records.len();
            give_key(record, &mut records[to]);
        } else {
            slip_in(random, records, record);
        }
    })
}

/// In VERTICE line and order are the key together.
fn give_line_and_order(key: Vertice, to: &mut Vertice) {
    to.id_linea = key.id_linea;
    to.no_orden = key.no_orden;
}

// Reason 40.

pub const PERIMETER_GIVEN: &[ValueStep] = &[|random, model| {
    let id = given_id(random, model);
    change(random, &mut model.tramo, |tramo| tramo.id_perim = Some(id))
}];

/// Any number will do, 0 and ids of other files among them.
fn given_id(random: &mut Random, model: &Model) -> u64 {
    let known: Vec<u64> = linear_ids(model).into_iter().collect();
    match random.below(4) {
        0 => 0,
        1 => ID_MOST,
        2 if !known.is_empty() => random.pick(&known),
        _ => any_id(random),
    }
}

pub const UNKNOWN_CODE: &[ValueStep] = &[
    |random, model| {
        let taken = codes(model);
        spoil_code(random, &mut model.ob_pun, &taken, |point| &mut point.codigo)
    },
    |random, model| {
        let taken = codes(model);
        spoil_code(random, &mut model.ob_tex, &taken, |text| &mut text.codigo)
    },
    |random, model| {
        let taken = codes(model);
        spoil_code(random, &mut model.ob_lin, &taken, |linear| {
            &mut linear.codigo
        })
    },
    |random, model| {
        let taken = codes(model);
        spoil_code(random, &mut model.tramo, &taken, |tramo| &mut tramo.codigo)
    },
    |random, model| {
        let taken = codes(model);
        spoil_code(random, &mut model.ob_comp, &taken, |composite| {
            &mut composite.codigo
        })
    },
    used_code_removed,
];

fn spoil_code<T>(
    random: &mut Random,
    records: &mut [T],
    taken: &BTreeSet<Vec<u8>>,
    code_of: fn(&mut T) -> &mut Vec<u8>,
) -> bool {
    let place = random.one_of((0..records.len()).collect());
    strike(place, |place: usize| {
        let code = code_of(&mut records[place]);
        *code = code_beside(random, code, taken);
    })
}

fn used_code_removed(random: &mut Random, model: &mut Model) -> bool {
    let used = codes_in_use(model);
    let places = places_where(&model.catalogo, |record| used.contains(&record.codigo));
    strike(random.one_of(places), |place| {
        model.catalogo.remove(place);
    })
}

pub const UNKNOWN_NODE: &[ValueStep] = &[
    |random, model| {
        let id = fresh_id(random, &node_ids(model));
        change(random, &mut model.ob_pun, |point| point.id_nodo = Some(id))
    },
    |random, model| {
        let id = fresh_id(random, &node_ids(model));
        change(random, &mut model.tramo, |tramo| tramo.id_nodoi = id)
    },
    |random, model| {
        let id = fresh_id(random, &node_ids(model));
        change(random, &mut model.tramo, |tramo| tramo.id_nodof = id)
    },
    |random, model| {
        let used = node_ids_in_use(model);
        let places = places_where(&model.nodo, |node| used.contains(&node.id_nodo));
        strike(random.one_of(places), |place| {
            model.nodo.remove(place);
        })
    },
];

pub const UNKNOWN_LINEAR: &[ValueStep] = &[
    |random, model| {
        let id = fresh_id(random, &linear_ids(model));
        change(random, &mut model.tramo, |tramo| tramo.id_olin = id)
    },
    |random, model| {
        let used: BTreeSet<u64> = model.tramo.iter().map(|tramo| tramo.id_olin).collect();
        let places = places_where(&model.ob_lin, |linear| used.contains(&linear.id_olin));
        strike(random.one_of(places), |place| {
            model.ob_lin.remove(place);
        })
    },
];

pub const UNKNOWN_LINE: &[ValueStep] = &[
    |random, model| {
        let id = fresh_id(random, &line_ids(model));
        change(random, &mut model.tramo, |tramo| tramo.id_linea = Some(id))
    },
    blank_without_own_line,
    own_id_changed_under_blank,
    |random, model| {
        strike(random.one_of(used_lines(model)), |line| {
            model.vertice.retain(|vertex| vertex.id_linea != line);
        })
    },
];

/// Blank means the line of the tramo's own id, and there is none.
fn blank_without_own_line(random: &mut Random, model: &mut Model) -> bool {
    let places = places_where(&model.tramo, |tramo| !model.has_line(tramo.id_tramo));
    strike(random.one_of(places), |place: usize| {
        model.tramo[place].id_linea = None;
    })
}

fn own_id_changed_under_blank(random: &mut Random, model: &mut Model) -> bool {
    let mut taken = line_ids(model);
    taken.extend(tramo_ids(model));
    let id = fresh_id(random, &taken);
    let places = places_where(&model.tramo, |tramo| tramo.id_linea.is_none());
    strike(random.one_of(places), |place: usize| {
        model.tramo[place].id_tramo = id;
    })
}

/// Lines that have vertices and a tramo.
fn used_lines(model: &Model) -> Vec<u64> {
    let used: BTreeSet<u64> = model.tramo.iter().map(Tramo::line).collect();
    let mut lines = model.lines();
    lines.retain(|line| used.contains(line));
    lines
}

pub const UNUSED_LINE: &[ValueStep] = &[
    |random, model| {
        let id = fresh_id(random, &line_ids(model));
        change(random, &mut model.vertice, |vertex| vertex.id_linea = id)
    },
    |random, model| {
        let id = fresh_id(random, &line_ids(model));
        add_line(random, model, id);
        true
    },
    |random, model| {
        strike(random.one_of(used_lines(model)), |line| {
            model.tramo.retain(|tramo| tramo.line() != line);
        })
    },
    line_of_tramo_naming_another,
    blank_filled_with_another_line,
];

fn add_line(random: &mut Random, model: &mut Model, id_linea: u64) {
    for no_orden in 1..3 {
        let vertex = Vertice {
            id_linea,
            no_orden,
            posicion: Posicion::at(free_place(random, model), None),
        };
        slip_in(random, &mut model.vertice, vertex);
    }
}

/// A tramo with a filled line id uses only the line it names, not also the
/// one of its own id.
fn line_of_tramo_naming_another(random: &mut Random, model: &mut Model) -> bool {
    let ids = tramo_ids(model)
        .difference(&line_ids(model))
        .copied()
        .collect();
    strike(random.one_of(ids), |id| add_line(random, model, id))
}

fn blank_filled_with_another_line(random: &mut Random, model: &mut Model) -> bool {
    let users = |line: u64| {
        model
            .tramo
            .iter()
            .filter(|tramo| tramo.line() == line)
            .count()
    };
    let mut pairs = Vec::new();
    for (place, tramo) in model.tramo.iter().enumerate() {
        if tramo.id_linea.is_none() && model.has_line(tramo.line()) && users(tramo.line()) == 1 {
            let others = model
                .lines()
                .into_iter()
                .filter(|&line| line != tramo.line());
            pairs.extend(others.map(|line| (place, line)));
        }
    }
    strike(random.one_of(pairs), |(place, line): (usize, u64)| {
        model.tramo[place].id_linea = Some(line);
    })
}

// Reason 41.

pub const CODE_OF_OTHER_TYPE: &[ValueStep] = &[
    |random, model| {
        let code = code_not_of(random, model, b'P');
        !model.ob_pun.is_empty()
            && strike(code, |code| {
                change(random, &mut model.ob_pun, |point| point.codigo = code);
            })
    },
    |random, model| {
        let code = code_not_of(random, model, b'X');
        !model.ob_tex.is_empty()
            && strike(code, |code| {
                change(random, &mut model.ob_tex, |text| text.codigo = code);
            })
    },
    |random, model| {
        let code = code_not_of(random, model, b'L');
        !model.ob_lin.is_empty()
            && strike(code, |code| {
                change(random, &mut model.ob_lin, |linear| linear.codigo = code);
            })
    },
    |random, model| {
        let code = code_not_of(random, model, b'T');
        !model.tramo.is_empty()
            && strike(code, |code| {
                change(random, &mut model.tramo, |tramo| tramo.codigo = code);
            })
    },
    |random, model| {
        let code = code_not_of(random, model, b'C');
        !model.ob_comp.is_empty()
            && strike(code, |code| {
                change(random, &mut model.ob_comp, |composite| {
                    composite.codigo = code
                });
            })
    },
    catalogued_type_changed,
];

fn code_not_of(random: &mut Random, model: &Model, tipo: u8) -> Option<Vec<u8>> {
    let place = random.one_of(places_where(&model.catalogo, |record| record.tipo != tipo))?;
    Some(model.catalogo[place].codigo.clone())
}

fn catalogued_type_changed(random: &mut Random, model: &mut Model) -> bool {
    let used = codes_in_use(model);
    let places = places_where(&model.catalogo, |record| used.contains(&record.codigo));
    strike(random.one_of(places), |place: usize| {
        let tipo = &mut model.catalogo[place].tipo;
        let mut others = TYPES.to_vec();
        others.retain(|other| other != tipo);
        *tipo = random.pick(&others);
    })
}
