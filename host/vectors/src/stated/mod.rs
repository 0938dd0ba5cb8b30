//! Deliveries stated by hand, from document 01, each with the line that it
//! should give and what was damaged beside it.
//!
//! Names: `s`, `ejemplo-10-2`, `case-01` to `case-13` as document 01 and source
//! 000 say; `ejemplo-10-3-nodos` and its like, the nodes and lines of source
//! 000's other examples; `rich`, the lawful delivery that most others damage;
//! `rNN-..`, refused with reason NN first; `ok-..`, near misses that stay
//! accepted. composites.rs has all that is about OB_COMP, whatever the reason.
//!
//! Fields by number, for reading the damage; a place is the six fields sign, X,
//! sign, Y, sign, Z:
//!
//! | | |
//! |---|---|
//! | CATALOGO | 1 CODIGO, 2 TIPO, 3 NOMBRE_C, 4 DEFINICI |
//! | OB_PUN | 1 id, 2 composite, 3 node, 4 CODIGO, 5 name, 6 orientation, 7 M, 8 to 13 place |
//! | OB_TEX | 1 id, 2 composite, 3 CODIGO, 4 LITERAL, 5 height, 6 width, 7 orientation, 8 justification, 9 to 14 place |
//! | OB_LIN | 1 id, 2 composite, 3 CODIGO, 4 name, 5 to 10 centroid |
//! | TRAMO | 1 id, 2 linear object, 3 perimeter, 4 line, 5 CODIGO, 6 start, 7 end, 8 sense |
//! | VERTICE | 1 line, 2 order, 3 to 8 place |
//! | NODO | 1 id, 2 TIPO, 3 to 8 place |
//! | OB_COMP | 1 id, 2 CODIGO, 3 name, 4 to 9 centroid |

mod bases;
mod cases;
mod composites;
mod fields;
mod keys;
mod near;
mod shape;
mod topology;

use crate::draft::{Draft, Rows};
use bases::{ALONE, DRAINS, KINDS, OBJECTS, PITS, RICH, S};
use deliveries::{Files, VERTICE};

/// A delivery and the line that it should give, without its line feed.
pub struct Stated {
    pub name: &'static str,
    pub line: &'static str,
    pub files: Files,
}

/// All of them, in the order of their reasons but for those of OB_COMP.
pub fn stated() -> Vec<Stated> {
    let groups = [
        cases::cases(),
        shape::reason_10(),
        shape::reason_11(),
        shape::reason_20(),
        shape::reason_21(),
        fields::reason_22(),
        fields::reason_23(),
        fields::reason_23_by_a0(),
        fields::reason_24(),
        fields::reason_25(),
        fields::reason_25_by_notes(),
        keys::reason_30(),
        keys::reason_40(),
        keys::reason_41(),
        topology::reason_50(),
        topology::reason_51(),
        topology::reason_52(),
        topology::reason_53(),
        topology::reason_54(),
        topology::reason_55(),
        topology::reason_56(),
        topology::reason_57(),
        topology::reason_58(),
        near::near_misses(),
        near::near_codes_and_domains(),
        composites::examples(),
        composites::damaged_records(),
        composites::keys_and_references(),
        composites::reason_70(),
        composites::near_misses(),
    ];
    groups.into_iter().flatten().collect()
}

/// S with a damage.
fn s(name: &'static str, line: &'static str, damage: fn(&mut Draft)) -> Stated {
    Stated::over(S, name, line, damage)
}

/// The richer delivery with a damage.
fn rich(name: &'static str, line: &'static str, damage: fn(&mut Draft)) -> Stated {
    Stated::over(RICH, name, line, damage)
}

/// Nodes of each kind but the isolated one, with a damage.
fn kinds(name: &'static str, line: &'static str, damage: fn(&mut Draft)) -> Stated {
    Stated::over(KINDS, name, line, damage)
}

/// The isolated node with a damage.
fn alone(name: &'static str, line: &'static str, damage: fn(&mut Draft)) -> Stated {
    Stated::over(ALONE, name, line, damage)
}

/// The point object and the text with a damage.
fn objects(name: &'static str, line: &'static str, damage: fn(&mut Draft)) -> Stated {
    Stated::over(OBJECTS, name, line, damage)
}

/// The two pits and their composites with a damage.
fn pits(name: &'static str, line: &'static str, damage: fn(&mut Draft)) -> Stated {
    Stated::over(PITS, name, line, damage)
}

/// The drains and their composites with a damage.
fn drains(name: &'static str, line: &'static str, damage: fn(&mut Draft)) -> Stated {
    Stated::over(DRAINS, name, line, damage)
}

impl Stated {
    fn over(rows: &Rows, name: &'static str, line: &'static str, damage: fn(&mut Draft)) -> Stated {
        let mut draft = Draft::new(rows);
        damage(&mut draft);
        Stated {
            name,
            line,
            files: draft.files(),
        }
    }
}

/// The richer delivery's vertices of line 20 in the order 1, 10, 11, 2, 3 to 9,
/// where they stand in the file.
fn sort_line_20_as_text(d: &mut Draft) {
    let by_order: Vec<Vec<u8>> = d.records[VERTICE].drain(1..12).rev().collect();
    let as_text =
        [1, 10, 11, 2, 3, 4, 5, 6, 7, 8, 9].map(|order: usize| by_order[order - 1].clone());
    d.records[VERTICE].splice(1..1, as_text);
}
