//! What a node is by the tramos and vertices there, and the codes of source
//! 000's section 5.6.11 that agree with it.

use std::collections::{BTreeMap, BTreeSet};

use crate::model::{Model, Nodo};
use crate::random::Random;

#[derive(Clone, Copy, Debug, PartialEq, Eq)]
pub enum Kind {
    /// Neither end nor intermediate.
    Isolated,
    /// It starts or ends a tramo, or lies at a line's first or last vertex.
    End,
    /// It lies at another vertex.
    Intermediate,
    /// An end and intermediate, on one line or on two.
    Both,
}

impl Kind {
    /// The codes that may be said of such a node. A blank may always stand.
    pub fn codes(self) -> &'static [u8] {
        match self {
            Kind::Isolated => b"A",
            Kind::End => b"EC",
            Kind::Intermediate => b"IC",
            Kind::Both => b"HC",
        }
    }

    /// The codes that disagree with such a node.
    pub fn other_codes(self) -> Vec<u8> {
        let mut codes = b"ACEIH".to_vec();
        codes.retain(|code| !self.codes().contains(code));
        codes
    }

    fn agrees(self, code: u8) -> bool {
        code == b' ' || self.codes().contains(&code)
    }
}

type Xy = (Option<i64>, Option<i64>);

/// What the nodes of a delivery are.
pub struct Kinds {
    named: BTreeSet<u64>,
    ends: BTreeSet<Xy>,
    middles: BTreeSet<Xy>,
}

impl Kinds {
    pub fn of(model: &Model) -> Kinds {
        let mut highest: BTreeMap<u64, u64> = BTreeMap::new();
        for vertex in &model.vertice {
            let order = highest.entry(vertex.id_linea).or_default();
            *order = vertex.no_orden.max(*order);
        }
        let starts = model.tramo.iter().map(|tramo| tramo.id_nodoi);
        let mut kinds = Kinds {
            named: starts.collect(),
            ends: BTreeSet::new(),
            middles: BTreeSet::new(),
        };
        kinds
            .named
            .extend(model.tramo.iter().map(|tramo| tramo.id_nodof));
        for vertex in &model.vertice {
            // The first is the one of order 1, also where there is an order 0.
            let is_end = vertex.no_orden == 1 || vertex.no_orden == highest[&vertex.id_linea];
            let places = if is_end {
                &mut kinds.ends
            } else {
                &mut kinds.middles
            };
            places.insert(vertex.posicion.xy());
        }
        kinds
    }

    pub fn kind(&self, node: &Nodo) -> Kind {
        let xy = node.posicion.xy();
        let is_end = self.named.contains(&node.id_nodo) || self.ends.contains(&xy);
        match (is_end, self.middles.contains(&xy)) {
            (false, false) => Kind::Isolated,
            (true, false) => Kind::End,
            (false, true) => Kind::Intermediate,
            (true, true) => Kind::Both,
        }
    }
}

/// A code that agrees with a node of this kind, or a blank.
pub(crate) fn lawful_code(random: &mut Random, kind: Kind) -> u8 {
    if random.chance(2, 5) {
        b' '
    } else {
        random.pick(kind.codes())
    }
}

/// Draws anew every node's code that no longer agrees with what the node is.
pub(crate) fn mend_codes(random: &mut Random, model: &mut Model) {
    let kinds = Kinds::of(model);
    for node in &mut model.nodo {
        let kind = kinds.kind(node);
        if !kind.agrees(node.tipo) {
            node.tipo = lawful_code(random, kind);
        }
    }
}
