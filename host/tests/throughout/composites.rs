//! Deliveries in which every composite, or every object that names one, breaks one rule of 30 to 70, or as many as the rule allows. Each is
//! made of a lawful one with composites, and nothing else is broken in a ten up to the rule's own.

use super::keys::{strange_codes, strange_ids};
use super::Case;

pub const UNGROUPED: [Case; 8] = [
    ("30, one key in OB_COMP", "NO 30 8 00002 01", |model| {
        for composite in &mut model.ob_comp {
            composite.id_ocomp = 7;
        }
    }),
    ("40, ID_OCOMP of all objects", "NO 40 2 00001 02", |model| {
        let taken = model.ob_comp.iter().map(|record| record.id_ocomp);
        let ids = strange_ids(taken.collect());
        for (member, id) in model.memberships().into_iter().zip(ids) {
            *member = Some(id);
        }
    }),
    ("40, the composites are lost", "NO 40 2 00001 02", |model| {
        let some = model.ob_comp[0].id_ocomp;
        for member in model.memberships() {
            member.get_or_insert(some);
        }
        model.ob_comp.clear();
    }),
    ("40, CODIGO of OB_COMP", "NO 40 8 00001 02", |model| {
        for (composite, code) in model.ob_comp.iter_mut().zip(strange_codes(&model.catalogo)) {
            composite.codigo = code;
        }
    }),
    ("41, in OB_COMP", "NO 41 8 00001 02", |model| {
        for (composite, point) in model.ob_comp.iter_mut().zip(&model.ob_pun) {
            composite.codigo = point.codigo.clone();
        }
    }),
    ("70, no object names any", "NO 70 8 00001 00", |model| {
        for member in model.memberships() {
            *member = None;
        }
    }),
    ("70, all objects of one", "NO 70 8 00002 00", |model| {
        let id = model.ob_comp[0].id_ocomp;
        for member in model.memberships() {
            *member = Some(id);
        }
    }),
    ("70, one at the far end", "NO 70 8 16384 00", |model| {
        let (first, last) = (
            model.ob_comp[0].id_ocomp,
            model.ob_comp[model.ob_comp.len() - 1].id_ocomp,
        );
        for member in model.memberships() {
            if *member == Some(last) {
                *member = Some(first);
            }
        }
    }),
];
