//! The mistakes a converter's author makes.

use super::topology::End;
use super::{strike, ValueStep};
use crate::model::{Model, Posicion};
use crate::random::Random;

/// Ten comes ahead of two, and then the vertices are counted as they stand.
pub const ORDER_AS_TEXT: &[ValueStep] = &[|random, model| {
    let mut courses = Vec::new();
    for line in model.lines() {
        let course = model.line_vertices(line);
        let mut as_text = course.clone();
        as_text.sort_by_key(|&vertex| model.vertice[vertex].no_orden.to_string());
        // Only where another place becomes the line's end.
        let end = |course: &[usize]| model.vertice[course[course.len() - 1]].posicion.xy();
        if end(&as_text) != end(&course) {
            courses.push(as_text);
        }
    }
    strike(random.one_of(courses), |course| renumber(model, &course))
}];

fn renumber(model: &mut Model, course: &[usize]) {
    for (order, &vertex) in (1..).zip(course) {
        model.vertice[vertex].no_orden = order;
    }
}

pub const ORDER_BY_PLACE: &[ValueStep] = &[|random, model| {
    if renumber_by_place(random, model) {
        return true;
    }
    // All stood in their order. Turned round, they don't.
    model.vertice.reverse();
    renumber_by_place(random, model)
}];

fn renumber_by_place(random: &mut Random, model: &mut Model) -> bool {
    let mut courses = Vec::new();
    for line in model.lines() {
        let by_order = model.line_vertices(line);
        let mut by_place = by_order.clone();
        by_place.sort_unstable();
        let places = |course: &[usize]| -> Vec<Posicion> {
            let vertices = course.iter().map(|&vertex| model.vertice[vertex].posicion);
            vertices.collect()
        };
        if places(&by_place) != places(&by_order) {
            courses.push(by_place);
        }
    }
    strike(random.one_of(courses), |course| renumber(model, &course))
}

/// Under sense - the start node at the line's end and the end node at its
/// beginning, as one may read source 000.
pub const TURNED_SENSE: &[ValueStep] = &[|random, model| {
    let mut places = Vec::new();
    for (place, tramo) in model.tramo.iter().enumerate() {
        let nodes = (
            End::Start.node(model, tramo),
            End::Finish.node(model, tramo),
        );
        if let (Some(start), Some(end)) = nodes {
            if model.nodo[start].posicion.xy() != model.nodo[end].posicion.xy() {
                places.push(place);
            }
        }
    }
    strike(random.one_of(places), |place: usize| {
        let tramo = &mut model.tramo[place];
        std::mem::swap(&mut tramo.id_nodoi, &mut tramo.id_nodof);
        tramo.sentido = b'-';
    })
}];

pub const BLANK_ID_AS_ZERO: &[ValueStep] = &[
    |_, model| zeros(model.ob_pun.iter_mut().map(|record| &mut record.id_ocomp)),
    |_, model| zeros(model.ob_pun.iter_mut().map(|record| &mut record.id_nodo)),
    |_, model| zeros(model.ob_tex.iter_mut().map(|record| &mut record.id_ocomp)),
    |_, model| zeros(model.ob_lin.iter_mut().map(|record| &mut record.id_ocomp)),
    |_, model| zeros(model.tramo.iter_mut().map(|record| &mut record.id_perim)),
    |_, model| zeros(model.tramo.iter_mut().map(|record| &mut record.id_linea)),
];

fn zeros<'a>(ids: impl Iterator<Item = &'a mut Option<u64>>) -> bool {
    let mut changed = false;
    for id in ids.filter(|id| id.is_none()) {
        *id = Some(0);
        changed = true;
    }
    changed
}
