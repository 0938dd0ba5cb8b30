//! What is told of nodes by the tramos, vertices and point objects there (56, 58).

use canopyrail::Break;
use std::collections::BTreeMap;

use super::lines::at_words;
use super::{counted, Page};
use crate::delivery::{Delivery, Values};
use crate::layout::{x_field, x_part, y_field, y_part, Part};
use crate::layout::{NODO, OB_PUN, TRAMO, VERTICE};
use crate::picture::shown;

pub fn idle_node(page: &mut Page, delivery: &Delivery, b: &Break) {
    let node = match delivery.values(b.file, b.record) {
        Some(node) => node,
        None => return,
    };
    let namers = delivery.select(OB_PUN, |point| point.number(3) == node.number(1));
    let times = if namers.is_empty() { "never" } else { "once" };
    let text = format!(
        "Node {} is at {}. {} does not name it in field 6 ID_NODOI or field 7 ID_NODOF, {} has no \
         vertex there, and {} names it {times} in field 3 ID_NODO, where it takes two point objects.",
        node.words(1),
        at_words(NODO, &node),
        counted(delivery, TRAMO),
        counted(delivery, VERTICE),
        counted(delivery, OB_PUN)
    );
    page.say("Here", &text);
    if let Some((record, _)) = namers.first() {
        page.more(&format!("The one that does is OB_PUN record {record}:"));
        page.record(delivery, OB_PUN, *record, &[Part::field(OB_PUN, 3)]);
    }
}

/// A record with its number.
type Found = (usize, Values);

/// What makes a node an end or an intermediate one, the first record of each sort.
struct Ground {
    /// A tramo that starts or ends there by the node's id.
    tramo: Option<Found>,
    /// A line's first or last vertex at the node's X and Y.
    end: Option<Found>,
    /// Another vertex there.
    middle: Option<Found>,
    /// The highest order of each line.
    highest: BTreeMap<u64, u64>,
}

impl Ground {
    fn of(delivery: &Delivery, node: &Values) -> Ground {
        let id = node.number(1);
        let names = |tramo: &Values| tramo.number(6) == id || tramo.number(7) == id;
        let mut ground = Ground {
            tramo: delivery.select(TRAMO, names).into_iter().next(),
            end: None,
            middle: None,
            highest: highest_orders(delivery),
        };
        let here = |vertex: &Values| {
            vertex.coordinate(x_field(VERTICE)) == node.coordinate(x_field(NODO))
                && vertex.coordinate(y_field(VERTICE)) == node.coordinate(y_field(NODO))
        };
        for found in delivery.select(VERTICE, here) {
            let place = if ground.end_name(&found.1).is_some() {
                &mut ground.end
            } else {
                &mut ground.middle
            };
            place.get_or_insert(found);
        }
        ground
    }

    /// Which end of its line a vertex is, if any. The first is the one of order 1, not the lowest
    /// there is.
    fn end_name(&self, vertex: &Values) -> Option<&'static str> {
        let order = vertex.number(2)?;
        if order == 1 {
            return Some("first");
        }
        let highest = self.highest.get(&vertex.number(1)?)?;
        (order == *highest).then_some("last")
    }

    fn is_end(&self) -> bool {
        self.tramo.is_some() || self.end.is_some()
    }
}

fn highest_orders(delivery: &Delivery) -> BTreeMap<u64, u64> {
    let mut highest = BTreeMap::new();
    for (_, vertex) in delivery.select(VERTICE, |_| true) {
        if let (Some(line), Some(order)) = (vertex.number(1), vertex.number(2)) {
            let top = highest.entry(line).or_insert(order);
            *top = order.max(*top);
        }
    }
    highest
}

/// 58: what the node is, and why.
pub fn other_kind(page: &mut Page, delivery: &Delivery, b: &Break) {
    let node = match delivery.values(b.file, b.record) {
        Some(node) => node,
        None => return,
    };
    let ground = Ground::of(delivery, &node);
    let (is, fits) = match (ground.is_end(), ground.middle.is_some()) {
        (false, false) => ("isolated", "A fits, or a blank"),
        (true, false) => ("an end and not intermediate", "E fits, or C, or a blank"),
        (false, true) => ("intermediate and no end", "I fits, or C, or a blank"),
        (true, true) => ("both an end and intermediate", "H fits, or C, or a blank"),
    };
    let text = format!(
        "Node {} is at {}. Its TIPO is {}, and it is {is}: {fits}.",
        node.words(1),
        at_words(NODO, &node),
        code_words(node.text(2).unwrap_or(&[]))
    );
    page.say("Here", &text);
    tell_end(page, delivery, &node, &ground);
    tell_middle(page, delivery, &ground);
}

/// A code with its meaning.
fn code_words(code: &[u8]) -> String {
    let meaning = match code {
        b"A" => " (isolated)",
        b"C" => " (connected)",
        b"E" => " (end)",
        b"I" => " (intermediate)",
        b"H" => " (end and intermediate)",
        _ => "",
    };
    format!("{}{meaning}", shown(code))
}

fn tell_end(page: &mut Page, delivery: &Delivery, node: &Values, ground: &Ground) {
    if let Some((record, tramo)) = &ground.tramo {
        let field = if tramo.number(6) == node.number(1) {
            6
        } else {
            7
        };
        let does = if field == 6 { "starts" } else { "ends" };
        page.more(&format!(
            "It is an end, since it {does} tramo {}, which is TRAMO record {record}:",
            tramo.words(1)
        ));
        page.record(delivery, TRAMO, *record, &[Part::field(TRAMO, field)]);
        return;
    }
    match &ground.end {
        Some((record, vertex)) => {
            let which = ground.end_name(vertex).unwrap_or("");
            page.more(&format!(
                "It is an end, since line {} has its {which} vertex there, VERTICE record {record}:",
                vertex.words(1)
            ));
            show_place(page, delivery, *record);
        }
        None => page.more(&format!(
            "It is no end: {} does not name it in field 6 ID_NODOI or field 7 ID_NODOF, and {} has \
             no line's first or last vertex there.",
            counted(delivery, TRAMO),
            counted(delivery, VERTICE)
        )),
    }
}

fn tell_middle(page: &mut Page, delivery: &Delivery, ground: &Ground) {
    match &ground.middle {
        Some((record, vertex)) => {
            page.more(&format!(
                "It is intermediate, since line {} has a vertex there that is neither its first nor \
                 its last, of order {}, VERTICE record {record}:",
                vertex.words(1),
                vertex.words(2)
            ));
            show_place(page, delivery, *record);
        }
        None => page.more(&format!(
            "It is not intermediate: {} has no vertex there that is neither its line's first nor \
             its last.",
            counted(delivery, VERTICE)
        )),
    }
}

fn show_place(page: &mut Page, delivery: &Delivery, vertex: usize) {
    page.record(
        delivery,
        VERTICE,
        vertex,
        &[x_part(VERTICE), y_part(VERTICE)],
    );
}
