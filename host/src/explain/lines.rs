//! What is told of lines and what stands on them (50 to 55, 57).

use canopyrail::{Break, Reason};

use super::{counted, line_of, line_words, Page};
use crate::delivery::{Delivery, Values};
use crate::layout::{whole_place, x_field, x_part, y_field, y_part, Part};
use crate::layout::{NODO, OB_PUN, TRAMO, VERTICE};
use crate::picture::grouped;

pub fn orders(page: &mut Page, delivery: &Delivery, b: &Break) {
    let vertex = delivery.values(b.file, b.record);
    let (line, order) = match vertex.map(|vertex| (vertex.number(1), vertex.number(2))) {
        Some((Some(line), Some(order))) => (line, order),
        _ => return,
    };
    let of_line = delivery.select(VERTICE, |vertex| vertex.number(1) == Some(line));
    let mut there: Vec<u64> = of_line
        .iter()
        .filter_map(|(_, vertex)| vertex.number(2))
        .collect();
    there.sort_unstable();
    let asked = match (b.reason, order) {
        (Reason::OrderAlone, _) => "Order 2 is not there.".to_string(),
        (_, 0) => "Orders begin with 1.".to_string(),
        _ => format!("Order {} is not there.", order - 1),
    };
    let text = format!(
        "Line {line} has {}, of order {}. {asked}",
        if there.len() == 1 {
            "1 vertex".to_string()
        } else {
            format!("{} vertices", grouped(there.len()))
        },
        spans(&there)
    );
    page.say("Here", &text);
}

/// Sorted numbers in few words, as `1 to 4, 6, 8 to 9`.
fn spans(sorted: &[u64]) -> String {
    const MOST: usize = 12;
    let mut spans: Vec<(u64, u64)> = Vec::new();
    for number in sorted {
        match spans.last_mut() {
            Some(last) if last.1 + 1 == *number => last.1 = *number,
            _ => spans.push((*number, *number)),
        }
    }
    let mut texts: Vec<String> = spans
        .iter()
        .take(MOST)
        .map(|(low, high)| span(*low, *high))
        .collect();
    if spans.len() > MOST {
        texts.push("and more".to_string());
    }
    texts.join(", ")
}

fn span(low: u64, high: u64) -> String {
    if low == high {
        return low.to_string();
    }
    format!("{low} to {high}")
}

/// A record's place, X and Y.
pub fn at_words(file: usize, values: &Values) -> String {
    format!(
        "X {}, Y {}",
        values.words(x_field(file)),
        values.words(y_field(file))
    )
}

/// Marks for those of X and Y in which two records differ.
fn differing(file: usize, values: &Values, other_file: usize, other: &Values) -> Vec<Part> {
    let mut marks = Vec::new();
    if values.coordinate(x_field(file)) != other.coordinate(x_field(other_file)) {
        marks.push(x_part(file));
    }
    if values.coordinate(y_field(file)) != other.coordinate(y_field(other_file)) {
        marks.push(y_part(file));
    }
    marks
}

/// 52 and 53: the line's vertex at one end against the node that the broken field names.
pub fn line_end(page: &mut Page, delivery: &Delivery, b: &Break) {
    let tramo = match delivery.values(b.file, b.record) {
        Some(tramo) => tramo,
        None => return,
    };
    page.say("Here", &line_words(&tramo));
    let vertices = delivery.select(VERTICE, |vertex| vertex.number(1) == line_of(&tramo));
    // Not the lowest order: a vertex of order 0 may be there too.
    let first = vertices
        .iter()
        .find(|(_, vertex)| vertex.number(2) == Some(1));
    let last = vertices.iter().max_by_key(|(_, vertex)| vertex.number(2));
    let (end, other) = if b.reason == Reason::StartElsewhere {
        (first, last)
    } else {
        (last, first)
    };
    let nodes = delivery.select(NODO, |node| node.number(1) == tramo.number(b.field));
    if let (Some(end), Some(node)) = (end, nodes.first()) {
        show_end(page, delivery, b, end, node);
        if other.map_or(false, |(_, vertex)| {
            differing(VERTICE, vertex, NODO, &node.1).is_empty()
        }) {
            page.more(turned_words(b.reason));
        }
    }
}

fn show_end(
    page: &mut Page,
    delivery: &Delivery,
    b: &Break,
    end: &(usize, Values),
    named: &(usize, Values),
) {
    let (which, node_name) = if b.reason == Reason::StartElsewhere {
        ("first", "start")
    } else {
        ("last", "end")
    };
    let (record, vertex) = end;
    let (order, at) = (vertex.words(2), at_words(VERTICE, vertex));
    page.more(&format!(
        "Its {which} vertex is VERTICE record {record}, order {order}, at {at}:"
    ));
    page.record(
        delivery,
        VERTICE,
        *record,
        &differing(VERTICE, vertex, NODO, &named.1),
    );
    let (record, node) = named;
    let (id, at) = (node.words(1), at_words(NODO, node));
    page.more(&format!(
        "The {node_name} node {id} is NODO record {record}, at {at}:"
    ));
    page.record(
        delivery,
        NODO,
        *record,
        &differing(NODO, node, VERTICE, vertex),
    );
}

/// Said where the line's other end is at the node. MIGRA's section 5.6.9 turns the ends round under
/// SENTIDO -, and the rule does not, so a converter that follows it lands here.
fn turned_words(reason: Reason) -> &'static str {
    if reason == Reason::StartElsewhere {
        "The line's last vertex is at that node: the tramo may run against its line. The start \
         node belongs to order 1 also where SENTIDO is -."
    } else {
        "The line's first vertex is at that node: the tramo may run against its line. The end \
         node belongs to the highest order also where SENTIDO is -."
    }
}

pub fn same_place(page: &mut Page, delivery: &Delivery, b: &Break) {
    let earlier = b.other as usize;
    if let (Some(later), Some(node)) = (
        delivery.values(b.file, b.record),
        delivery.values(b.file, earlier),
    ) {
        let (id, earlier_id) = (later.words(1), node.words(1));
        page.say(
            "Here",
            &format!("Node {id} is where node {earlier_id} is, which is NODO record {earlier}:"),
        );
        page.record(delivery, b.file, earlier, &[whole_place(b.file)]);
    }
}

/// A point object and the node that it names.
fn point_and_node(delivery: &Delivery, b: &Break) -> Option<(Values, (usize, Values))> {
    let point = delivery.values(b.file, b.record)?;
    let nodes = delivery.select(NODO, |node| node.number(1) == point.number(b.field));
    let node = nodes.into_iter().next()?;
    Some((point, node))
}

pub fn point_marks(delivery: &Delivery, b: &Break) -> Vec<Part> {
    let mut marks = vec![Part::field(b.file, b.field)];
    if let Some((point, (_, node))) = point_and_node(delivery, b) {
        marks.extend(differing(OB_PUN, &point, NODO, &node));
    }
    marks
}

pub fn point_elsewhere(page: &mut Page, delivery: &Delivery, b: &Break) {
    if let Some((point, (record, node))) = point_and_node(delivery, b) {
        page.say(
            "Here",
            &format!("The point object is at {}.", at_words(OB_PUN, &point)),
        );
        let (id, at) = (node.words(1), at_words(NODO, &node));
        page.more(&format!("Its node {id} is NODO record {record}, at {at}:"));
        page.record(
            delivery,
            NODO,
            record,
            &differing(NODO, &node, OB_PUN, &point),
        );
    }
}

pub fn idle_object(page: &mut Page, delivery: &Delivery, b: &Break) {
    if let Some(object) = delivery.values(b.file, b.record) {
        let id = object.words(1);
        page.say(
            "Here",
            &format!(
                "{} does not name object {id} in field 2 ID_OLIN.",
                counted(delivery, TRAMO)
            ),
        );
    }
}
