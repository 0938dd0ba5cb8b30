//! Lines, nodes and what stands on them: reasons 50 to 59.

use std::collections::{HashMap, HashSet};

use crate::breaks::{broken, told, Listener};
use crate::delivery::{Delivery, Node, Vertex};
use crate::keys::Keys;

/// The vertex of highest order of each line that has a vertex, by its place
/// in the file counted from 0.
pub(crate) type Lines = HashMap<u64, usize>;

pub(crate) fn lines(vertices: &[Vertex]) -> Lines {
    let mut highest = Lines::new();
    for (i, vertex) in vertices.iter().enumerate() {
        let best = highest.entry(vertex.line).or_insert(i);
        if vertices[*best].order < vertex.order {
            *best = i;
        }
    }
    highest
}

/// Reads the files in their order, so that the first break told is the first
/// there is. All rules are read of the same delivery, broken orders or not.
pub(crate) fn check<L: Listener>(
    delivery: &Delivery,
    keys: &Keys,
    lines: &Lines,
    listener: &mut L,
) -> Result<(), L::Stop> {
    check_points(delivery, keys, listener)?;
    check_linears(delivery, listener)?;
    check_tramos(delivery, keys, lines, listener)?;
    check_orders(delivery, keys, listener)?;
    check_nodes(delivery, lines, listener)
}

fn check_points<L: Listener>(
    delivery: &Delivery,
    keys: &Keys,
    listener: &mut L,
) -> Result<(), L::Stop> {
    for (i, point) in delivery.points.iter().enumerate() {
        if let Some(node) = point.node.and_then(|id| node_of(delivery, keys, id)) {
            let together = (point.x, point.y) == (node.x, node.y);
            listener.ensure(together, 55, (2, i, 3))?;
        }
    }
    Ok(())
}

fn check_linears<L: Listener>(delivery: &Delivery, listener: &mut L) -> Result<(), L::Stop> {
    let named: HashSet<u64> = delivery.tramos.iter().map(|t| t.linear).collect();
    for (i, linear) in delivery.linears.iter().enumerate() {
        listener.ensure(named.contains(&linear.id), 57, (4, i, 0))?;
    }
    Ok(())
}

/// The sense of a tramo isn't asked for: the start node is held against order
/// 1 and the end node against the highest order, whatever it is.
fn check_tramos<L: Listener>(
    delivery: &Delivery,
    keys: &Keys,
    lines: &Lines,
    listener: &mut L,
) -> Result<(), L::Stop> {
    let vertex = |place: &usize| &delivery.vertices[*place];
    for (i, tramo) in delivery.tramos.iter().enumerate() {
        let first = keys.vertices.get(&(tramo.line, 1)).map(vertex);
        let last = lines.get(&tramo.line).map(vertex);
        listener.ensure(last.is_some(), 59, (5, i, 4))?;
        let start = node_of(delivery, keys, tramo.start);
        listener.ensure(meets(first, start), 52, (5, i, 6))?;
        let end = node_of(delivery, keys, tramo.end);
        listener.ensure(meets(last, end), 53, (5, i, 7))?;
    }
    Ok(())
}

/// Whether they stand at one X and Y; where either isn't there, nothing is
/// held against the other.
fn meets(vertex: Option<&Vertex>, node: Option<&Node>) -> bool {
    match (vertex, node) {
        (Some(vertex), Some(node)) => (vertex.x, vertex.y) == (node.x, node.y),
        _ => true,
    }
}

fn check_orders<L: Listener>(
    delivery: &Delivery,
    keys: &Keys,
    listener: &mut L,
) -> Result<(), L::Stop> {
    let has = |line: u64, order: u64| keys.vertices.contains_key(&(line, order));
    for (i, vertex) in delivery.vertices.iter().enumerate() {
        match vertex.order {
            0 => listener.ensure(false, 50, (6, i, 2))?,
            1 => listener.ensure(has(vertex.line, 2), 51, (6, i, 2))?,
            order => listener.ensure(has(vertex.line, order - 1), 50, (6, i, 2))?,
        }
    }
    Ok(())
}

fn check_nodes<L: Listener>(
    delivery: &Delivery,
    lines: &Lines,
    listener: &mut L,
) -> Result<(), L::Stop> {
    let ground = Ground::of(delivery, lines);
    let namers = namers(delivery);
    let mut taken = HashMap::with_capacity(delivery.nodes.len());
    for (i, node) in delivery.nodes.iter().enumerate() {
        if let Some(earlier) = taken.insert((node.x, node.y, node.z), i) {
            listener.hear(broken(54, (7, i, 0), told(earlier)))?;
        }
        let kind = ground.kind(node);
        let named_twice = namers.get(&node.id).map_or(false, |times| *times > 1);
        listener.ensure(kind != Kind::Isolated || named_twice, 56, (7, i, 0))?;
        let agrees = node.code.map_or(true, |code| kind.agrees(code));
        listener.ensure(agrees, 58, (7, i, 2))?;
    }
    Ok(())
}

/// How many point objects name a node, by its id.
fn namers(delivery: &Delivery) -> HashMap<u64, usize> {
    let mut times = HashMap::new();
    for id in delivery.points.iter().filter_map(|p| p.node) {
        *times.entry(id).or_insert(0) += 1;
    }
    times
}

/// What a node is, by request W-203.
#[derive(Clone, Copy, PartialEq, Eq)]
enum Kind {
    Isolated,
    End,
    Intermediate,
    Both,
}

impl Kind {
    /// Whether a code of section 5.6.11 may be said of it.
    fn agrees(self, code: u8) -> bool {
        match code {
            b'A' => self == Kind::Isolated,
            b'C' => self != Kind::Isolated,
            b'E' => self == Kind::End,
            b'I' => self == Kind::Intermediate,
            _ => self == Kind::Both,
        }
    }
}

/// What makes a node an end or an intermediate one.
struct Ground {
    /// Nodes that start or end a tramo, by id.
    named: HashSet<u64>,
    /// The places of lines' first and last vertices.
    ends: HashSet<(i64, i64)>,
    /// The places of the other vertices.
    middles: HashSet<(i64, i64)>,
}

impl Ground {
    fn of(delivery: &Delivery, lines: &Lines) -> Ground {
        let mut ground = Ground {
            named: HashSet::new(),
            ends: HashSet::new(),
            middles: HashSet::new(),
        };
        for tramo in &delivery.tramos {
            ground.named.extend([tramo.start, tramo.end]);
        }
        for (i, vertex) in delivery.vertices.iter().enumerate() {
            // The first is the one of order 1, not the lowest there is.
            let is_end = vertex.order == 1 || lines.get(&vertex.line) == Some(&i);
            let places = if is_end {
                &mut ground.ends
            } else {
                &mut ground.middles
            };
            places.insert((vertex.x, vertex.y));
        }
        ground
    }

    fn kind(&self, node: &Node) -> Kind {
        let place = (node.x, node.y);
        let is_end = self.named.contains(&node.id) || self.ends.contains(&place);
        match (is_end, self.middles.contains(&place)) {
            (false, false) => Kind::Isolated,
            (true, false) => Kind::End,
            (false, true) => Kind::Intermediate,
            (true, true) => Kind::Both,
        }
    }
}

fn node_of<'a>(delivery: &'a Delivery, keys: &Keys, id: u64) -> Option<&'a Node> {
    keys.nodes.get(&id).map(|&place| &delivery.nodes[place])
}

#[cfg(test)]
mod tests {
    use super::*;
    use crate::breaks::{Break, First};
    use crate::delivery::Tramo;

    /// Reason 59 never comes first in a verdict, since reason 40 goes before
    /// it; so it is asked here, with the references left unread.
    #[test]
    fn tramo_of_a_line_without_vertices_is_59() {
        let tramo = Tramo {
            id: 1,
            linear: 1,
            perimeter: None,
            line: 1,
            code: *b"0100001",
            start: 1,
            end: 1,
        };
        let delivery = Delivery {
            entries: Vec::new(),
            points: Vec::new(),
            labels: Vec::new(),
            linears: Vec::new(),
            tramos: vec![tramo],
            vertices: Vec::new(),
            nodes: Vec::new(),
            composites: Vec::new(),
        };
        let keys = match Keys::gather(&delivery, &mut First) {
            Ok(keys) => keys,
            Err(b) => panic!("{:?}", b),
        };
        let found = check(&delivery, &keys, &lines(&delivery.vertices), &mut First);
        let expected = Break {
            reason: 59,
            file: 5,
            record: 1,
            field: 4,
            other: 0,
        };
        assert_eq!(found, Err(expected));
    }
}
