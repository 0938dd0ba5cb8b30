//! References: reasons 40 and 41.

use std::collections::HashSet;

use crate::breaks::{broken, Listener, Place};
use crate::delivery::{Delivery, Tramo};
use crate::keys::Keys;
use crate::record::Code;
use crate::topology::Lines;

/// Reads every reference in the order of file, record and field, so that the
/// first break told is the first there is.
pub(crate) fn check<L: Listener>(
    delivery: &Delivery,
    keys: &Keys,
    lines: &Lines,
    listener: &mut L,
) -> Result<(), L::Stop> {
    for (i, point) in delivery.points.iter().enumerate() {
        check_composite(keys, point.composite, (2, i, 2), listener)?;
        let known = point.node.map_or(true, |id| keys.nodes.contains_key(&id));
        listener.ensure(known, 40, (2, i, 3))?;
        check_code(delivery, keys, &point.code, b'P', (2, i, 4), listener)?;
    }
    for (i, label) in delivery.labels.iter().enumerate() {
        check_composite(keys, label.composite, (3, i, 2), listener)?;
        check_code(delivery, keys, &label.code, b'X', (3, i, 3), listener)?;
    }
    for (i, linear) in delivery.linears.iter().enumerate() {
        check_composite(keys, linear.composite, (4, i, 2), listener)?;
        check_code(delivery, keys, &linear.code, b'L', (4, i, 3), listener)?;
    }
    for (i, tramo) in delivery.tramos.iter().enumerate() {
        check_tramo(delivery, keys, lines, i, tramo, listener)?;
    }
    let used: HashSet<u64> = delivery.tramos.iter().map(|t| t.line).collect();
    for (i, vertex) in delivery.vertices.iter().enumerate() {
        listener.ensure(used.contains(&vertex.line), 40, (6, i, 1))?;
    }
    for (i, composite) in delivery.composites.iter().enumerate() {
        check_code(delivery, keys, &composite.code, b'C', (8, i, 2), listener)?;
    }
    Ok(())
}

/// An object may belong to a composite one, which then has to be there.
fn check_composite<L: Listener>(
    keys: &Keys,
    named: Option<u64>,
    place: Place,
    listener: &mut L,
) -> Result<(), L::Stop> {
    let known = named.map_or(true, |id| keys.composites.contains_key(&id));
    listener.ensure(known, 40, place)
}

fn check_tramo<L: Listener>(
    delivery: &Delivery,
    keys: &Keys,
    lines: &Lines,
    i: usize,
    tramo: &Tramo,
    listener: &mut L,
) -> Result<(), L::Stop> {
    listener.ensure(keys.linears.contains_key(&tramo.linear), 40, (5, i, 2))?;
    listener.ensure(tramo.perimeter.is_none(), 40, (5, i, 3))?;
    listener.ensure(lines.contains_key(&tramo.line), 40, (5, i, 4))?;
    check_code(delivery, keys, &tramo.code, b'T', (5, i, 5), listener)?;
    listener.ensure(keys.nodes.contains_key(&tramo.start), 40, (5, i, 6))?;
    listener.ensure(keys.nodes.contains_key(&tramo.end), 40, (5, i, 7))
}

/// A code has to be catalogued, and under the type of the file that uses it.
fn check_code<L: Listener>(
    delivery: &Delivery,
    keys: &Keys,
    code: &Code,
    tipo: u8,
    place: Place,
    listener: &mut L,
) -> Result<(), L::Stop> {
    let entry = match keys.codes.get(code) {
        None => return listener.hear(broken(40, place, 0)),
        Some(&entry) => &delivery.entries[entry],
    };
    if entry.tipo == tipo {
        Ok(())
    } else {
        listener.hear(broken(41, place, u64::from(entry.tipo)))
    }
}
