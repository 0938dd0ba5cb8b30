//! Keys: reason 30, and the records by key for the rules that follow.

use std::collections::HashMap;
use std::hash::Hash;

use crate::breaks::{broken, told, Listener};
use crate::delivery::Delivery;
use crate::record::Code;

/// Places of records in their files, counted from 0, by key.
pub(crate) struct Keys {
    pub codes: HashMap<Code, usize>,
    pub linears: HashMap<u64, usize>,
    /// By line and order.
    pub vertices: HashMap<(u64, u64), usize>,
    pub nodes: HashMap<u64, usize>,
    pub composites: HashMap<u64, usize>,
}

impl Keys {
    /// Gathers all keys, and tells each that an earlier record has too.
    pub fn gather<L: Listener>(delivery: &Delivery, listener: &mut L) -> Result<Keys, L::Stop> {
        let codes = by_key(1, 1, delivery.entries.iter().map(|e| e.code), listener)?;
        by_key(2, 1, delivery.points.iter().map(|p| p.id), listener)?;
        by_key(3, 1, delivery.labels.iter().map(|l| l.id), listener)?;
        let linears = by_key(4, 1, delivery.linears.iter().map(|l| l.id), listener)?;
        by_key(5, 1, delivery.tramos.iter().map(|t| t.id), listener)?;
        let orders = delivery.vertices.iter().map(|v| (v.line, v.order));
        let vertices = by_key(6, 2, orders, listener)?;
        let nodes = by_key(7, 1, delivery.nodes.iter().map(|n| n.id), listener)?;
        let composites = by_key(8, 1, delivery.composites.iter().map(|c| c.id), listener)?;
        Ok(Keys {
            codes,
            linears,
            vertices,
            nodes,
            composites,
        })
    }
}

fn by_key<K: Eq + Hash, L: Listener>(
    file: usize,
    field: usize,
    keys: impl ExactSizeIterator<Item = K>,
    listener: &mut L,
) -> Result<HashMap<K, usize>, L::Stop> {
    let mut places = HashMap::with_capacity(keys.len());
    for (i, key) in keys.enumerate() {
        // What is in the map is the last record before with this key; the
        // first that comes again has come once before, so it is the only one.
        if let Some(earlier) = places.insert(key, i) {
            listener.hear(broken(30, (file, i, field), told(earlier)))?;
        }
    }
    Ok(places)
}
