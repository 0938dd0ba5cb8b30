//! Composite objects in use: reason 70, of request W-204.

use std::collections::HashSet;

use crate::breaks::Listener;
use crate::delivery::Delivery;

/// Tells each composite that no point object, text or linear object names.
pub(crate) fn check<L: Listener>(delivery: &Delivery, listener: &mut L) -> Result<(), L::Stop> {
    let points = delivery.points.iter().map(|p| p.composite);
    let labels = delivery.labels.iter().map(|l| l.composite);
    let linears = delivery.linears.iter().map(|l| l.composite);
    let named: HashSet<u64> = points.chain(labels).chain(linears).flatten().collect();
    for (i, composite) in delivery.composites.iter().enumerate() {
        listener.ensure(named.contains(&composite.id), 70, (8, i, 0))?;
    }
    Ok(())
}
