//! All rules, ten by ten.

use crate::breaks::{broken, Break, Listener};
use crate::delivery::Delivery;
use crate::keys::Keys;
use crate::layout::{FILES, LENGTHS, MOST_RECORDS};
use crate::{composites, references, topology};

/// Tells all breaks until the listener stops.
pub(crate) fn check<L: Listener>(files: [&[u8]; FILES], listener: &mut L) -> Result<(), L::Stop> {
    check_lengths(files, listener)?;
    listener.end_ten()?;
    let delivery = Delivery::parse(files, listener)?;
    listener.end_ten()?;
    let keys = Keys::gather(&delivery, listener)?;
    listener.end_ten()?;
    let lines = topology::lines(&delivery.vertices);
    references::check(&delivery, &keys, &lines, listener)?;
    listener.end_ten()?;
    topology::check(&delivery, &keys, &lines, listener)?;
    listener.end_ten()?;
    composites::check(&delivery, listener)?;
    listener.end_ten()
}

fn check_lengths<L: Listener>(files: [&[u8]; FILES], listener: &mut L) -> Result<(), L::Stop> {
    for (i, bytes) in files.iter().enumerate() {
        let length = LENGTHS[i];
        if bytes.len() > MOST_RECORDS * length {
            listener.hear(Break {
                record: 0,
                ..broken(10, (i + 1, 0, 0), 0)
            })?;
        }
        let whole = bytes.len() / length;
        listener.ensure(bytes.len() % length == 0, 11, (i + 1, whole, 0))?;
    }
    Ok(())
}
