//! Seeded MIGRA v1 deliveries, lawful and damaged, for testing a checker.
//!
//! A delivery is drawn as values ([`Model`]) and then written as bytes
//! ([`Files`]). The same seed always gives the same bytes. Damage is aimed: an
//! [`Aim`] says what is to be broken, or which near miss is to stay lawful,
//! and its [`Outcome`] says what may be relied on.
//!
//! This crate judges nothing. It shares no line with any checker, so that the
//! two can be held against each other.

mod damage;
mod full;
mod graft;
mod kinds;
mod lawful;
mod layout;
mod model;
mod random;
#[cfg(test)]
mod tests;
mod values;

pub use damage::{damage, damaged, Aim, Layer, Outcome, AIMS};
pub use full::{composed, full, MOST_RECORDS};
pub use kinds::{Kind, Kinds};
pub use lawful::{lawful, Size};
pub use layout::{
    field_start, fields, Domain, Field, Form, CATALOGO, FILES, NAMES, NODO, OB_COMP, OB_LIN,
    OB_PUN, OB_TEX, RECORD, TRAMO, VERTICE,
};
pub use model::{
    write, Catalogo, Files, Model, Nodo, ObComp, ObLin, ObPun, ObTex, Posicion, Tramo, Vertice,
};
pub use random::Random;
