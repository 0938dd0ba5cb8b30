//! The command and the safe functions on small deliveries, which are built here by hand from
//! document 01.

mod build;
mod calls;
mod cases;
mod counting;
mod folder;
mod pages;
mod run;
mod showing;
mod talk;
