//! The calls of document 02, written from it alone, each in a module of its own.

pub mod desk;
pub mod listing;
pub mod season;
pub mod slim;
pub mod tptp;
