//! Scripts of document 01's own calls, of every kind: how they are made and carried out, and
//! examples.

pub mod examples;
pub mod maker;
pub mod run;
pub mod script;
