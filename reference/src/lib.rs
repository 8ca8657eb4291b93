//! A plain reference implementation of document 01: rule programs are checked,
//! translated to rewrite rules, evaluated, and rewritten term by term.
//!
//! It was written from the document's text alone and is meant to be read next
//! to it. Nothing here is proved; other code is held against it.

pub mod calls;
pub mod checker;
pub mod compare;
pub mod evaluator;
pub mod generator;
pub mod inputs;
pub mod judge;
pub mod language;
pub mod lines;
pub mod rewriter;
pub mod translator;
