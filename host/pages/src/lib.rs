//! What is read of the repository's crates: their sources, specs and edits, and what the pages make of them.

#![forbid(unsafe_code)]

pub mod calls;
pub mod counts;
pub mod edits;
pub mod files;
pub mod header;
pub mod layers;
pub mod layout;
pub mod links;
pub mod numbers;
pub mod picture;
pub mod repository;
pub mod scope;
pub mod source;
pub mod specs;
pub mod words;
