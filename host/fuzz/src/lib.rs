//! The byte calls under libFuzzer. The fuzzer's bytes are taken apart into a
//! call, its lists and the lengths of its outputs; the proved library and the
//! reference are asked the same, and everything lent is looked at.

pub mod case;
pub mod counts;
mod fence;
pub mod input;
mod leaves;
mod mend;
pub mod mutate;
