//! The reader of hole sheets, apart from the program, for the tests of programs
//! that write them.

#![forbid(unsafe_code)]

pub mod text;
