//! The subcommands, one module each.

pub mod check;
pub mod convert;
pub mod corpus;
pub mod draw;
pub mod lay_out;
pub mod merge;
pub mod page;
pub mod shrink;
pub mod strokes;
pub mod twin;
pub mod why;
