//! Chained cuts through the command itself: corpora by depth, engines, shrinking, and why there is no layout.

mod command;
mod corpus;
mod engines;
mod kept;
mod rounding;
mod shrink;
mod why;
