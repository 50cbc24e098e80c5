//! The documents as text: their files, their names in backquotes, and the files of the tree that they may name.

pub mod names;
pub mod tree;
