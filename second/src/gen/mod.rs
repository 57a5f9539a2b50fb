//! Shows to ask about: the named ones, random ones, those with notes, those on the desk's blocks,
//! padded files, damaged files and rows, rows broken in every way, and wait files.

pub mod accepted;
pub mod behind;
pub mod broken;
pub mod build;
pub mod damage;
pub mod desk;
pub mod edges;
pub mod known;
pub mod notes;
pub mod padding;
pub mod prng;
pub mod random;
pub mod waits;
