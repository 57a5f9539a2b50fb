//! The second tool of the show library: a naive unfolder to compare with, a plain
//! implementation to race against, and what compares the library with them.

pub mod compare;
pub mod gen;
pub mod library;
pub mod limits;
pub mod naive;
pub mod plain;
pub mod question;
pub mod race;
pub mod subject;
