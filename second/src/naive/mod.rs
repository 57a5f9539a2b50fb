//! The second tool: reads files both ways, checks rows, unfolds by replacing uses one at a time,
//! and answers by looking at the unfolding; the row behind a follow-on by looking at copies. Written
//! to be read, not to be quick.

pub mod ask;
pub mod behind;
pub mod check;
pub mod desk;
pub mod file;
pub mod print;
pub mod unfold;
pub mod waits;

#[cfg(test)]
mod tests;
