//! The command `show`: what it prints and says, held to the library and to the naive tool.

mod binary;
mod columns;
mod common;
mod explained;
mod files;
mod lines;
mod naive;
mod sentences;
mod waits;
