//! The benchmark: the library and the plain implementation on the same inputs.

pub mod breadth;
pub mod inputs;
pub mod timing;
