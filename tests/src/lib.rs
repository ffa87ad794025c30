//! Tests beside the proofs. The model says a second time, in other words and another language, what a network does;
//! the tests hold the exported calls and the programs to it and to answers worked out by hand.

pub mod branches;
pub mod calls;
pub mod capi;
pub mod captures;
pub mod dice;
pub mod histories;
pub mod model;
pub mod moving;
pub mod programs;
pub mod record;
pub mod seen;
pub mod slips;
pub mod steering;
pub mod texts;
pub mod windup;
