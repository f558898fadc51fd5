//! All tests in one program: they share the generator and the helpers.

mod bench;
mod big;
mod caller;
mod damage;
mod differences;
mod example;
mod halves;
mod harness;
mod known;
mod needs;
mod numbers;
mod places;
mod random;
mod sizes;
mod streams;
mod summaries;
