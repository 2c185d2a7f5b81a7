//! The three models. Sums of states are modulo 2^64.

mod hop;
mod phold;
mod stations;

pub use hop::Hop;
pub use phold::Phold;
pub use stations::Stations;
