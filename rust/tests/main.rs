//! The library against an independent implementation of document 01, and the safe functions
//! against the bare C interface.

mod boundaries;
mod cards;
mod counting;
mod counts;
mod examples;
mod figures;
mod four;
mod fronts;
mod grids;
mod histories;
mod lend;
mod random_calls;
mod rearranging;
mod reference;
mod replacing;
mod rng;
mod scenes;
mod shares;
mod volumes;
mod wrapper;
mod written;
