//! What the benchmark and the comparisons of files, of lists, of stored sets, of yearly rates and of sets of
//! degree 13 share, and the timing of calls.
pub mod calls;
pub mod kinds;
pub mod listed;
pub mod questions;
pub mod rates;
pub mod reading;
pub mod stored;
pub mod tally;
pub mod timing;
