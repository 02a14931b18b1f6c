//! The linkage desk's journal, verdicts and sheets in plain Rust, written from documents 01 and 02 alone: a second
//! opinion for the proved code, and its peer in speed.

#[cfg(test)]
mod again;
pub mod alone;
pub mod ask;
pub mod batch;
#[cfg(test)]
mod batches;
#[cfg(test)]
mod cancellations;
pub mod claims;
pub mod day;
pub mod event;
#[cfg(test)]
mod examples;
pub mod fuzz;
pub mod header;
pub mod journal;
pub mod lengths;
pub mod make;
pub mod market;
pub mod number;
pub mod orders;
pub mod periods;
pub mod record;
pub mod refusal;
#[cfg(test)]
mod second_orders;
pub mod sheet;
#[cfg(test)]
mod tests;
pub mod time;
pub mod totals;
pub mod vectors;
