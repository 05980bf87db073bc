//! The oracle: an independent, plain rendering of the scope paper ("01") with the requests after it ("02") that have
//! landed, written from the papers alone.
//!
//! It is made to be read beside the paper, not to be fast: records are read into lists, sums are taken in 128 bits, and
//! each order of refusals is a function whose lines follow the paper's sentence. It knows nothing of the archive.

pub mod batch;
pub mod conditions;
pub mod judging;
pub mod layout;
pub mod lexicographic;
pub mod paths;
pub mod record;
pub mod settling;
pub mod sheet;
pub mod short;

#[cfg(test)]
mod batch_samples;
#[cfg(test)]
mod path_samples;
#[cfg(test)]
mod samples;
#[cfg(test)]
mod settling_samples;
#[cfg(test)]
mod short_samples;

/// A refusal's number and its place.
#[derive(Clone, Copy, Debug, PartialEq, Eq)]
pub struct Refusal {
    pub number: u64,
    pub place: u64,
}

/// The refusal with this number and place, as an error.
pub fn refuse<T>(number: u64, place: usize) -> Result<T, Refusal> {
    Err(Refusal {
        number,
        place: place as u64,
    })
}
