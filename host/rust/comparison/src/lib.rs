//! Other implementations of the storage unit, which its tests and its benchmark compare it with.
//!
//! | Item | What it is |
//! |---|---|
//! | [`units::Proved`] | the proved unit, by the functions of the crate `storage_unit` |
//! | [`reference`](mod@reference) | documents 01 and 02 written down byte by byte |
//! | [`plain`] | ordinary hand-written Rust, for comparison of speed |
//!
//! All have a function with the same parameters for any request, and each is a [`Unit`].
//! [`player`] is document 02's player of recordings, on the reference, and [`plain_player`] an
//! ordinary one, on [`plain`], for comparison of speed. In the same way [`channel`] is document
//! 02's channel, and [`plain_channel`] an ordinary one.

#![deny(missing_docs)]
#![deny(unsafe_op_in_unsafe_fn)]
#![warn(clippy::undocumented_unsafe_blocks)]

pub mod channel;
pub mod numbers;
pub mod plain;
pub mod plain_channel;
pub mod plain_player;
pub mod player;
pub mod reference;
pub mod units;

use storage_unit::boundary::RawChannel;
use storage_unit::{Answer, Completed, Processor, Reason, Refusal, Request, Rule, Settings};

/// Carries out one request for one processor: the settings, the storage, its keys, the
/// records of both processors, the number of the processor that asks, the request and its
/// buffer. A fetch writes the first bytes of the buffer, a store reads them; the other
/// requests do not use it.
pub type RequestFunction = fn(
    settings: Settings,
    storage: &mut [u8],
    keys: &mut [u8],
    processors: &mut [Processor; 2],
    processor_number: u32,
    request: &Request,
    buffer: &mut [u8],
) -> Answer;

/// An implementation of the storage unit, so that the same tests run on each.
pub trait Unit {
    /// The name of the implementation, for messages.
    const NAME: &'static str;

    /// The function that carries out a request.
    const REQUEST: RequestFunction;
}

/// An implementation of the channel, by its C functions.
pub trait ChannelUnit {
    /// The name of the implementation, for messages.
    const NAME: &'static str;

    /// The function for a whole request.
    const WHOLE: RawChannel;

    /// The function for one step.
    const STEP: RawChannel;
}

/// The answer of a completed request with this word and this rule.
#[inline]
pub const fn completed(word: u32, rule: Option<Rule>) -> Answer {
    Ok(Completed { word, rule })
}

/// The answer of a refused request.
#[inline]
pub const fn refused(reason: Reason, place: u8) -> Answer {
    Err(Refusal { reason, place })
}
