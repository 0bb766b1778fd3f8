//! The modules of sctp-proto below its association, all public, and what stands in for the rest.
#![allow(warnings)]
#[macro_use]
extern crate alloc;

pub mod association;
pub mod chunk;
pub mod error;
pub mod packet;
pub mod param;
pub mod queue;
pub mod shared;
pub mod util;

pub use association::stream::{ReliabilityType, StreamId};
pub use chunk::chunk_payload_data::PayloadProtocolIdentifier;
pub use chunk::ErrorCauseCode;

/// Which side of an association this is.
#[derive(Clone, Copy, Debug, Default, PartialEq, Eq)]
pub enum Side {
    #[default]
    Client,
    Server,
}

impl std::fmt::Display for Side {
    fn fmt(&self, f: &mut std::fmt::Formatter<'_>) -> std::fmt::Result {
        write!(f, "{self:?}")
    }
}
