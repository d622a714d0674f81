//! The comparison of a store, and of the byte coder beside it, under their C names with the reference,
//! call by call.

#[cfg(feature = "subject")]
mod arena;
pub mod case;
#[cfg(feature = "subject")]
mod code;
#[cfg(feature = "self")]
mod exports;
#[cfg(feature = "self")]
mod faults;
#[cfg(feature = "subject")]
mod minimal;
#[cfg(feature = "self")]
mod misplaced;
#[cfg(feature = "self")]
mod plan_faults;
#[cfg(feature = "self")]
mod rank_faults;
#[cfg(feature = "subject")]
mod returned;
#[cfg(feature = "subject")]
mod run;
#[cfg(feature = "self")]
mod segment_faults;
#[cfg(feature = "subject")]
mod segments;
#[cfg(feature = "self")]
mod stamp_faults;
#[cfg(feature = "subject")]
mod subject;
#[cfg(feature = "subject")]
mod units;

#[cfg(feature = "subject")]
pub use code::{compare_code, CodeOutcome};
#[cfg(feature = "self")]
pub use faults::fault_names;
#[cfg(feature = "subject")]
pub use minimal::minimal;
#[cfg(feature = "subject")]
pub use returned::Tally;
#[cfg(feature = "subject")]
pub use run::{run, Outcome};
#[cfg(feature = "subject")]
pub use segments::{compare_segments, SegmentsOutcome};
#[cfg(feature = "subject")]
pub use units::{compare_units, UnitsOutcome};

#[cfg(all(feature = "self", feature = "library"))]
compile_error!("the features self and library both provide the C names: choose one");
