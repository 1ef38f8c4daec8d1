//! Budkarv lists the world views of a ground epistemic logic program, which is given as the bytes of a *sheet*.
//!
//! The listing is written and proved in Rattle, and linked as an archive: every answer is the one that the contract of
//! its call states. This crate only lends the memory and names the parts of the answer. The words and the bytes of a
//! sheet are explained in the repository's README. A call takes some 110 KB of the stack.
//!
//! ```
//! // Atoms a and b; a if it is not known that b, b if it is not known that a.
//! let sheet = [
//!     2, 1, b'a', 1, b'b', 2, //
//!     1, 0, 0, 0, 0, 0, 0, 0, 0, 0, 2, 0, 0, 0, 0, 0, //
//!     2, 0, 0, 0, 0, 0, 0, 0, 0, 0, 1, 0, 0, 0, 0, 0, //
//!     0, // no pairs of opposites
//! ];
//! let listing = budkarv::list(&sheet)?;
//! assert_eq!(listing.counts.views, 2);
//! assert!(listing.views[0].known.contains(1), "the first world view knows b");
//!
//! let refusal = budkarv::list(&sheet[..5]).unwrap_err();
//! assert_eq!(refusal.to_string(), "refusal 1: the sheet ends too soon, after 5 bytes");
//! # Ok::<(), budkarv::Refusal>(())
//! ```
//!
//! [`list_on`] takes atoms that are known for the day, too.

mod archive;
mod day;
mod listing;
mod refusal;

pub use archive::{list, list_on};
pub use day::Day;
pub use listing::{Atoms, Counts, Listing, WorldView};
pub use refusal::Refusal;
