//! What has the interface: the C library, the second implementation, both side by side, the simple recovery of docs/src, and wrong ones.

pub mod compared;
pub mod cuts_program;
#[cfg(feature = "exports")]
pub mod exports;
pub mod impostors;
#[cfg(feature = "library")]
pub mod library;
pub mod reference;
pub mod script_program;
pub mod simple;
pub mod van_program;

use crate::interface::Calls;
#[cfg(feature = "library")]
use library::Library as Tested;
#[cfg(not(feature = "library"))]
use reference::Reference as Tested;

/// The implementation under test: the C library with the feature `library`, else the second implementation itself.
pub const TESTED: &dyn Calls = &Tested;
