//! Compares `reedsander_check` and `reedsander_set` with what document 01 and
//! the Rust reference give: the answer, every word of the report and every
//! mark, and the words that must stay; and tests demand 3 on what the two
//! answer. The listing program's printed bytes are compared too.

#![forbid(unsafe_code)]

mod call;
mod counts;
mod demand;
mod expected;
mod films;
mod limits;
pub mod notes;
mod published;
mod runs;
mod shrink;

pub use call::{compared, differ, Compared, Difference};
pub use counts::Counts;
pub use demand::Broken;
pub use expected::{Call, Expected};
pub use films::{Films, Printed};
pub use limits::{limits, Limit};
pub use published::Published;
pub use runs::{Harness, Plan};
pub use shrink::{describe, shrunk, Found};
