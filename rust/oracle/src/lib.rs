//! The oracle of Reedsander, the checker of grade notes: `validate_document`
//! of the reference, compiled from its own files.
//!
//! Compiled unchanged, from the folder that the build script finds:
//! `validate.rs`, `ast.rs`, `diagnostic.rs`, `span.rs` and
//! `unicode_letters.rs`. They call code that is not among the files. Of that
//! code, this crate holds
//!
//! - the leaves that document 01 gives, each under the sentence that gives
//!   it, and
//! - stubs for what only the dropped messages call. A stub answers so that
//!   its message is not reported, and no stub keeps a kept message away.
//!
//! Diagnostics of the messages in [`DROPPED`] are not compared. The stubs do
//! not silence all of them: the second message on tight items is decided
//! partly in `validate.rs` itself. So compare with [`kept`], or drop by
//! [`rule`].
//!
//! What the reference has not is read from document 01: the refusals
//! ([`refusal()`]), the setting machine ([`set`]) and the listing program
//! ([`listing()`]).

#![forbid(unsafe_code)]

extern crate alloc;

include!(concat!(env!("OUT_DIR"), "/sources.rs"));

mod decode;
mod document;
mod gemoji;
mod listing;
mod machine;
mod messages;
mod parse;
mod refusal;
mod serialize;
mod swar;

pub use document::{document, list, words};
pub use listing::listing;
pub use machine::{set, Run, Step, Stop, REFUSED, STOP_RULES};
pub use messages::{rule, DROPPED, KEPT};
pub use refusal::{refusal, RECORD_WORDS};

/// The list of the reference for `document`, entire: diagnostics of dropped
/// messages are among it.
pub fn validate(document: &ast::Document) -> Vec<diagnostic::Diagnostic> {
    validate::validate_document(document)
}

/// The list that is compared: the reference's, in its order, without the
/// diagnostics of dropped messages; each with its rule's number.
pub fn kept(document: &ast::Document) -> Vec<(u32, diagnostic::Diagnostic)> {
    validate(document)
        .into_iter()
        .filter_map(|diagnostic| Some((rule(&diagnostic.message)?, diagnostic)))
        .collect()
}

/// Whether `name` passes rule 54.
pub fn is_directive_name(name: &str) -> bool {
    validate::is_directive_name(name)
}

/// Whether `name` passes rule 55.
pub fn is_attribute_name(name: &str) -> bool {
    validate::is_attribute_name(name)
}

/// Whether `name` passes rule 56.
pub fn is_tag_name(name: &str) -> bool {
    unicode_letters::is_tag_name(name)
}
