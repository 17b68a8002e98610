//! The adapter of the reference's tree of notes.

reedsander::adapt!(oracle::ast);
