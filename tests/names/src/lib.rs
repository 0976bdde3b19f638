//! Names that documents give in backquotes, looked up in the repository: files,
//! must-fail edits, crates, and what their text defines; and citations of the
//! rules.

pub mod definitions;
pub mod documents;
pub mod repository;
pub mod rules;
