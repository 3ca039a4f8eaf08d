//! Independent checks: a slow model of everything, written once more from the
//! sentences of document 01, and trials of verdicts on trees.

pub mod chains;
pub mod dump;
pub mod formed;
pub mod ground;
pub mod logic;
pub mod meaning;
pub mod model;
pub mod record;
pub mod rewrite;
mod stored;
pub mod text;
mod written;
