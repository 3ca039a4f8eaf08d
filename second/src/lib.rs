//! A second checker of AKL runs, written from document 01 alone.
//!
//! It reads a program, a query and a list of steps, checks each step, rewrites
//! the configuration and reports answers. See `README.md`.

pub mod answers;
pub mod bench;
pub mod chain;
pub mod checker;
pub mod config;
mod cycles;
mod edit;
mod effects;
mod environment;
mod frames;
pub mod fuzz;
pub mod layout;
mod lexer;
pub mod limits;
pub mod names;
pub mod oracle;
mod parser;
pub mod random;
pub mod reader;
pub mod record;
pub mod refusal;
pub mod rules;
pub mod solver;
mod stability;
pub mod steps;
pub mod store;
pub mod syntax;
pub mod words;
