//! Random cases: programs, queries, runs and stores, and the comparison of the
//! checker with its independent checks on them.

pub mod campaign;
pub mod damage;
pub mod gen;
pub mod linked;
pub mod make;
pub mod spoil;
pub mod stores;
pub mod walk;
