//! Documents 01 and 02 seen from outside: a plain Rust implementation, the ledger, and what the tests and
//! benchmarks need to hold the proved library against them.

pub mod call;
pub mod differential;
pub mod history;
pub mod ledger;
pub mod lent;
#[cfg(feature = "library")]
pub mod library;
pub mod literal;
pub mod outcome;
pub mod plain;
pub mod plain_c;
pub mod random;
pub mod record;
pub mod subject;
pub mod tidy;
pub mod twins;
pub mod vectors;
