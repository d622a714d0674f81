//! A second implementation of the record store and of the byte coder beside it, written from document
//! 01, the requests of document 02 that have landed, and the readings of both in docs/DECISIONS.md.
//!
//! `ledger` and `store` are independent of each other: each has its own products of symbols, its
//! own coefficients and its own addressing rule. The tests hold them to each other.
//!
//! What they share is `call`, the calls with their arguments, `record`, the widths of these, and
//! `moves`, the entries of a plan.
//!
//! `segment` is the byte coder, by schoolbook arithmetic: products by the polynomial rule, inverses by
//! search, and the polynomial through the members by Newton's divided differences. It shares nothing
//! with the other two.

pub mod call;
pub mod compare;
pub mod generate;
pub mod hallrun;
pub mod ledger;
pub mod moves;
pub mod random;
pub mod record;
pub mod segment;
pub mod store;
