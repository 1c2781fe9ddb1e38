//! The modules of quantiles 0.7.1, from the opened copy that build.rs makes. The original's own lib.rs names the same modules, and lints.
#[path = "../../../target/oracle/src/ckms/mod.rs"]
#[rustfmt::skip]
pub mod ckms;
#[path = "../../../target/oracle/src/greenwald_khanna.rs"]
#[rustfmt::skip]
pub mod greenwald_khanna;
#[path = "../../../target/oracle/src/histogram.rs"]
#[rustfmt::skip]
pub mod histogram;
