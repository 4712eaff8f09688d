//! A second, independent program for trial strips.
//!
//! It is a plain port of the published listings (Jarosz and others,
//! "Orthogonal Array Sampling for Monte Carlo Rendering", 2019, and Enayet,
//! "Orthogonal Array Sampling for Monte Carlo Based Rendering", 2019), with
//! the few differences that the strip rules ask for. It shares no code with
//! the library that it is compared with.

pub mod arithmetic;
pub mod bench;
pub mod book;
pub mod cases;
pub mod check;
pub mod listing;
pub mod rows;
pub mod script;
pub mod shuffle;
pub mod slip;
pub mod strip;
pub mod text;
pub mod trial;
