//! Two ends, a wire between them, and what befalls them.

// Each test takes what it needs of it.
#![allow(dead_code)]

pub mod core;
pub mod end;
pub mod random;
pub mod world;
