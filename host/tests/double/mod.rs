//! A core and a system that need neither the library nor root, and a link of two daemons.

// Each test takes what it needs of it.
#![allow(dead_code)]

pub mod core;
pub mod link;
pub mod message;
pub mod packets;
pub mod system;
