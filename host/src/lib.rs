//! `sukperind`, a Linux host around a proved core of IPsec and IKEv2.
//!
//! The core has no clock, no sockets and no will of its own: a host tells it moments and
//! gives it commands. [`config`] reads what the host shall do, [`peer`] decides which
//! command is due when, [`path`] makes packets ready for the core and the devices, [`core`]
//! is what the core is asked, [`system`] what Linux is asked, and [`daemon`] the loop
//! between them. [`status`] is what it tells of itself.
#![deny(unsafe_code)]
#![warn(missing_docs)]

pub mod config;
pub mod core;
pub mod daemon;
pub mod path;
pub mod peer;
pub mod status;
pub mod system;
