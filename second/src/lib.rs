//! Independent second implementation: it receives, builds and logs secured
//! frames of IEEE Std 802.15.4-2011 over one lent site, which it loads from a
//! site file.

pub mod aes;
pub mod build;
pub mod ccm;
pub mod fcs;
pub mod file;
pub mod filter;
pub mod frame;
pub mod log;
pub mod octets;
pub mod packed;
pub mod receive;
pub mod records;
pub mod shapes;
pub mod site;
pub mod status;
pub mod testkit;

pub use build::{build, Built, Request};
pub use file::load;
pub use frame::{Address, Header};
pub use log::log;
pub use receive::{receive, receive_valid, Received};
pub use site::site_holds;
