//! Sessions of several kinds, from a seed or worked out by hand, each kind with what its sessions must reach.

pub mod draft;
pub mod edges;
pub mod faults;
pub mod goals;
pub mod kinds;
pub mod make;
pub mod random;
