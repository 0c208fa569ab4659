// Stands in for unplug's common.rs: the modules, and the names that the sources take from here.
pub mod endian;
pub mod io;
pub mod math;
pub mod read_write;

pub use math::*;
pub use read_write::*;
