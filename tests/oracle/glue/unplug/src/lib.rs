// Stands in for unplug's lib.rs: the two modules that the HPS files use.
#![allow(dead_code)] // some helpers of the sources have their users in files that are not compared
pub mod audio;
pub mod common;
