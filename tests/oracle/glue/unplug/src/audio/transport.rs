// Stands in for unplug's transport.rs: HPS alone.
pub mod hps;
pub use hps::HpsReader;
