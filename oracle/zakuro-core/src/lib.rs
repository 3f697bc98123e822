//! the oracle: the two source files, unchanged, over a stand-in for the
//! emulator's memory.

pub mod memory;

pub mod services {
    include!(concat!(env!("OUT_DIR"), "/services.rs"));
}
