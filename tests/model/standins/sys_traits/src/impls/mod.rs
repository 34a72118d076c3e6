//! Stand-in: declares the module.
mod in_memory;
pub use in_memory::*;
