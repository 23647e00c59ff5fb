//! The C interface of include/relay.h, in its order.

mod functions;
#[cfg(test)]
mod layout;
mod structs;
#[cfg(test)]
mod values;

pub use functions::*;
pub use structs::*;
