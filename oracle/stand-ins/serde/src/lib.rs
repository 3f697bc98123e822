//! stands in for serde: the two derives, which expand to nothing.

pub use serde_derive::{Deserialize, Serialize};
