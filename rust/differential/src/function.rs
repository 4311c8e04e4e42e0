//! The function tables: function.rs of the published Rust beside the calls on function headers of libhbc_c.a.

pub mod case;
mod differences;
pub mod groups;
mod hostile;
mod record;

use crate::run::Layer;

pub const LAYER: Layer = Layer {
    name: "function",
    compare: groups::compare,
    hostile: hostile::soak,
    record: record::write,
    replay: case::replay,
};
