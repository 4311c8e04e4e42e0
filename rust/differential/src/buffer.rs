//! The literals: buffer.rs of the published Rust beside the calls of module buffer of libhbc_c.a.

pub mod case;
mod differences;
mod groups;
mod hostile;
mod record;

use crate::run::Layer;

pub const LAYER: Layer = Layer {
    name: "buffer",
    compare: groups::compare,
    hostile: hostile::soak,
    record: record::write,
    replay: case::replay,
};
