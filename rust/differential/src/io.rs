//! The cursor layer: io.rs of the published Rust beside the io calls of libhbc_c.a.

pub mod case;
mod differences;
mod groups;
mod hostile;
mod record;

use crate::run::Layer;

pub const LAYER: Layer = Layer {
    name: "io",
    compare: groups::compare,
    hostile: hostile::soak,
    record: record::write,
    replay: case::replay,
};
