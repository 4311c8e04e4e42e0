//! The debug section: debug.rs of the published Rust, in part, beside the call of libhbc_c.a.

mod case;
mod differences;
mod groups;
mod hostile;
mod numbers;
mod record;

use crate::run::Layer;

pub const LAYER: Layer = Layer {
    name: "debug",
    compare: groups::compare,
    hostile: hostile::soak,
    record: record::write,
    replay: case::replay,
};
