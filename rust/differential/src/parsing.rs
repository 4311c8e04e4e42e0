//! Handlers and trailing sections: parsing.rs of the published Rust, in part, beside the calls of libhbc_c.a.

mod case;
mod differences;
mod groups;
mod hostile;
mod record;

use crate::run::Layer;

pub const LAYER: Layer = Layer {
    name: "parsing",
    compare: groups::compare,
    hostile: hostile::soak,
    record: record::write,
    replay: case::replay,
};
