//! The clean-bundle profile, which the published Rust has not: beside a plain second implementation, over the Rust's
//! readers.

mod case;
mod groups;
mod hostile;
mod record;

use crate::run::Layer;

pub const LAYER: Layer = Layer {
    name: "clean",
    compare: groups::compare,
    hostile: hostile::soak,
    record: record::write,
    replay: case::replay,
};
