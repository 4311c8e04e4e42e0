//! The calls on handlers and trailing sections.

pub mod handlers;
pub mod sections;
pub mod why;

use crate::case::{Difference, Words};

/// `Handlers ..`, `Why ..` or `Sections ..`, as a difference prints them; or `Zeros ..`.
pub fn replay(words: &mut Words) -> Result<String, Difference> {
    match () {
        _ if words.called("Handlers") => handlers::replay(words),
        _ if words.called("Why") => why::replay(words),
        _ if words.called("Sections") => sections::replay(words),
        _ if words.called("Zeros") => super::differences::replay(words),
        _ => Err("--replay parsing needs Handlers, Why or Sections".to_string().into()),
    }
}
