//! The calls on string tables.

pub mod hermes;
pub mod reads;
pub mod strings;
pub mod text;

use crate::case::{Difference, Words};

/// `U32Table|PairTable CURSOR COUNT WORDS BYTES`, `Strings|Hermes COUNT WORDS KINDS SMALL OVERFLOW STORAGE`,
/// `StringBytes INDEX ROWS STORAGE` or `Text INDEX BYTES ROWS STORAGE`, as a difference prints them: WORDS, and BYTES of a
/// text, is how many are lent.
pub fn replay(words: &mut Words) -> Result<String, Difference> {
    match () {
        _ if words.called("Strings") => strings::replay(words),
        _ if words.called("Hermes") => hermes::replay(words),
        _ if words.called("StringBytes") => strings::replay_bytes(words),
        _ if words.called("Text") => text::replay(words),
        _ => reads::replay(words),
    }
}
