//! Finds strings by their text, whatever they are stored as.

use bisquepond::table::Strings;

fn main() -> bisquepond::Result<()> {
    // A name in plain letters, a message in UTF-16, and a string with a byte that is no UTF-8.
    let message: Vec<u8> = "Öffnen 😀"
        .encode_utf16()
        .flat_map(u16::to_le_bytes)
        .collect();
    let storage = [b"menu.open", &message[..], b"open\xFFed"].concat();
    let entry = |utf16: u32, offset: usize, length: usize| {
        utf16 | (offset as u32) << 1 | (length as u32) << 24
    };
    let strings = Strings {
        kinds: &[1 << 31 | 1, 2],
        small: &[
            entry(0, 0, 9),
            entry(1, 9, message.len() / 2),
            entry(0, 9 + message.len(), 7),
        ],
        overflow: &[],
        storage: &storage,
    };
    let rows = strings.decode_hermes(3)?;

    // A text of its own for each.
    for (i, row) in rows.iter().enumerate() {
        println!("string {i}: {}", row.text(&storage)?);
    }
    // One buffer for all: no text has more than three bytes for each of the string's.
    let mut buffer = vec![0; 3 * storage.len()];
    for word in ["open", "ffn", "Ö", "�", "shut"] {
        let mut found = Vec::new();
        for (i, row) in rows.iter().enumerate() {
            if row.text_into(&storage, &mut buffer)?.contains(word) {
                found.push(i);
            }
        }
        println!("{word} is in {found:?}");
    }
    Ok(())
}
