//! What inputs are made of.

use harness::Random;

/// Random words, for a table that was never written.
pub fn any_words(random: &mut Random, len: usize) -> Vec<u32> {
    (0..len).map(|_| random.word() as u32).collect()
}

/// Random bytes, eight of a number.
pub fn any_bytes(random: &mut Random, len: usize) -> Vec<u8> {
    let mut bytes = Vec::with_capacity(len + 8);
    while bytes.len() < len {
        bytes.extend(random.word().to_le_bytes());
    }
    bytes.truncate(len);
    bytes
}

/// Random bytes, one of a number.
pub fn random_bytes(random: &mut Random, len: usize) -> Vec<u8> {
    (0..len).map(|_| random.byte()).collect()
}

/// Words as the bytes of a file, the least byte of each first.
pub fn bytes_of(words: &[u32]) -> Vec<u8> {
    words.iter().flat_map(|word| word.to_le_bytes()).collect()
}

/// The whole words of bytes.
pub fn words_of(bytes: &[u8]) -> Vec<u32> {
    let word = |bytes: &[u8]| u32::from_le_bytes(bytes.try_into().unwrap());
    bytes.chunks_exact(4).map(word).collect()
}

/// Any of the pieces, one after the other, until there are so many bytes.
pub fn mixed(random: &mut Random, pieces: &[&[u8]], len: usize) -> Vec<u8> {
    let mut bytes = Vec::with_capacity(len + 64);
    while bytes.len() < len {
        bytes.extend(random.pick(pieces));
    }
    bytes
}

/// Fills the file with one piece again and again, the last one cut.
pub fn fill(file: &mut Vec<u8>, len: usize, piece: &[u8]) {
    file.clear();
    file.extend_from_slice(&piece[..piece.len().min(len)]);
    while file.len() < len {
        let more = file.len().min(len - file.len());
        // Whole pieces again, since what is there is made of whole ones.
        file.extend_from_within(..more);
    }
}

/// A number in ten bytes.
pub fn ten(number: u64) -> [u8; 10] {
    std::array::from_fn(|i| match i {
        9 => (number >> 63) as u8,
        _ => (number >> (7 * i)) as u8 & 0x7F | 0x80,
    })
}

/// A signed number in as few bytes as it needs, or in exactly `len` bytes, of which those past the tenth only carry on.
pub fn sleb(value: i64, len: usize) -> Vec<u8> {
    let mut bytes = Vec::new();
    let mut rest = value;
    loop {
        let byte = rest as u8 & 0x7F;
        rest >>= 7;
        let done = rest == 0 && byte & 0x40 == 0 || rest == -1 && byte & 0x40 != 0;
        if bytes.len() + 1 >= len && done {
            bytes.push(byte);
            return bytes;
        }
        bytes.push(byte | 0x80);
    }
}

/// A length in as few bytes as it needs, or in `len` bytes.
pub fn uleb(value: u64, len: usize) -> Vec<u8> {
    let mut bytes = Vec::new();
    let mut rest = value;
    loop {
        let byte = rest as u8 & 0x7F;
        rest >>= 7;
        if bytes.len() + 1 >= len && rest == 0 {
            bytes.push(byte);
            return bytes;
        }
        bytes.push(byte | 0x80);
    }
}
