//! The groups of inputs on which the two sides of the literals are compared.

use bisquepond::sys::LIMIT;
use harness::Random;

use super::case::{literal, series};
use super::differences;
use crate::case::Compared;
use crate::inputs::random_bytes;
use crate::lent::Reserved;
use crate::run::Run;

fn one(run: &mut Run, input: &[u8], at: usize, tag: u8) -> Compared {
    run.compare(&literal::Case { input, at, tag }).map(drop)
}

/// A series into tables that have just a word more than it has values.
fn series(run: &mut Run, buffer: &[u8], offset: u32, count: u32) -> Compared {
    lent_series(run, buffer, offset, count, [count as usize + 1; 2])
}

fn lent_series(
    run: &mut Run,
    buffer: &[u8],
    offset: u32,
    count: u32,
    lent: [usize; 2],
) -> Compared {
    let case = series::series(buffer, offset, count, lent);
    run.compare(&case).map(drop)
}

pub fn compare(run: &mut Run) -> Compared {
    run.group("one literal, every tag and cursor", every_tag)?;
    run.group("one literal, every kind of value", every_value)?;
    run.group("one literal, 2^30 bytes and one more", longest_literal)?;
    run.group("series, all buffers up to 2 bytes", short)?;
    if run.full {
        run.group("series, all buffers of 3 bytes", all_three)?;
    } else {
        run.group("series, buffers of 3 bytes", some_three)?;
    }
    run.group("series, every tag and many lengths", every_run)?;
    run.group("series, cut at every byte", cut)?;
    run.group("series, lent tables of any size", lent_tables)?;
    run.group("series, floats and NaNs by their bits", floats)?;
    run.group("series, counts to 2^32 - 1", far_counts)?;
    run.group("series, millions of empty tags", empty_tags)?;
    run.group("series, 2^30 bytes and one more", longest_buffer)?;
    if run.full {
        run.group("series, 2^30 empty tags", longest_empty)?;
        run.group("series, 10,000,000 values", most_values)?;
    }
    run.group("the differences that docs list", differences::listed)?;
    run.group("random", random)
}

/// Cursors past any input here.
const FAR: [usize; 6] = [1 << 30, 1 << 32, 1 << 63, usize::MAX - 8, usize::MAX - 1, usize::MAX];

fn every_tag(run: &mut Run) -> Compared {
    let mut random = run.random(1);
    for tag in 0..=255 {
        for len in 0..=17 {
            let input = random_bytes(&mut random, len);
            for at in (0..=len + 3).chain(FAR) {
                one(run, &input, at, tag)?;
            }
        }
    }
    Ok(())
}

/// Bits 4 to 6 of a tag, of which the others don't count here.
fn tag(bits: u8, random: &mut Random) -> u8 {
    bits << 4 | random.byte() & 0x8F
}

/// Every number of a byte and of two, the edges of 32 bits, and floats of every exponent.
fn every_value(run: &mut Run) -> Compared {
    let mut random = run.random(2);
    for n in 0..=u16::MAX {
        let input = n.to_le_bytes();
        one(run, &input[..1], 0, tag(6, &mut random))?;
        one(run, &input, 0, tag(5, &mut random))?;
    }
    let mut words: Vec<u32> = (0..32).flat_map(|bit| [1 << bit, !(1 << bit)]).collect();
    words.extend([0, 1, u32::MAX, 299, 300, 65_535, 65_536, (1 << 31) - 1]);
    words.extend((0..1000).map(|_| random.word() as u32));
    for word in words {
        one(run, &word.to_le_bytes(), 0, tag(4, &mut random))?;
        one(run, &word.to_le_bytes(), 0, tag(7, &mut random))?;
    }
    for bits in float_bits(&mut random) {
        one(run, &bits.to_le_bytes(), 0, tag(3, &mut random))?;
    }
    Ok(())
}

/// Both signs, all exponents, least, greatest and random fractions: zeros, infinities, quiet and signalling NaNs.
fn float_bits(random: &mut Random) -> Vec<u64> {
    let mut all = Vec::new();
    let top = (1 << 52) - 1;
    for sign in 0..2 {
        for exponent in 0..2048 {
            let any = random.word() & top;
            for fraction in [0, 1, 1 << 51, (1 << 51) + 1, (1 << 51) - 1, top, any] {
                all.push(sign << 63 | exponent << 52 | fraction);
            }
        }
    }
    all
}

fn longest_literal(run: &mut Run) -> Compared {
    let mut random = run.random(3);
    let mut input = vec![0; LIMIT + 1];
    for byte in &mut input[LIMIT - 20..] {
        *byte = random.byte();
    }
    for len in [LIMIT, LIMIT + 1] {
        for at in (0..=2).chain(len - 12..=len + 2).chain(FAR) {
            for tag in (0..8).map(|bits| bits << 4) {
                one(run, &input[..len], at, tag)?;
            }
        }
    }
    Ok(())
}

/// All buffers up to two bytes from the first, those up to one from every offset and past the end; no value to five.
fn short(run: &mut Run) -> Compared {
    for len in 0..=2 {
        for n in 0..1u32 << (8 * len) {
            let buffer = &n.to_le_bytes()[..len as usize];
            let most = if len < 2 { len + 1 } else { 0 };
            for offset in 0..=most {
                for count in 0..=5 {
                    series(run, buffer, offset, count)?;
                }
            }
        }
    }
    Ok(())
}

fn all_three(run: &mut Run) -> Compared {
    for n in 0..1u32 << 24 {
        let buffer = &n.to_le_bytes()[..3];
        for count in 0..=5 {
            series(run, buffer, 0, count)?;
        }
    }
    Ok(())
}

/// Every tag, every length that a second byte says, and every other byte where it is a value or a tag of its own.
fn some_three(run: &mut Run) -> Compared {
    for first in 0..=255 {
        for second in 0..=255 {
            for third in [0x00, 0x02, 0x13, 0x61, 0x80, 0xFF] {
                for count in [1, 2, 3, 5] {
                    series(run, &[first, second, third], 0, count)?;
                }
            }
        }
    }
    Ok(())
}

/// Bytes of a value, by bits 4 to 6 of its tag.
pub const WIDTHS: [usize; 8] = [0, 0, 0, 8, 4, 2, 1, 4];

/// A tag, in one byte where its length goes into a nibble and `long` is not asked for.
pub fn push_tag(buffer: &mut Vec<u8>, bits: u8, length: usize, long: bool) {
    assert!(length < 4096);
    if long || length > 15 {
        buffer.extend([0x80 | bits << 4 | (length >> 8) as u8, length as u8]);
    } else {
        buffer.push(bits << 4 | length as u8);
    }
}

/// One run of each kind and of many lengths, then a value that ends it: one value fewer than it has, all, one more and
/// two more.
fn every_run(run: &mut Run) -> Compared {
    let mut random = run.random(4);
    let mut lengths: Vec<usize> = (0..=18).chain(253..=259).chain(510..=513).collect();
    lengths.extend([767, 768, 1023, 1024, 2047, 2048, 3840, 3841, 4094, 4095]);
    lengths.extend((0..10).map(|_| random.below(4096)));
    for bits in 0..8 {
        for &length in &lengths {
            for long in [false, true] {
                let mut buffer = random_bytes(&mut random, 3);
                push_tag(&mut buffer, bits, length, long);
                let values = random_bytes(&mut random, length * WIDTHS[bits as usize]);
                buffer.extend(values);
                buffer.extend([0x71, 1, 2, 3]);
                for count in length.saturating_sub(1)..=length + 2 {
                    series(run, &buffer, 3, count as u32)?;
                }
                buffer.push(4);
                series(run, &buffer, 3, length as u32 + 1)?;
            }
        }
    }
    Ok(())
}

/// Runs of every kind, short and empty ones between, and how many values they have.
pub fn any_runs(random: &mut Random, runs: usize) -> (Vec<u8>, usize) {
    let mut buffer = Vec::new();
    let mut values = 0;
    for _ in 0..runs {
        let bits = random.byte() & 7;
        let length = random.pick(&[0, 1, 1, 1, 2, 2, 3, 5, 15, 16, 20]);
        push_tag(&mut buffer, bits, length, random.below(4) == 0);
        let bytes = random_bytes(random, length * WIDTHS[bits as usize]);
        buffer.extend(bytes);
        values += length;
    }
    (buffer, values)
}

fn cut(run: &mut Run) -> Compared {
    let mut random = run.random(5);
    for _ in 0..60 {
        let (buffer, values) = any_runs(&mut random, 8);
        for end in 0..=buffer.len() {
            for count in [1, values / 2, values, values + 1] {
                series(run, &buffer[..end], 0, count as u32)?;
            }
        }
    }
    Ok(())
}

/// Tables from none to more words than there are values, each for itself: too few are refused 4, even where the series
/// is cut, and every word stays.
fn lent_tables(run: &mut Run) -> Compared {
    let mut random = run.random(6);
    for _ in 0..6 {
        let (buffer, values) = any_runs(&mut random, 4);
        let most = values.min(12) + 2;
        for count in 0..=most {
            for kinds in 0..=most + 1 {
                for payloads in 0..=most + 1 {
                    for offset in [0, buffer.len() as u32 / 2, buffer.len() as u32] {
                        lent_series(run, &buffer, offset, count as u32, [kinds, payloads])?;
                    }
                }
            }
        }
    }
    Ok(())
}

/// Payloads are the bytes' own bits, of a NaN too.
fn floats(run: &mut Run) -> Compared {
    let mut random = run.random(7);
    for bits in float_bits(&mut random).chunks(14) {
        let mut buffer = Vec::new();
        push_tag(&mut buffer, 3, bits.len(), false);
        buffer.extend(bits.iter().flat_map(|bits| bits.to_le_bytes()));
        series(run, &buffer, 0, bits.len() as u32)?;
    }
    Ok(())
}

/// Counts and offsets that no buffer has: refused 7, 4 with small tables, 3 with tables that have that many words.
fn far_counts(run: &mut Run) -> Compared {
    let mut random = run.random(8);
    let most = u32::MAX as usize + 1;
    let huge = Reserved::new(most).zip(Reserved::new(most));
    if huge.is_none() {
        println!("buffer   no addresses for tables of 2^32 words here: refusal 3 is not compared for such counts");
    }
    for full in 0..20 {
        // Nulls, truths and empty tags, then what is cut.
        let mut buffer = [[0x8F, 0xFF], [0x9F, 0xFE], [0x00, 0x70]].concat();
        buffer.extend([0xAF, 0xFF].repeat(full % 5));
        buffer.extend(random_bytes(&mut random, full));
        for offset in [0, 1, 5, buffer.len() as u32, u32::MAX] {
            let far = [1 << 28, 1 << 29, 1 << 30, (1 << 31) - 1, 1 << 31, u32::MAX - 1, u32::MAX];
            for count in far {
                lent_series(run, &buffer, offset, count, [9, 9])?;
                let Some((kinds, payloads)) = &huge else {
                    continue;
                };
                let fits = count as usize;
                for lent in [[fits, fits], [fits - 1, fits], [fits, fits - 1], [fits + 1, fits]] {
                    let case = series::series(&buffer, offset, count, lent);
                    case.compare_refused(None, (kinds, payloads))?;
                    run.equal();
                }
            }
        }
    }
    Ok(())
}

/// Two million empty tags of a kind before, between and after values; and none after them.
fn empty_tags(run: &mut Run) -> Compared {
    let millions = 2_000_000;
    for bits in [0, 3, 7] {
        for long in [false, true] {
            let mut tag = Vec::new();
            push_tag(&mut tag, bits, 0, long);
            let mut buffer = vec![0x61, 7];
            buffer.extend(tag.repeat(millions));
            series(run, &buffer, 0, 1)?;
            series(run, &buffer, 0, 2)?;
            buffer.extend([0x62, 8, 9]);
            series(run, &buffer, 0, 3)?;
        }
    }
    Ok(())
}

/// Near the end of the longest buffer that is read. One byte more is refused 1, for count 0 too; but not where it is
/// in the buffer that isn't named.
fn longest_buffer(run: &mut Run) -> Compared {
    let mut random = run.random(9);
    let mut buffer = vec![0; LIMIT + 1];
    let (last, _) = any_runs(&mut random, 12);
    let begin = LIMIT - last.len();
    buffer[begin..LIMIT].copy_from_slice(&last);
    buffer[0] = 0x61;
    for len in [LIMIT, LIMIT + 1] {
        let near = begin as u32 - 2..=len as u32 + 2;
        for offset in near.chain([0, 1 << 31, u32::MAX]) {
            for count in [0, 1, 2, 7] {
                // From the first byte on only the one value there: the rest are a thousand million empty tags.
                if offset == 0 && count > 1 {
                    continue;
                }
                series(run, &buffer[..len], offset, count)?;
                lent_series(run, &buffer[..len], offset, count, [0, 0])?;
            }
        }
    }
    for count in 0..=4 {
        for offset in 0..=9 {
            let p8 = [0x72, 5, 0, 0, 0, 0xFF, 0xFF, 0xFF, 0xFF, 0x11];
            let case = series::series(&p8, offset, count, [4, 5]);
            case.compare_beside(&buffer)?;
            case.compare_beside(&[])?;
            run.equal();
        }
    }
    Ok(())
}

/// A buffer of 2^30 bytes that has no value but the last.
fn longest_empty(run: &mut Run) -> Compared {
    let mut buffer = vec![0; LIMIT];
    buffer[LIMIT - 1] = 0x11;
    series(run, &buffer, 0, 1)?;
    series(run, &buffer, 0, 2)
}

fn most_values(run: &mut Run) -> Compared {
    let mut random = run.random(10);
    let mut buffer = Vec::new();
    let mut values = 0;
    while values < 10_000_000 {
        let (bits, length) = (random.byte() & 7, random.below(40));
        push_tag(&mut buffer, bits, length, random.below(9) == 0);
        for _ in 0..length * WIDTHS[bits as usize] {
            buffer.push(random.byte());
        }
        values += length;
    }
    for count in [10_000_000, values, values + 1] {
        series(run, &buffer, 0, count as u32)?;
    }
    Ok(())
}

/// Runs as a file has them, sometimes damaged or cut; or any bytes.
fn random(run: &mut Run) -> Compared {
    let mut random = run.random(11);
    while run.more() {
        let runs = random.below(9);
        let (mut buffer, mut values) = any_runs(&mut random, runs);
        match random.below(4) {
            0 => {
                let len = random.below(40);
                buffer = random_bytes(&mut random, len);
                values = random.pick(&[3, 40, 5000]);
            }
            1 if !buffer.is_empty() => {
                let place = random.below(buffer.len());
                buffer[place] = random.byte();
            }
            2 => buffer.truncate(random.below(buffer.len() + 1)),
            _ => (),
        }
        for _ in 0..3 {
            let offset = match random.below(4) {
                0 => random.below(buffer.len() + 2),
                _ => 0,
            };
            let count = match random.below(4) {
                0 => values,
                1 => values + 1,
                _ => random.below(values + 2),
            };
            let [kinds, payloads] = [0; 2].map(|_| match random.below(16) {
                0 => random.below(count + 1),
                _ => count + random.below(4),
            });
            lent_series(run, &buffer, offset as u32, count as u32, [kinds, payloads])?;
        }
        let at = random.below(buffer.len() + 2);
        one(run, &buffer, at, random.byte())?;
    }
    Ok(())
}
