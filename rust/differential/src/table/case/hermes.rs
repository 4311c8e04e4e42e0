//! Strings decoded in Hermes mode. The Rust has none: what is right is worked out here a second time, from the sentences of
//! docs/FORMAT.md, section 4, by sums of lengths. And the strings are written anew for the old mode, which the Rust has:
//! each pair where it is taken, no run that is empty. Then the Rust must give the same rows.

use bisquepond::sys::*;

use super::strings::{Case, ROW};
use crate::case::{bytes_word, Compare, Difference, Refusal, Words};
use crate::case::{code, printed, replayed, said, table_word};
use crate::lent::{guarded, inside, FRONT};
use crate::meter;

/// The case of the old mode, read in Hermes mode.
#[derive(Clone, Copy)]
pub struct Hermes<'a>(pub Case<'a>);

/// What a kind run says of its strings, and how many they are.
fn run(word: u32) -> (bool, u32) {
    (word >> 31 == 1, word & 0x7FFF_FFFF)
}

/// The number of the pair that an entry takes, if it takes one.
fn pair_number(entry: u32) -> Option<usize> {
    (entry >> 24 == 255).then_some((entry >> 1 & 0x7F_FFFF) as usize)
}

impl Hermes<'_> {
    /// The entries that are decoded.
    fn entries(&self) -> &[u32] {
        let Case { small, count, .. } = self.0;
        &small[..small.len().min(count as usize)]
    }

    /// Offset and length of a string; none where its number is past the pairs lent.
    fn place(&self, entry: u32) -> Option<(u64, u64)> {
        let Some(number) = pair_number(entry) else {
            return Some(((entry >> 1 & 0x7F_FFFF).into(), (entry >> 24).into()));
        };
        let mut pairs = self.0.overflow.chunks_exact(2);
        let pair = pairs.nth(number)?;
        Some((pair[0].into(), pair[1].into()))
    }

    /// The lengths of the runs added up, from the first run to each: string i is of the first whose sum exceeds i.
    fn sums(&self) -> Vec<u64> {
        let mut sum = 0;
        let add = |&word: &u32| {
            sum += u64::from(run(word).1);
            sum
        };
        self.0.kinds.iter().map(add).collect()
    }

    /// What is right: the words of the rows, or the refusal.
    pub fn decoded(&self) -> Result<Vec<u32>, Refusal> {
        let (entries, end) = (self.entries(), self.0.storage.len() as u64);
        if self.0.storage.len() > LIMIT {
            return Err((1, 0));
        }
        if self.0.lent / ROW < entries.len() {
            return Err((4, 0));
        }
        let (sums, mut words) = (self.sums(), Vec::with_capacity(entries.len() * ROW));
        for (i, &entry) in entries.iter().enumerate() {
            let (start, length) = self.place(entry).ok_or((8, i as u32))?;
            let utf16 = entry & 1;
            let bytes = if utf16 == 1 { 2 * length } else { length };
            let valid = start < end && start + bytes <= end;
            let first = sums.partition_point(|&sum| sum <= i as u64);
            let identifier = self.0.kinds.get(first).is_some_and(|&word| run(word).0);
            let [start, bytes] = if valid { [start, bytes] } else { [0, 0] };
            words.extend([start as u32, bytes as u32, !valid as u32]);
            words.push(utf16 + 2 * identifier as u32);
        }
        Ok(words)
    }

    /// The kind runs and overflow words that say the same in the old mode: no empty run; the pairs as they are taken, up
    /// to the first that is missing.
    pub fn in_order(&self) -> (Vec<u32>, Vec<u32>) {
        let named = self.0.kinds.iter().filter(|&&word| run(word).1 > 0);
        let pairs: Vec<&[u32]> = self.0.overflow.chunks_exact(2).collect();
        let numbers = self.entries().iter().filter_map(|&entry| pair_number(entry));
        let taken = numbers.map_while(|number| pairs.get(number).copied());
        (named.copied().collect(), taken.collect::<Vec<_>>().concat())
    }

    /// Whether all that is lent is small enough to be copied, and for the Rust to make texts of it.
    fn is_small(&self) -> bool {
        let Case { kinds, small, overflow, storage, lent, .. } = self.0;
        kinds.len() + small.len() + overflow.len() + lent < 1 << 12 && storage.len() < 1 << 12
    }

    /// The call itself, with a table of so many words.
    pub fn make(&self, rows: *mut u32, len: usize) -> u64 {
        let Case { kinds, small, overflow, storage, .. } = self.0;
        self.lending([kinds, small, overflow], storage, rows, len)
    }

    fn lending(&self, given: [&[u32]; 3], storage: &[u8], rows: *mut u32, len: usize) -> u64 {
        let [(a, a_len), (b, b_len), (c, c_len)] = given.map(|t| (t.as_ptr(), t.len()));
        let (s, s_len, count) = (storage.as_ptr(), storage.len(), self.0.count);
        meter::call(|| unsafe {
            hbc_decode_strings_hermes(count, a, a_len, b, b_len, c, c_len, s, s_len, rows, len)
        })
    }
}

/// The answer, and afterwards all that is lent with what is on both sides: the table, and where the call is small the runs,
/// the entries, the pairs and the storage.
#[derive(Clone, PartialEq, Eq)]
pub struct Decoded {
    pub code: u64,
    table: Vec<u32>,
    given: Option<([Vec<u32>; 3], Vec<u8>)>,
}

impl Decoded {
    /// The lent words alone.
    pub fn rows(&self) -> &[u32] {
        inside(&self.table)
    }
}

impl Hermes<'_> {
    /// Copies of what is only read, with what is on both sides.
    fn given(&self) -> Option<([Vec<u32>; 3], Vec<u8>)> {
        let Case { kinds, small, overflow, storage, .. } = self.0;
        let words = || [kinds, small, overflow].map(|words| guarded(words, words.len()));
        self.is_small().then(|| (words(), guarded(storage, storage.len())))
    }
}

impl Compare for Hermes<'_> {
    type Answer = Decoded;
    type Besides = ();

    fn ours(&self) -> Result<Decoded, String> {
        let (mut table, len, given) = (guarded(&[], self.0.lent), self.0.lent, self.given());
        let rows = table[FRONT..].as_mut_ptr();
        let code = match &given {
            Some(([a, b, c], s)) => {
                self.lending([inside(a), inside(b), inside(c)], inside(s), rows, len)
            }
            None => self.make(rows, len),
        };
        Ok(Decoded { code, table, given })
    }

    fn right(&self, _: Option<&Decoded>) -> (Decoded, ()) {
        let right = self.decoded();
        let words = right.as_ref().map_or(&[][..], |words| words);
        let table = guarded(words, self.0.lent);
        let code = code(right.map(|words| (words.len() / ROW) as u32));
        (Decoded { code, table, given: self.given() }, ())
    }

    /// Our old mode and the Rust, on the same strings as the old mode has them.
    fn besides(&self, ours: &Decoded, _: ()) -> Result<(), String> {
        if !self.is_small() {
            return Ok(());
        }
        let (kinds, overflow) = self.in_order();
        let old = Case { kinds: &kinds, overflow: &overflow, ..self.0 };
        let alike = old.compare().map_err(|Difference(lines)| lines.join("; "))?;
        let rows = if number(alike.code) == 0 { alike.code as usize * ROW } else { 0 };
        match alike.code == ours.code && alike.table[..rows] == ours.rows()[..rows] {
            true => Ok(()),
            false => Err(format!(
                "what the Rust, given the pairs in order, has otherwise: {}",
                said(alike.code, "rows")
            )),
        }
    }

    fn call(&self) -> String {
        self.0.call().replacen("Strings", "Hermes", 1)
    }

    fn said(&self, answer: &Decoded, right: Option<&Decoded>) -> String {
        let mut words = said(answer.code, "rows");
        let Some(right) = right else {
            return words;
        };
        if let Some(i) = answer.table.iter().zip(&right.table).position(|(a, b)| a != b) {
            let (at, given, right) = (i as isize - FRONT as isize, answer.table[i], right.table[i]);
            words += &format!("; word {at} of {} lent is {given}, not {right}", self.0.lent);
        }
        if answer.given != right.given {
            words += "; what is only read changed";
        }
        words
    }

    fn replay(&self) -> Option<String> {
        let Case { count, kinds, small, overflow, storage, lent } = self.0;
        printed(storage, &[kinds, small, overflow], &[lent]).then(|| {
            let [kinds, small, overflow] = [kinds, small, overflow].map(table_word);
            let storage = bytes_word(storage);
            format!("table Hermes {count} {lent} {kinds} {small} {overflow} {storage}")
        })
    }
}

/// `COUNT WORDS KINDS SMALL OVERFLOW STORAGE`.
pub fn replay(words: &mut Words) -> Result<String, Difference> {
    let case = Case {
        count: words.number()?,
        lent: words.number()?,
        kinds: &words.table()?,
        small: &words.table()?,
        overflow: &words.table()?,
        storage: &words.bytes()?,
    };
    replayed(&Hermes(case), words)
}
