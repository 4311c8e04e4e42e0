//! One bundle. What the readers refuse is known from the Rust, as their own layers have it; the five rules are written here
//! a second time, from the request's sentences, each by itself.

use bisquepond::clean::{check_bundle, Bundle, SeriesRow, Verdict};
use bisquepond::literal::Objects;
use bisquepond::sys::{hbc_check_bundle, number, LIMIT};
use bisquepond::table::Strings;
use bisquepond::Row as _;

use crate::buffer::case::series::series;
use crate::case::{bytes_word, code, printed, replayed, said, table_word};
use crate::case::{Compare, Difference, Refusal, Words};
use crate::function::case::{fresh, Layout, LAYOUTS};
use crate::lent::{guarded, inside, kept, Number};
use crate::meter;
use crate::table::case::hermes::Hermes;
use crate::table::case::strings;

/// The rules, by their numbers.
pub const LARGE_HEADERS: u32 = 1;
pub const KIND_RUNS: u32 = 2;
pub const STRINGS: u32 = 3;
pub const EMPTY_TAGS: u32 = 4;
pub const LITERAL_STRINGS: u32 = 5;

/// The words of a series' row.
pub const ROW: usize = SeriesRow::WORDS;

#[derive(Clone, Copy)]
pub struct Case<'a> {
    pub file: &'a [u8],
    pub layout: u32,
    pub start: usize,
    pub count: u32,
    pub kinds: &'a [u32],
    /// The string count that is given.
    pub strings: u32,
    pub small: &'a [u32],
    pub overflow: &'a [u32],
    pub storage: &'a [u8],
    pub keys: &'a [u8],
    pub values: &'a [u8],
    pub series: &'a [u32],
}

/// Nothing at all.
pub const NONE: Case<'_> = Case {
    file: &[],
    layout: 0,
    start: 0,
    count: 0,
    kinds: &[],
    strings: 0,
    small: &[],
    overflow: &[],
    storage: &[],
    keys: &[],
    values: &[],
    series: &[],
};

/// Clean is none; else the broken rule and its lowest place.
pub type Found = Option<(u32, usize)>;

/// A function and the place of its large header.
type Large = (usize, usize);

/// Functions up to which each is held against each.
const PAIRS: usize = 1_500;

/// Rule 1 by all pairs, as it is said.
fn by_pairs(larges: &[Large], size: usize, end: usize) -> Option<usize> {
    let shares = |&(id, place): &Large| {
        let apart = |other: usize| place + size <= other || other + size <= place;
        larges.iter().any(|&(other, at)| other != id && !apart(at))
    };
    let breaks = |large: &&Large| large.1 < end || shares(large);
    larges.iter().find(breaks).map(|large| large.0)
}

/// The same by their places in order: what shares a byte with any shares one with the next before it or behind it.
fn by_order(larges: &[Large], size: usize, end: usize) -> Option<usize> {
    let mut placed: Vec<Large> = larges.iter().map(|&(id, place)| (place, id)).collect();
    placed.sort_unstable();
    let early = placed.iter().filter(|(place, _)| *place < end).map(|&(_, id)| id);
    let beside = placed.windows(2).filter(|pair| pair[1].0 < pair[0].0 + size);
    early.chain(beside.map(|pair| pair[0].1.min(pair[1].1))).min()
}

/// One series: whether it passes a tag of length 0, by its tags alone. It is known to be read.
fn passes_empty(buffer: &[u8], offset: u32, count: u32) -> bool {
    let (mut at, mut values) = (offset as usize, 0);
    while values < count {
        let tag = buffer[at];
        let mut length = u32::from(tag % 16);
        at += 1;
        if tag >= 128 {
            length = 256 * length + u32::from(buffer[at]);
            at += 1;
        }
        if length == 0 {
            return true;
        }
        at += length as usize * [0, 0, 0, 8, 4, 2, 1, 4][usize::from(tag / 16 % 8)];
        values += length;
    }
    false
}

impl<'a> Case<'a> {
    /// The rows of the series: the buffer that is named, offset and count.
    fn rows(&self) -> impl Iterator<Item = (&'a [u8], u32, u32)> + use<'a> {
        let Case { keys, values, series, .. } = *self;
        series.chunks_exact(ROW).map(move |row| {
            let buffer = if row[0] == 0 { values } else { keys };
            (buffer, row[1], row[2])
        })
    }

    /// The large headers of a table that can be read, or its refusal.
    fn larges(&self, layout: Layout) -> Result<Vec<Large>, Refusal> {
        let Case { file, start, count, .. } = *self;
        if file.len() > LIMIT {
            return Err((1, 0));
        }
        if start > file.len() {
            return Err((2, 0));
        }
        // Past those that fit the first is refused: no memory is asked for the others.
        let fit = (file.len() - start) / layout.own();
        fresh(file, layout, start, count.min(fit as u32 + 1))?;
        let headers = file[start..].chunks_exact(layout.own()).take(count as usize);
        let places = headers.enumerate().map(|(id, header)| (id, layout.place(header)));
        Ok(places.filter_map(|(id, place)| Some((id, place? as usize))).collect())
    }

    fn rule_1(&self, layout: Layout, larges: &[Large]) -> Option<usize> {
        let (size, end) = (layout.large(), self.start + self.count as usize * layout.own());
        let found = by_order(larges, size, end);
        if larges.len() <= PAIRS {
            assert_eq!(by_pairs(larges, size, end), found, "the second implementation's own two");
        }
        found
    }

    fn rule_2(&self) -> Option<usize> {
        let length = |&word: &u32| u128::from(word % (1 << 31));
        let empty = self.kinds.iter().position(|word| length(word) == 0);
        let sum: u128 = self.kinds.iter().map(length).sum();
        empty.or((sum != self.strings.into()).then_some(self.kinds.len()))
    }

    /// What is right.
    pub fn right(&self) -> Result<Found, Refusal> {
        let Case { kinds, strings: count, small, overflow, storage, .. } = *self;
        let layout = *LAYOUTS.get(self.layout as usize).ok_or((12, 0))?;
        let larges = self.larges(layout)?;
        let lent = strings::ROW * small.len();
        let rows =
            Hermes(strings::Case { count, kinds, small, overflow, storage, lent }).decoded()?;
        let values: Result<Vec<_>, Refusal> = self
            .rows()
            .map(|(buffer, offset, count)| series(buffer, offset, count, [0; 2]).values())
            .collect();
        let values = values?;

        // Each rule by itself.
        let mut strings = rows.chunks_exact(strings::ROW);
        let mut rows = self.rows();
        let high = |&(kind, payload): &(u32, u64)| kind == 4 && payload >= u64::from(count);
        let found = [
            (LARGE_HEADERS, self.rule_1(layout, &larges)),
            (KIND_RUNS, self.rule_2()),
            (STRINGS, strings.position(|row| row[2] != 0)),
            (
                EMPTY_TAGS,
                rows.position(|(buffer, offset, count)| passes_empty(buffer, offset, count)),
            ),
            (LITERAL_STRINGS, values.iter().position(|values| values.iter().any(high))),
        ];
        Ok(found.into_iter().find_map(|(rule, place)| Some((rule, place?))))
    }

    /// The call itself.
    pub fn make(&self, place: *mut u32) -> u64 {
        let Case { file, layout, start, count, kinds, strings, .. } = *self;
        let Case { small, overflow, storage, keys, values, series, .. } = *self;
        meter::call(|| unsafe {
            hbc_check_bundle(
                file.as_ptr(),
                file.len(),
                layout,
                start,
                count,
                kinds.as_ptr(),
                kinds.len(),
                strings,
                small.as_ptr(),
                small.len(),
                overflow.as_ptr(),
                overflow.len(),
                storage.as_ptr(),
                storage.len(),
                keys.as_ptr(),
                keys.len(),
                values.as_ptr(),
                values.len(),
                series.as_ptr(),
                series.len(),
                place,
            )
        })
    }

    fn tables(&self) -> [&'a [u32]; 4] {
        [self.kinds, self.small, self.overflow, self.series]
    }

    fn bytes(&self) -> [&'a [u8]; 4] {
        [self.file, self.storage, self.keys, self.values]
    }

    /// Whether all that is lent is small enough to be copied.
    fn is_small(&self) -> bool {
        let words = self.tables().iter().all(|words| words.len() < 1 << 10);
        words && self.bytes().iter().all(|bytes| bytes.len() < 1 << 12)
    }

    /// What the Rust crate's call says, where it can be asked: of a layout that there is.
    fn in_rust(&self) -> Option<Result<Found, Refusal>> {
        let bundle = Bundle {
            file: self.file,
            layout: LAYOUTS.get(self.layout as usize)?.ours(),
            start: self.start,
            count: self.count,
            strings: Strings {
                kinds: self.kinds,
                small: self.small,
                overflow: self.overflow.as_chunks().0,
                storage: self.storage,
            },
            string_count: self.strings,
            objects: Objects { keys: self.keys, values: self.values },
            series: SeriesRow::rows(self.series),
        };
        let found = |verdict| match verdict {
            Verdict::Clean => None,
            Verdict::Broken { rule, place } => Some((rule.number(), place as usize)),
        };
        let refusal = |why: bisquepond::Refusal| (why.number, why.place);
        Some(check_bundle(&bundle).map(found).map_err(refusal))
    }
}

/// What the place holds before a call.
pub const LENT: u32 = 0xA5A5_A5A5;

/// The answer, and the place as it is afterwards.
#[derive(Clone, Copy, PartialEq, Eq, Debug)]
pub struct Answer {
    pub code: u64,
    pub place: u32,
}

/// The answer that says this: the place is left where no rule is broken, and one that is too far for 32 bits is told as the
/// greatest.
pub fn answer(right: Result<Found, Refusal>, before: u32) -> Answer {
    let place = match right {
        Ok(Some((_, place))) => place.try_into().unwrap_or(u32::MAX),
        _ => before,
    };
    Answer { code: code(right.map(|found| found.map_or(0, |(rule, _)| rule))), place }
}

impl Compare for Case<'_> {
    type Answer = Answer;
    type Besides = ();

    fn ours(&self) -> Result<Answer, String> {
        let mut place = Number::new(LENT, !LENT);
        if !self.is_small() {
            let code = self.make(place.lent());
            return Ok(Answer { code, place: place.held()? });
        }
        // Copies of what is only read, with words and bytes on both sides.
        let tables = self.tables().map(|words| guarded(words, words.len()));
        let bytes = self.bytes().map(|bytes| guarded(bytes, bytes.len()));
        let [kinds, small, overflow, series] = tables.each_ref().map(|words| inside(words));
        let [file, storage, keys, values] = bytes.each_ref().map(|bytes| inside(bytes));
        let copy = Case { file, kinds, small, overflow, storage, keys, values, series, ..*self };
        let code = copy.make(place.lent());
        let same = copy.tables() == self.tables() && copy.bytes() == self.bytes();
        if !same
            || !tables.iter().all(|words| kept(words))
            || !bytes.iter().all(|bytes| kept(bytes))
        {
            return Err("what is only read was written, or what stands beside it".to_string());
        }
        Ok(Answer { code, place: place.held()? })
    }

    fn right(&self, _: Option<&Answer>) -> (Answer, ()) {
        (answer(Case::right(self), LENT), ())
    }

    /// The Rust crate's call says the same.
    fn besides(&self, ours: &Answer, _: ()) -> Result<(), String> {
        match self.in_rust().map(|in_rust| answer(in_rust, LENT)) {
            Some(in_rust) if in_rust != *ours => {
                Err(format!("another answer in Rust: {}", self.said(&in_rust, None)))
            }
            _ => Ok(()),
        }
    }

    fn call(&self) -> String {
        let Case { layout, start, count, strings, .. } = *self;
        let [file, storage, keys, values] = self.bytes().map(<[u8]>::len);
        let [kinds, small, overflow, series] = self.tables().map(<[u32]>::len);
        format!("Bundle, layout {layout}, start {start}, {count} functions in {file} bytes, {kinds} runs, {strings} strings, {small} entries, {overflow} overflow words, {storage} bytes of storage, {keys} of keys, {values} of values, {series} words of series")
    }

    fn said(&self, answer: &Answer, _: Option<&Answer>) -> String {
        let place = match answer.place {
            LENT => "no place".to_string(),
            place => format!("place {place}"),
        };
        match (number(answer.code), answer.code) {
            (0, 0) => format!("clean, {place}"),
            (0, rule) => format!("rule {rule} is broken, {place}"),
            (_, code) => format!("{}, {place}", said(code, "")),
        }
    }

    fn replay(&self) -> Option<String> {
        let Case { layout, start, count, strings, .. } = *self;
        let all = self.bytes().iter().all(|bytes| printed(bytes, &self.tables(), &[]));
        all.then(|| {
            let [file, storage, keys, values] = self.bytes().map(bytes_word);
            let [kinds, small, overflow, series] = self.tables().map(table_word);
            format!("clean {layout} {start} {count} {strings} {file} {kinds} {small} {overflow} {storage} {keys} {values} {series}")
        })
    }
}

/// `LAYOUT START COUNT STRINGS FILE KINDS SMALL OVERFLOW STORAGE KEYS VALUES SERIES`, as a difference prints them.
pub fn replay(words: &mut Words) -> Result<String, Difference> {
    let case = Case {
        layout: words.number()?,
        start: words.number()?,
        count: words.number()?,
        strings: words.number()?,
        file: &words.bytes()?,
        kinds: &words.table()?,
        small: &words.table()?,
        overflow: &words.table()?,
        storage: &words.bytes()?,
        keys: &words.bytes()?,
        values: &words.bytes()?,
        series: &words.table()?,
    };
    replayed(&case, words)
}
