//! The clean-bundle profile.

use bisquepond::clean::{check_bundle, Bundle, SeriesRow, Verdict};
use bisquepond::literal::Objects;
use bisquepond::sys::LIMIT;
use bisquepond::table::Strings;
use bisquepond::Layout;
use harness::Random;
use published::format::FLAG_OVERFLOWED;

use crate::function::point;
use crate::table::Bench;
use crate::whole::{sides, Whole};

/// A place, and a function.
type Large = (usize, usize);

/// The places of large headers: as a linker writes them, or not.
#[derive(Clone, Copy)]
pub enum Order {
    Rising,
    Falling,
    Any,
}

const ORDERS: [(Order, &str); 3] = [
    (Order::Rising, "rising"),
    (Order::Falling, "falling"),
    (Order::Any, "any order"),
];

pub fn rows(bench: &Bench) {
    sides(
        "A bundle that is clean: functions of which one in 16 has a large header, as many strings, as many literals in series of ten.",
        "The Rust has no such call: its side is a plain function, not inlined, that sorts the places of all large headers.",
        "entry",
        ["ours", "sorting", "sort/ours"],
    );
    for layout in [Layout::Legacy16, Layout::Modern12] {
        for entries in [10_000, 1_000_000] {
            for (order, name) in ORDERS {
                let made = Made::new(layout, entries, 16, order);
                made.row(bench, &format!("clean {layout}, {name}"));
            }
        }
        let made = Made::new(layout, 1_000_000, 1, Order::Rising);
        made.row(bench, &format!("clean {layout}, all large"));
    }
}

/// A clean bundle of so many functions, strings and literals.
struct Made {
    layout: Layout,
    entries: usize,
    file: Vec<u8>,
    kinds: Vec<u32>,
    small: Vec<u32>,
    storage: Vec<u8>,
    values: Vec<u8>,
    series: Vec<SeriesRow>,
}

/// Places behind `from`, one behind the other, in this order.
pub fn places(from: usize, count: usize, apart: usize, order: Order) -> Vec<usize> {
    let mut places: Vec<usize> = (0..count).map(|i| from + i * apart).collect();
    match order {
        Order::Rising => {}
        Order::Falling => places.reverse(),
        Order::Any => {
            let mut random = Random::new(3);
            for i in (1..count).rev() {
                places.swap(i, random.below(i + 1));
            }
        }
    }
    places
}

impl Made {
    fn new(layout: Layout, entries: usize, one_in: usize, order: Order) -> Made {
        let mut random = Random::new(1);
        let (own, large) = (layout.header_size(), layout.large_header_size());
        let end = entries * own;
        let larges = entries.div_ceil(one_in);
        let mut file = vec![0; end + larges * large.next_multiple_of(4)];
        let places = places(end, larges, large.next_multiple_of(4), order);
        for (i, place) in places.into_iter().enumerate() {
            let header = &mut file[i * one_in * own..][..own];
            point(header, layout.into(), place);
        }
        let storage: Vec<u8> = (0..entries).map(|_| b'a' + random.byte() % 26).collect();
        let most = storage.len().min((1 << 23) - 1) - 40;
        let entry = |random: &mut Random| {
            (random.below(most) as u32) << 1 | (random.below(40) as u32) << 24
        };
        let small = (0..entries).map(|_| entry(&mut random)).collect();
        let (mut values, mut series) = (Vec::new(), Vec::new());
        for _ in 0..entries / 10 {
            series.push(SeriesRow::of_values(values.len() as u32, 10));
            // Strings, integers, nulls, and strings again: ten of them.
            values.push(0x53);
            (0..3).for_each(|_| values.extend((random.below(10_000) as u16).to_le_bytes()));
            values.push(0x73);
            (0..3).for_each(|_| values.extend((random.word() as u32).to_le_bytes()));
            values.extend([0x02, 0x62, random.byte(), random.byte()]);
        }
        Made {
            layout,
            entries,
            file,
            kinds: vec![100; entries / 100],
            small,
            storage,
            values,
            series,
        }
    }

    fn bundle(&self) -> Bundle<'_> {
        Bundle {
            file: &self.file,
            layout: self.layout,
            start: 0,
            count: self.entries as u32,
            strings: Strings {
                kinds: &self.kinds,
                small: &self.small,
                overflow: &[],
                storage: &self.storage,
            },
            string_count: self.entries as u32,
            objects: Objects {
                keys: &[],
                values: &self.values,
            },
            series: &self.series,
        }
    }

    fn row(&self, bench: &Bench, name: &str) {
        let bundle = self.bundle();
        let parts = [self.file.len(), 4 * self.small.len(), self.values.len()];
        let whole = Whole {
            bytes: parts.iter().sum(),
            items: 3 * self.entries,
        };
        let ours = || match check_bundle(&bundle).expect("what the readers accept") {
            Verdict::Clean => (0, 0),
            Verdict::Broken { rule, place } => (rule.number().into(), place.into()),
        };
        let rust = || match plain(&bundle).expect("what the readers accept") {
            None => (0, 0),
            Some((rule, place)) => (rule, place as u64),
        };
        assert_eq!(ours(), (0, 0), "{name}");
        whole.row(bench, name, ours, rust);
    }
}

/// The packed place of a header, if it is flagged.
fn place_of(header: &[u8], layout: Layout) -> Option<usize> {
    let word = |at: usize| u64::from_le_bytes(header[at..at + 8].try_into().unwrap());
    if header[header.len() - 1] & FLAG_OVERFLOWED == 0 {
        return None;
    }
    let offset = word(0) & 0x1FF_FFFF;
    Some(match layout {
        Layout::Legacy16 => (word(8) & 0x1FF_FFFF) << 16 | offset,
        Layout::Modern12 => (word(0) >> 46 & 0xFF) << 24 | offset & 0xFF_FFFF,
    } as usize)
}

/// The large headers in order of their places, or the first function that cannot be read.
fn larges(bundle: &Bundle<'_>) -> Result<Vec<Large>, usize> {
    let Bundle {
        file,
        layout,
        start,
        count,
        ..
    } = *bundle;
    let table = file
        .get(start..)
        .filter(|_| file.len() <= LIMIT)
        .ok_or(0usize)?;
    let mut headers = table.chunks_exact(layout.header_size());
    let mut larges = Vec::new();
    for id in 0..count as usize {
        let header = headers.next().ok_or(id)?;
        if let Some(place) = place_of(header, layout) {
            let fits = place <= file.len() && file.len() - place >= layout.large_header_size();
            larges.push(fits.then_some((place, id)).ok_or(id)?);
        }
    }
    larges.sort_unstable();
    Ok(larges)
}

/// Whether an entry is valid; none where its pair is not there.
fn is_valid(strings: &Strings<'_>, entry: u32) -> Option<bool> {
    let (field, length) = (entry as usize >> 1 & 0x7F_FFFF, entry >> 24);
    let [start, length] = match length {
        255 => strings.overflow.get(field)?.map(|word| word as usize),
        _ => [field, length as usize],
    };
    let bytes = length << (entry & 1);
    Some(start < strings.storage.len() && start + bytes <= strings.storage.len())
}

/// Whether a series passes an empty tag, and whether it has a string number too high; none where it is cut.
fn walk(buffer: &[u8], offset: usize, count: usize, strings: u32) -> Option<[bool; 2]> {
    let (mut rest, mut left, mut found) = (buffer.get(offset..)?, count, [false; 2]);
    while left > 0 {
        let (&tag, mut behind) = rest.split_first()?;
        let mut length = usize::from(tag & 15);
        if tag & 0x80 != 0 {
            let (&low, after) = behind.split_first()?;
            (length, behind) = (length << 8 | usize::from(low), after);
        }
        found[0] |= length == 0;
        let values = length.min(left);
        let width = [0, 0, 0, 8, 4, 2, 1, 4][usize::from(tag >> 4 & 7)];
        let (bytes, after) = behind.split_at_checked(values * width)?;
        if matches!(tag >> 4 & 7, 4..=6) {
            let number = |bytes: &[u8]| {
                bytes
                    .iter()
                    .rev()
                    .fold(0, |n, &byte| n << 8 | u32::from(byte))
            };
            found[1] |= bytes
                .chunks_exact(width)
                .any(|bytes| number(bytes) >= strings);
        }
        (rest, left) = (after, left - values);
    }
    Some(found)
}

/// The same checks with a sort, as one would write them: the first broken rule and its lowest place.
#[inline(never)]
fn plain(bundle: &Bundle<'_>) -> Result<Option<(u64, usize)>, usize> {
    let Bundle {
        layout,
        strings,
        string_count,
        objects,
        ..
    } = *bundle;
    let larges = larges(bundle)?;
    let end = bundle.start + bundle.count as usize * layout.header_size();
    let size = layout.large_header_size();
    let early = larges
        .iter()
        .filter(|large| large.0 < end)
        .map(|large| large.1);
    let shared = larges
        .windows(2)
        .filter(|pair| pair[1].0 - pair[0].0 < size);
    let large = early
        .chain(shared.map(|pair| pair[0].1.min(pair[1].1)))
        .min();

    let mut invalid = None;
    for (i, &entry) in strings.small.iter().take(string_count as usize).enumerate() {
        if !is_valid(&strings, entry).ok_or(i)? {
            invalid = invalid.or(Some(i));
        }
    }
    let mut found = [None; 2];
    for (i, row) in bundle.series.iter().enumerate() {
        let buffer = if row.is_of_keys() {
            objects.keys
        } else {
            objects.values
        };
        let (offset, count) = (row.offset() as usize, row.count() as usize);
        let broken = match count {
            0 => [false; 2],
            _ => walk(buffer, offset, count, string_count).ok_or(i)?,
        };
        for (found, broken) in found.iter_mut().zip(broken) {
            *found = found.or(broken.then_some(i));
        }
    }
    let length = |word: &u32| u64::from(word & 0x7FFF_FFFF);
    let sum: u64 = strings.kinds.iter().map(length).sum();
    let empty = strings.kinds.iter().position(|word| length(word) == 0);
    let run = empty.or((sum != string_count.into()).then_some(strings.kinds.len()));
    let rules = [large, run, invalid, found[0], found[1]];
    Ok((1..)
        .zip(rules)
        .find_map(|(rule, place)| Some((rule, place?))))
}
