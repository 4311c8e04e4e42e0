//! The function tables.

use bisquepond::function::FunctionRow;
use bisquepond::sys::*;
use bisquepond::Row as _;
use harness::Random;
use published::format::FLAG_OVERFLOWED;

use super::io::any_bytes;
use super::{calls, refused, row, scattered};
use crate::function::point;
use crate::table::Bench;

const ROW: usize = FunctionRow::WORDS;

/// A layout's number and name, and the bytes of its header and its large header.
const LAYOUTS: [(u32, &str, usize, usize); 2] = [(0, "legacy", 16, 31), (1, "modern", 12, 37)];

/// Bytes of the file behind the table, in which large headers stand.
const FAR: usize = 64 << 20;

pub fn rows(bench: &Bench) {
    for (layout, name, own, large) in LAYOUTS {
        let named = |call: &str| format!("{call} {name}");
        let call = named("read_functions");
        row(
            bench,
            &call,
            "every header flagged, one large header",
            |n| Table::new(layout, n, large, |_, _| Some(0)).read(),
        );
        row(
            bench,
            &call,
            "every header flagged, anywhere in 64 MiB",
            |n| Table::new(layout, n, FAR, |_, i| Some(scattered(i, FAR - large))).read(),
        );
        row(bench, &call, "any flag, anywhere in 64 MiB", |n| {
            Table::new(layout, n, FAR, any_flag(large)).read()
        });
        row(bench, &call, "the same, the last header cut", |n| {
            let mut table = Table::new(layout, n, FAR, any_flag(large));
            table.start = table.bytes.len() - own * n + 1;
            let from = table.bytes.len() - own * n;
            table.bytes.copy_within(..own * n - 1, from + 1);
            let (_, read) = table.read();
            (refused(3, n - 1), read)
        });
        let call = named("refresh_functions");
        row(bench, &call, "span of the whole file, anywhere", |n| {
            let table = Table::new(layout, n, FAR, any_flag(large));
            let end = table.bytes.len();
            (n as u64, table.refresh(0, end))
        });
        row(bench, &call, "every second header met, anywhere", |n| {
            let far = |_: &mut Random, i: usize| Some(i % 2 * (FAR - large));
            let table = Table::new(layout, n, FAR, far);
            let end = table.bytes.len();
            ((n / 2) as u64, table.refresh(end - 1, end))
        });
        row(bench, &call, "any flag, an empty span", |n| {
            let table = Table::new(layout, n, FAR, any_flag(large));
            (0, table.refresh(1, 1))
        });
        let call = named("write_functions");
        row(bench, &call, "any row inline or large", |n| {
            Rows::new(layout, n, |random, _| random.below(2) == 0).write()
        });
        row(bench, &call, "every row large", |n| {
            Rows::new(layout, n, |_, _| true).write()
        });
        row(bench, &call, "the same, a byte short", |n| {
            let mut rows = Rows::new(layout, n, |_, _| true);
            rows.buffer.pop();
            let (_, write) = rows.write();
            (refused(4, 0), write)
        });
        row(bench, &call, "any row, the last one wrong", |n| {
            let mut rows = Rows::new(layout, n, |random, _| random.below(2) == 0);
            rows.words[(n - 1) * ROW + 1] = 0;
            let (_, write) = rows.write();
            (refused(13, n - 1), write)
        });
        row(
            bench,
            &named("read_function"),
            "anywhere, large headers anywhere",
            |n| {
                let table = Table::new(layout, n, FAR, any_flag(large));
                let mut row = [0; ROW];
                let read = move || {
                    let (s, len) = (table.bytes.as_ptr(), table.bytes.len());
                    calls(n, |i| {
                        let (id, lent) = (scattered(i, n) as u32, row.as_mut_ptr());
                        unsafe { hbc_read_function(s, len, layout, 0, id, lent, ROW) }
                    })
                };
                (n as u64, read)
            },
        );
        row(
            bench,
            &named("function_meets"),
            "anywhere, the whole file",
            |n| {
                let table = Table::new(layout, n, FAR, any_flag(large));
                let meets = move || {
                    let (s, len) = (table.bytes.as_ptr(), table.bytes.len());
                    let id = |i| scattered(i, n) as u32;
                    calls(n, |i| unsafe {
                        hbc_function_meets(s, len, layout, 0, id(i), 0, len)
                    })
                };
                (n as u64, meets)
            },
        );
    }
}

/// One header in two flagged, its large header anywhere behind the table.
fn any_flag(large: usize) -> impl Fn(&mut Random, usize) -> Option<usize> {
    move |random, _| match random.below(2) {
        0 => None,
        _ => Some(random.below(FAR - large)),
    }
}

/// Rows to be written from byte 0 on, with their large headers behind the table; and the bytes for them.
struct Rows {
    layout: u32,
    count: usize,
    words: Vec<u32>,
    buffer: Vec<u8>,
}

impl Rows {
    /// Rows of 0 but for their number, of which those that are large have fields of all bits.
    fn new(layout: u32, count: usize, large: impl Fn(&mut Random, usize) -> bool) -> Rows {
        let (.., own, size) = LAYOUTS[layout as usize];
        let mut random = Random::new(1);
        let (mut words, mut place) = (Vec::with_capacity(count * ROW), own * count);
        let mut end = place;
        for id in 0..count {
            let mut row = [0; ROW];
            if large(&mut random, id) {
                row[2..8].fill(u32::MAX);
                end = place + size;
                place = end.next_multiple_of(4);
                row[6] = place as u32;
            }
            (row[0], row[1]) = (layout, id as u32);
            words.extend(row);
        }
        Rows {
            layout,
            count,
            words,
            buffer: vec![0; end],
        }
    }

    fn write(mut self) -> (u64, impl FnMut() -> u64) {
        let (.., own, _) = LAYOUTS[self.layout as usize];
        let answer = self.buffer.len() as u64;
        let write = move || {
            let (read, words) = (self.words.as_ptr(), self.words.len());
            let (lent, len) = (self.buffer.as_mut_ptr(), self.buffer.len());
            let (count, large) = (self.count as u32, own * self.count);
            unsafe { hbc_write_functions(read, words, self.layout, 0, count, large, lent, len) }
        };
        (answer, write)
    }
}

struct Table {
    layout: u32,
    start: usize,
    count: usize,
    bytes: Vec<u8>,
}

impl Table {
    /// A table at byte 0 and so many bytes behind it; `place` says where there the large header of a function is.
    fn new(
        layout: u32,
        count: usize,
        behind: usize,
        place: impl Fn(&mut Random, usize) -> Option<usize>,
    ) -> Table {
        let (.., own, _) = LAYOUTS[layout as usize];
        let mut random = Random::new(1);
        let table = own * count;
        let mut bytes = any_bytes(table);
        bytes.resize(table + behind, 0x5A);
        for (i, header) in bytes[..table].chunks_exact_mut(own).enumerate() {
            header[own - 1] &= !FLAG_OVERFLOWED;
            if let Some(place) = place(&mut random, i) {
                point(header, layout, table + place);
            }
        }
        Table {
            layout,
            start: 0,
            count,
            bytes,
        }
    }

    fn read(self) -> (u64, impl FnMut() -> u64) {
        let mut rows = vec![0; ROW * self.count];
        let answer = self.count as u64;
        let read = move || self.read_with(&mut rows, &mut [0; 2]);
        (answer, read)
    }

    fn read_with(&self, rows: &mut [u32], [large, sizes]: &mut [u64; 2]) -> u64 {
        let (s, len) = (self.bytes.as_ptr(), self.bytes.len());
        let (lent, words) = (rows.as_mut_ptr(), rows.len());
        let (layout, start, count) = (self.layout, self.start, self.count as u32);
        unsafe { hbc_read_functions(s, len, layout, start, count, lent, words, large, sizes) }
    }

    /// Of rows that were read, with their totals, which go from call to call.
    fn refresh(self, low: usize, high: usize) -> impl FnMut() -> u64 {
        let (mut rows, mut totals) = (vec![0; ROW * self.count], [0; 2]);
        let read = self.read_with(&mut rows, &mut totals);
        assert_eq!(read, self.count as u64, "a table that can be read");
        move || {
            let (s, len) = (self.bytes.as_ptr(), self.bytes.len());
            let (lent, words) = (rows.as_mut_ptr(), rows.len());
            let (layout, count) = (self.layout, self.count as u32);
            let [large, sizes] = &mut totals;
            unsafe {
                hbc_refresh_functions(
                    s, len, layout, 0, count, low, high, lent, words, large, sizes,
                )
            }
        }
    }
}
