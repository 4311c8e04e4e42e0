//! Handlers and trailing sections.

use bisquepond::function::FunctionRow;
use bisquepond::parsing::{read_handlers, HandlerRow};
use bisquepond::sys::*;
use bisquepond::Row as _;
use harness::Random;
use published::file::parser::parsing;
use published::format::{
    empty_header, FunctionHeader, FunctionHeaderLayout, LegacyFunctionHeader,
    FLAG_HAS_EXCEPTION_HANDLER,
};
use published::io::ByteReader;

use crate::table::{Bench, SIZES};
use crate::whole::{heading, Whole};

const FUNCTION: usize = FunctionRow::WORDS;
const ROW: usize = HandlerRow::WORDS;

pub fn rows(bench: &Bench) {
    heading(
        "Handlers: one call for all functions, of which one in four has one to four handlers, or every one has.",
        "The Rust makes a map of vectors; ours writes rows into lent words.",
        "function",
    );
    for size in SIZES {
        let (some, all) = (Made::new(size, 4), Made::new(size, 1));
        some.listed(bench, "handlers, one in four");
        all.listed(bench, "handlers, every function");
        some.owned(bench, "handlers, one in four, made anew");
        all.owned(bench, "handlers, every one, made anew");
    }
    heading(
        "Why a function has no handlers: a call for each function of the same tables, in their order or in none.",
        "The Rust has no such call: its side is a plain function, not inlined, that does these checks on the Rust's headers.",
        "function",
    );
    for size in SIZES {
        let (some, all) = (Made::new(size, 4), Made::new(size, 1));
        for (order, in_order) in [("in order", true), ("any order", false)] {
            some.asked(bench, &format!("why, one in four, {order}"), in_order);
            all.asked(bench, &format!("why, every function, {order}"), in_order);
        }
    }
    heading(
        "Trailing sections, and the entries of their three tables. The Rust copies the bytecode and the whole file besides;",
        "ours copies neither.",
        "entry",
    );
    for size in SIZES {
        sections(bench, size);
    }
}

/// A file full of handler tables, which the functions name in rising order.
struct Made {
    size: usize,
    file: Vec<u8>,
    functions: Vec<u32>,
    headers: Vec<FunctionHeader>,
}

impl Made {
    fn new(size: usize, one_in: usize) -> Made {
        let mut random = Random::new(1);
        let mut file = vec![0; 4];
        let mut functions = Vec::new();
        let mut headers = Vec::new();
        while file.len() + 4 + 4 * 12 <= size {
            let has = random.below(one_in) == 0;
            let (info_offset, flags) = match has {
                true => (file.len() as u32, FLAG_HAS_EXCEPTION_HANDLER),
                false => (0, 0),
            };
            if has {
                let count = 1 + random.below(4);
                file.extend((count as u32).to_le_bytes());
                file.extend((0..12 * count).map(|_| random.byte()));
            }
            let mut row = [0; FUNCTION];
            (row[6], row[8]) = (info_offset, flags.into());
            functions.extend(row);
            headers.push(FunctionHeader::Legacy(LegacyFunctionHeader {
                function_id: headers.len() as u32,
                offset: 0,
                param_count: 0,
                bytecode_size_in_bytes: 0,
                function_name: 0,
                info_offset,
                frame_size: 0,
                environment_size: 0,
                highest_read_cache_index: 0,
                highest_write_cache_index: 0,
                flags,
            }));
        }
        Made {
            size,
            file,
            functions,
            headers,
        }
    }

    fn whole(&self) -> Whole {
        Whole {
            bytes: self.file.len(),
            items: self.headers.len(),
        }
    }

    /// How many handlers the Rust has, and the last one's target.
    fn rust(&self) -> (u64, u64) {
        let found = parsing::handlers(&self.file, &self.headers);
        let total: usize = found.values().map(Vec::len).sum();
        let last = found.last_key_value().unwrap().1.last().unwrap().target;
        (total as u64, last.into())
    }

    /// All of them, in rows that are lent once.
    fn listed(&self, bench: &Bench, name: &str) {
        let mut rows = vec![0; self.size / 12 * ROW];
        let ours = || {
            let mut total = 0;
            let code = unsafe {
                let (s, len) = (self.file.as_ptr(), self.file.len());
                let (functions, words) = (self.functions.as_ptr(), self.functions.len());
                let (lent, lent_words) = (rows.as_mut_ptr(), rows.len());
                let count = self.headers.len() as u32;
                hbc_read_handlers(
                    s, len, functions, words, count, lent, lent_words, &mut total,
                )
            };
            assert_eq!(code, 0);
            (total as u64, rows[4 * (total - 1) + 3].into())
        };
        self.whole().row(bench, name, ours, || self.rust());
    }

    /// All of them, by the Rust crate, in a table that it makes: each function is counted first.
    fn owned(&self, bench: &Bench, name: &str) {
        let functions = FunctionRow::rows(&self.functions);
        let ours = || {
            let rows = read_handlers(&self.file, functions, self.headers.len() as u32).unwrap();
            (rows.len() as u64, rows.last().unwrap().target().into())
        };
        self.whole().row(bench, name, ours, || self.rust());
    }

    /// A call for each function: the sum of the answers, and that of the handlers.
    fn asked(&self, bench: &Bench, name: &str, in_order: bool) {
        let mut ids: Vec<u32> = (0..self.headers.len() as u32).collect();
        if !in_order {
            let mut random = Random::new(2);
            for i in (1..ids.len()).rev() {
                ids.swap(i, random.below(i + 1));
            }
        }
        let ours = || {
            let (s, len) = (self.file.as_ptr(), self.file.len());
            let (functions, words) = (self.functions.as_ptr(), self.functions.len());
            let (mut reasons, mut shown) = (0, 0);
            for &id in &ids {
                let mut handlers = 0;
                reasons +=
                    unsafe { hbc_why_no_handlers(s, len, functions, words, id, &mut handlers) };
                shown += u64::from(handlers);
            }
            (reasons, shown)
        };
        let rust = || {
            let (mut reasons, mut shown) = (0, 0);
            for &id in &ids {
                let (why, handlers) = why(&self.file, &self.headers, id).expect("a function");
                reasons += u64::from(why);
                shown += u64::from(handlers);
            }
            (reasons, shown)
        };
        self.whole().row(bench, name, ours, rust);
    }
}

/// The same checks on the Rust's own headers: the answer and the number of handlers.
#[inline(never)]
fn why(file: &[u8], headers: &[FunctionHeader], id: u32) -> Option<(u32, u32)> {
    if file.len() > LIMIT {
        return None;
    }
    let (info, flags) = match headers.get(id as usize)? {
        FunctionHeader::Legacy(header) => (header.info_offset as usize, header.flags),
        FunctionHeader::Modern(header) => (header.info_offset as usize, header.flags),
    };
    if flags & FLAG_HAS_EXCEPTION_HANDLER == 0 {
        return Some((1, 0));
    }
    if info == 0 {
        return Some((2, 0));
    }
    if info >= file.len() {
        return Some((3, 0));
    }
    let rest = file.get(info.next_multiple_of(4)..);
    let Some((count, triples)) = rest.and_then(|rest| rest.split_first_chunk()) else {
        return Some((4, 0));
    };
    Some(match u32::from_le_bytes(*count) {
        0 => (5, 0),
        1001.. => (6, 0),
        count if triples.len() < 12 * count as usize => (7, 0),
        count => (0, count),
    })
}

/// A third of the file for the three tables, some for the storage, the rest for bytecode.
fn sections(bench: &Bench, size: usize) {
    let mut random = Random::new(1);
    let file: Vec<u8> = (0..size / 8)
        .flat_map(|_| random.word().to_le_bytes())
        .collect();
    let entries = size / 72;
    let (count, storage) = (entries as u32, 1001);
    let mut rows = [0; 20];
    let mut table = vec![0; 2 * entries];
    let ours = || unsafe {
        let (s, len) = (file.as_ptr(), file.len());
        let lent = rows.as_mut_ptr();
        let found = hbc_trailing_sections(s, len, 0, count, storage, count, true, count, lent, 20);
        assert_eq!(found, 5);
        let mut sum = u64::from(rows[17]);
        for section in [0, 2, 3] {
            let mut at = rows[section * ROW] as usize;
            let code = hbc_read_pair_table(s, len, &mut at, count, table.as_mut_ptr(), table.len());
            assert_eq!(number(code), 0);
            sum += u64::from(table[2 * entries - 1]);
        }
        (3 * u64::from(count), sum)
    };
    let rust = || {
        let mut header = empty_header(FunctionHeaderLayout::Legacy16);
        header.reg_exp_count = count;
        header.reg_exp_storage_size = storage;
        header.cjs_module_count = count;
        header.function_source_count = Some(count);
        let mut reader = ByteReader::new(&file);
        let found = parsing::trailing(&file, &mut reader, header).unwrap();
        let last = [
            found.reg_exp_table.last().unwrap().length,
            found.cjs_module_table.last().unwrap().1,
            found.function_source_table.last().unwrap().1,
            found.sections.last().unwrap().size,
        ];
        (
            3 * u64::from(count),
            last.iter().map(|&n| u64::from(n)).sum(),
        )
    };
    let whole = Whole {
        bytes: size,
        items: 3 * entries,
    };
    whole.row(bench, "sections and their pairs", ours, rust);
}
