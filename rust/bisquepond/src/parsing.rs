//! Exception handlers, why a function has none, and the sections that follow the tables.

use core::fmt;

use crate::boundary;
use crate::function::FunctionRow;
use crate::{Result, Table};

pub use crate::boundary::HandlerRow;

words! {
    HandlerRow,
    "# use bisquepond::{function::FunctionRow, parsing};\n# let file = [0, 0, 0, 0, 1, 0, 0, 0, 10, 0, 0, 0, 20, 0, 0, 0, 30, 0, 0, 0];\n# let mut function = FunctionRow::default();\n# function.set_info_offset(4);\n# function.set_flags(8);\nlet row = parsing::read_handlers(&file, &[function], 1)?[0];":
    /// The number of the function that it belongs to.
    function = 0, "0";
    /// Where the bytes that it guards begin.
    start = 1, "10";
    /// Where they end.
    end = 2, "20";
    /// Where it goes on.
    target = 3, "30";
}

impl fmt::Debug for HandlerRow {
    fn fmt(&self, f: &mut fmt::Formatter<'_>) -> fmt::Result {
        f.debug_struct("HandlerRow")
            .field("function", &self.function())
            .field("start", &self.start())
            .field("end", &self.end())
            .field("target", &self.target())
            .finish()
    }
}

/// Lists the exception handlers of functions 0 to count - 1 in the first rows that are lent, functions rising, and
/// answers these; other rows stay. Row i of `functions` is function i, whatever its id says; only info_offset and flags
/// are read.
///
/// A function has none if its flag is clear, if info_offset is 0 or at or past the end, if its place rounded up to 4
/// leaves no 4 bytes, if the count there is 0 or above 1000, or if one of its handlers is cut. [`why_no_handlers`] says
/// which.
///
/// # Errors
///
/// `TooLong`; `TooFewToRead` if fewer than `count` functions are lent; `TooFewRows` if there are more handlers than rows.
///
/// ```
/// use bisquepond::{function::FunctionRow, parsing::{self, HandlerRow}};
///
/// // At byte 4 stand the count 1 and one handler; function 0 has info_offset 4 and its flag set.
/// let file = [0, 0, 0, 0, 1, 0, 0, 0, 10, 0, 0, 0, 20, 0, 0, 0, 30, 0, 0, 0];
/// let mut functions = [FunctionRow::default()];
/// functions[0].set_info_offset(4);
/// functions[0].set_flags(8);
/// let mut rows = [HandlerRow::default(); 2];
/// let handlers = parsing::read_handlers_into(&file, &functions, 1, &mut rows)?;
/// assert_eq!((handlers.len(), handlers[0].target()), (1, 30));
/// let few = parsing::read_handlers_into(&file, &functions, 2, &mut rows).unwrap_err();
/// assert_eq!(few.number, 11);
/// let short = parsing::read_handlers_into(&file, &functions, 1, &mut []).unwrap_err();
/// assert_eq!(short.number, 4);
/// # Ok::<(), bisquepond::Refusal>(())
/// ```
pub fn read_handlers_into<'t>(
    file: &[u8],
    functions: &[FunctionRow],
    count: u32,
    rows: &'t mut [HandlerRow],
) -> Result<&'t [HandlerRow]> {
    let total = boundary::read_handlers(file, functions, count, rows)?;
    Ok(&rows[..total])
}

/// The same into a table of its own. Functions may share handlers, so that a table can be many times as long as the file:
/// [`count_handlers`] says how long. [`handlers_of`] finds those of one function.
///
/// # Errors
///
/// Those of [`read_handlers_into`], but never `TooFewRows`.
///
/// ```
/// use bisquepond::{function::FunctionRow, parsing};
///
/// // 64 bytes, info_offset 45 and the count 2 at byte 48: the second handler is cut, so there is none, not one.
/// let mut file = [0; 64];
/// file[48] = 2;
/// let mut functions = [FunctionRow::default()];
/// functions[0].set_info_offset(45);
/// functions[0].set_flags(8);
/// assert!(parsing::read_handlers(&file, &functions, 1)?.is_empty());
/// file[48] = 1;
/// assert_eq!(parsing::read_handlers(&file, &functions, 1)?.len(), 1);
/// # Ok::<(), bisquepond::Refusal>(())
/// ```
pub fn read_handlers(
    file: &[u8],
    functions: &[FunctionRow],
    count: u32,
) -> Result<Table<HandlerRow>> {
    let mut rows = Table::zeros(count_handlers(file, functions, count)?);
    read_handlers_into(file, functions, count, rows.lent())?;
    Ok(rows)
}

/// The handlers of one function, of rows as [`read_handlers`] and [`read_handlers_into`] answer them, functions rising.
///
/// ```
/// use bisquepond::{function::FunctionRow, parsing};
///
/// // Functions 0 and 2 share one handler; function 1 has none.
/// let file = [0, 0, 0, 0, 1, 0, 0, 0, 10, 0, 0, 0, 20, 0, 0, 0, 30, 0, 0, 0];
/// let mut functions = [FunctionRow::default(); 3];
/// for (row, flags) in functions.iter_mut().zip([8, 0, 8]) {
///     row.set_info_offset(4);
///     row.set_flags(flags);
/// }
/// let handlers = parsing::read_handlers(&file, &functions, 3)?;
/// assert_eq!(parsing::handlers_of(&handlers, 2)[0].target(), 30);
/// assert!(parsing::handlers_of(&handlers, 1).is_empty());
/// # Ok::<(), bisquepond::Refusal>(())
/// ```
pub fn handlers_of(rows: &[HandlerRow], function: u32) -> &[HandlerRow] {
    let first = rows.partition_point(|row| row.function() < function);
    let rows = &rows[first..];
    &rows[..rows.partition_point(|row| row.function() == function)]
}

/// Each reason with its number and the words that say it.
macro_rules! whys {
    ($($(#[$doc:meta])* $name:ident = $number:literal, $words:literal;)*) => {
        /// Why a function has no handlers, or how many it has: what [`why_no_handlers`] answers. Printed with `{}` it is a
        /// sentence. In include/hbc.h the name of `FlagClear` is `HBC_WHY_FLAG_CLEAR`, and so on.
        ///
        /// ```
        /// use bisquepond::parsing::Why;
        ///
        /// assert_eq!(Why::Shown(1).to_string(), "it has 1 handler");
        /// assert_eq!(Why::InfoZero.to_string(), "it has no handlers: its info_offset, word 6 of its row, is 0");
        /// ```
        #[derive(Clone, Copy, PartialEq, Eq, Hash, Debug)]
        pub enum Why {
            /// It has so many handlers, from 1 to 1000, and [`read_handlers`] lists them.
            Shown(u32),
            $($(#[$doc])* $name,)*
        }

        impl Why {
            /// `number` is one that the archive answered.
            fn of(number: u32, handlers: u32) -> Why {
                match number {
                    0 => Why::Shown(handlers),
                    $($number => Why::$name,)*
                    _ => unreachable!("a reason of number {number}"),
                }
            }

            /// The number that include/hbc.h has for it: 0 shown, and from 1 to 7 the reasons, in the order in which they are
            /// looked for.
            ///
            /// ```
            /// use bisquepond::parsing::Why;
            ///
            /// assert_eq!((Why::Shown(3).number(), Why::FlagClear.number(), Why::Cut.number()), (0, 1, 7));
            /// ```
            pub const fn number(self) -> u32 {
                match self {
                    Why::Shown(_) => 0,
                    $(Why::$name => $number,)*
                }
            }

            /// How many handlers the function has: 0 for every reason.
            ///
            /// ```
            /// use bisquepond::parsing::Why;
            ///
            /// assert_eq!((Why::Shown(3).handlers(), Why::Cut.handlers()), (3, 0));
            /// ```
            pub const fn handlers(self) -> u32 {
                match self {
                    Why::Shown(handlers) => handlers,
                    $(Why::$name)|* => 0,
                }
            }
        }

        impl fmt::Display for Why {
            fn fmt(&self, f: &mut fmt::Formatter<'_>) -> fmt::Result {
                let words = match self {
                    Why::Shown(1) => return f.write_str("it has 1 handler"),
                    Why::Shown(handlers) => return write!(f, "it has {handlers} handlers"),
                    $(Why::$name => $words,)*
                };
                write!(f, "it has no handlers: {words}")
            }
        }
    };
}

whys! {
    /// Bit 3 of its flags is clear.
    FlagClear = 1, "bit 3 of its flags, word 8 of its row, which says that it has some, is clear";
    /// Its info_offset is 0, as of every modern function without a large header.
    InfoZero = 2, "its info_offset, word 6 of its row, is 0";
    /// Its info_offset is at or past the end of the file.
    InfoPast = 3, "its info_offset, word 6 of its row, is at or past the end of the file";
    /// Fewer than 4 bytes are left at info_offset rounded up to a multiple of 4.
    NoRoom = 4, "at its info_offset, rounded up to a multiple of 4, fewer than the 4 bytes of a count are left";
    /// The count there is 0.
    CountZero = 5, "the count at its info_offset, rounded up to a multiple of 4, is 0";
    /// The count there is above 1000.
    CountHigh = 6, "the count at its info_offset, rounded up to a multiple of 4, is above 1000";
    /// The handlers, 12 bytes each from behind the count on, are not all in the file.
    Cut = 7, "the handlers that the count at its info_offset, rounded up to a multiple of 4, announces, 12 bytes each, are not all in the file";
}

/// How many handlers function `id` has, or why it has none: the first reason that holds. Row `id` of `functions` is the
/// function's, whatever its id says; only info_offset and flags are read. It is `Shown` exactly where [`read_handlers`]
/// lists rows for the function. Nothing is allocated, and the time does not grow with file or table.
///
/// # Errors
///
/// `TooLong`; `TooFewToRead` if there is no row `id`.
///
/// ```
/// use bisquepond::{function::FunctionRow, parsing::{self, Why}};
///
/// // At byte 4 stand the count 2 and one handler and a half.
/// let mut file = [0; 26];
/// file[4] = 2;
/// let mut functions = [FunctionRow::default(); 3];
/// for (row, (info_offset, flags)) in functions.iter_mut().zip([(4, 8), (4, 0), (26, 8)]) {
///     row.set_info_offset(info_offset);
///     row.set_flags(flags);
/// }
/// assert_eq!(parsing::why_no_handlers(&file, &functions, 0)?, Why::Cut);
/// assert_eq!(parsing::why_no_handlers(&file, &functions, 1)?, Why::FlagClear);
/// assert_eq!(parsing::why_no_handlers(&file, &functions, 2)?, Why::InfoPast);
/// assert_eq!(parsing::why_no_handlers(&file, &functions, 3).unwrap_err().number, 11);
/// file[4] = 1;
/// assert_eq!(parsing::why_no_handlers(&file, &functions, 0)?, Why::Shown(1));
/// # Ok::<(), bisquepond::Refusal>(())
/// ```
pub fn why_no_handlers(file: &[u8], functions: &[FunctionRow], id: u32) -> Result<Why> {
    let (number, handlers) = boundary::why_no_handlers(file, functions, id)?;
    Ok(Why::of(number, handlers))
}

/// How many rows [`read_handlers`] would have. Nothing is allocated: each function is asked for by [`why_no_handlers`].
///
/// # Errors
///
/// Those of [`read_handlers`].
///
/// ```
/// use bisquepond::{function::FunctionRow, parsing};
///
/// // Two functions that share one handler.
/// let file = [0, 0, 0, 0, 1, 0, 0, 0, 10, 0, 0, 0, 20, 0, 0, 0, 30, 0, 0, 0];
/// let mut function = FunctionRow::default();
/// function.set_info_offset(4);
/// function.set_flags(8);
/// let functions = [function; 2];
/// assert_eq!(parsing::count_handlers(&file, &functions, 2)?, 2);
/// assert_eq!(parsing::count_handlers(&file, &functions, 3).unwrap_err().number, 11);
/// # Ok::<(), bisquepond::Refusal>(())
/// ```
pub fn count_handlers(file: &[u8], functions: &[FunctionRow], count: u32) -> Result<usize> {
    let Some(listed) = functions.get(..count as usize) else {
        // Refused 1 or 11, before any row is looked for.
        return boundary::read_handlers(file, functions, count, &mut []);
    };
    // A file too long is refused where there is no function too.
    boundary::read_handlers(file, &[], 0, &mut [])?;
    let shown = |id| Ok(why_no_handlers(file, listed, id)?.handlers() as usize);
    (0..count).map(shown).sum()
}

/// Where a section lies.
#[derive(Clone, Copy, PartialEq, Eq, Hash, Debug)]
pub struct Section {
    /// Its first byte in the file.
    pub start: u32,
    /// Its bytes, with padding.
    pub size: u32,
    /// How many entries it has; 0 for storage and bytecode. A table's entries are read by
    /// [`read_pair_table`](crate::io::ByteReader::read_pair_table).
    pub entries: u32,
}

/// The sections that follow the tables.
#[derive(Clone, Copy, PartialEq, Eq, Hash, Debug)]
pub struct Sections {
    /// The regexp table, pairs.
    pub regexp_table: Section,
    /// The regexp storage.
    pub regexp_storage: Section,
    /// The CJS modules, pairs.
    pub cjs_pairs: Section,
    /// The function sources, pairs, if a count was given.
    pub function_sources: Option<Section>,
    /// All the rest of the file.
    pub bytecode: Section,
}

/// How many entries, or bytes of storage, the sections have.
#[derive(Clone, Copy, PartialEq, Eq, Hash, Debug, Default)]
pub struct SectionCounts {
    /// Entries of the regexp table.
    pub regexps: u32,
    /// Bytes of the regexp storage.
    pub storage: u32,
    /// CJS pairs.
    pub cjs: u32,
    /// Function sources, if the file has them.
    pub sources: Option<u32>,
}

/// Finds the sections from byte `start` on. Nothing is allocated.
///
/// # Errors
///
/// `TooLong`; `PastEnd` if `start` is past the end; then, section by section, `Cut` if its bytes and `PastEnd` if its
/// padding goes past the end.
///
/// ```
/// use bisquepond::parsing::{self, SectionCounts};
///
/// let counts = SectionCounts { regexps: 1, storage: 3, ..SectionCounts::default() };
/// let sections = parsing::trailing_sections(&[0; 20], 4, counts)?;
/// let storage = sections.regexp_storage;
/// assert_eq!((storage.start, storage.size, storage.entries), (12, 4, 0));
/// assert_eq!((sections.function_sources, sections.bytecode.start), (None, 16));
///
/// // 10 bytes, start 8, one byte of storage: its padding goes past the end.
/// let counts = SectionCounts { storage: 1, ..SectionCounts::default() };
/// assert_eq!(parsing::trailing_sections(&[0; 10], 8, counts).unwrap_err().number, 2);
/// # Ok::<(), bisquepond::Refusal>(())
/// ```
pub fn trailing_sections(file: &[u8], start: usize, counts: SectionCounts) -> Result<Sections> {
    let SectionCounts {
        regexps,
        storage,
        cjs,
        sources,
    } = counts;
    let rows = boundary::trailing_sections(file, start, [regexps, storage, cjs], sources)?;
    let [
        regexp_table,
        regexp_storage,
        cjs_pairs,
        function_sources,
        bytecode,
    ] = rows.map(|[start, size, entries, absent]| {
        let section = Section {
            start,
            size,
            entries,
        };
        (section, absent == 0)
    });
    Ok(Sections {
        regexp_table: regexp_table.0,
        regexp_storage: regexp_storage.0,
        cjs_pairs: cjs_pairs.0,
        function_sources: function_sources.1.then_some(function_sources.0),
        bytecode: bytecode.0,
    })
}
