//! Function headers of both layouts, and tables of them that follow an edit.
//!
//! A header whose overflow flag is set is read from its large header, at the place packed into it, which may lie
//! anywhere in the file. So an edit far from the table can change a row, and [`FunctionTable::refresh`] knows which; and
//! each row has the place that it was read from ([`FunctionRow::large_place`]). Beside the rows stand two totals, which
//! follow them ([`Totals`]): whoever shows them need not add up the table again.
//!
//! The other way round, copies of a table's rows are edited, and [`write_functions`] makes headers of them again.

use alloc::vec::Vec;
use core::fmt;
use core::ops::{Bound, Deref, Range, RangeBounds};
use core::slice;
use core::str::FromStr;

use crate::refusal::Place;
use crate::{Reason, Refusal, Result, Row, Table};
use crate::{boundary, sys};

pub use crate::boundary::FunctionRow;

/// The flags byte says that the function is in strict mode.
pub const FLAG_STRICT: u32 = 0x01;
/// The flags byte says that the function has exception handlers.
pub const FLAG_HAS_EXCEPTION_HANDLER: u32 = 0x08;
/// The flags byte says that the function cannot be used with `new`.
pub const FLAG_PROHIBIT_CONSTRUCT: u32 = 0x10;
/// The flags byte says that the fields are in a large header.
pub const FLAG_OVERFLOWED: u32 = 0x20;

/// The last word of a row that was read from its own header, and from no large one. No place is that far: a file has at
/// most 2^30 bytes.
pub const INLINE: u32 = u32::MAX;

/// The word of a row that has the place of its large header; the words before it are the row's record.
const LARGE_PLACE: usize = 16;

/// The two layouts of a function header. It is shown as `legacy16` or `modern12`, and read from these words, or from the
/// number that it has in C.
///
/// ```
/// use bisquepond::{Layout, Reason};
///
/// assert_eq!((Layout::Legacy16.header_size(), Layout::Modern12.header_size()), (16, 12));
/// assert_eq!(Layout::Modern12.to_string(), "modern12");
/// assert_eq!("legacy16".parse(), Ok(Layout::Legacy16));
/// assert_eq!((Layout::try_from(1), u32::from(Layout::Modern12)), (Ok(Layout::Modern12), 1));
/// let refusal = Layout::try_from(2).unwrap_err();
/// assert_eq!(refusal.reason(), Reason::NoSuchLayout);
/// assert_eq!("modern".parse::<Layout>(), Err(refusal));
/// ```
#[derive(Clone, Copy, PartialEq, Eq, Hash, Debug)]
pub enum Layout {
    /// Headers of 16 bytes, large ones of 31.
    Legacy16,
    /// Headers of 12 bytes, large ones of 37.
    Modern12,
}

impl Layout {
    /// The number that it has in C and in a row.
    const fn number(self) -> u32 {
        self as u32
    }

    /// The bytes of a header in the table.
    ///
    /// ```
    /// assert_eq!(bisquepond::Layout::Modern12.header_size(), 12);
    /// ```
    pub const fn header_size(self) -> usize {
        match self {
            Layout::Legacy16 => 16,
            Layout::Modern12 => 12,
        }
    }

    /// The bytes of a large header.
    ///
    /// ```
    /// assert_eq!(bisquepond::Layout::Modern12.large_header_size(), 37);
    /// ```
    pub const fn large_header_size(self) -> usize {
        match self {
            Layout::Legacy16 => 31,
            Layout::Modern12 => 37,
        }
    }
}

const NO_SUCH_LAYOUT: Refusal = Refusal::of(Reason::NoSuchLayout, 0, Place::Nothing);

impl fmt::Display for Layout {
    fn fmt(&self, f: &mut fmt::Formatter<'_>) -> fmt::Result {
        f.pad(match self {
            Layout::Legacy16 => "legacy16",
            Layout::Modern12 => "modern12",
        })
    }
}

impl FromStr for Layout {
    type Err = Refusal;

    fn from_str(word: &str) -> Result<Layout> {
        match word {
            "legacy16" => Ok(Layout::Legacy16),
            "modern12" => Ok(Layout::Modern12),
            _ => Err(NO_SUCH_LAYOUT),
        }
    }
}

impl TryFrom<u32> for Layout {
    type Error = Refusal;

    fn try_from(number: u32) -> Result<Layout> {
        match number {
            0 => Ok(Layout::Legacy16),
            1 => Ok(Layout::Modern12),
            _ => Err(NO_SUCH_LAYOUT),
        }
    }
}

impl From<Layout> for u32 {
    fn from(layout: Layout) -> u32 {
        layout.number()
    }
}

/// Where a span begins and ends; `end` is what an open one ends at.
fn span_of(span: &impl RangeBounds<usize>, end: usize) -> (usize, usize) {
    let low = match span.start_bound() {
        Bound::Included(&low) => low,
        Bound::Excluded(&low) => low.saturating_add(1),
        Bound::Unbounded => 0,
    };
    let high = match span.end_bound() {
        Bound::Included(&high) => high.saturating_add(1),
        Bound::Excluded(&high) => high,
        Bound::Unbounded => end,
    };
    (low, high)
}

words! {
    FunctionRow,
    "# let file = [0, 1, 0, 4, 0x0A, 0x80, 1, 0, 0, 0, 0, 0x0A, 1, 2, 3, 4];\nlet row = bisquepond::function::read_function(&file, bisquepond::Layout::Legacy16, 0, 0)?;":
    /// The number of the function.
    id = 1, "0";
    /// Where its bytecode begins.
    offset = 2, "256";
    /// How many parameters it has.
    param_count = 3, "2";
    /// How many bytes of bytecode it has.
    size = 4, "10";
    /// The number of the string that names it.
    name = 5, "3";
    /// Where its further data, such as handlers, begins; 0 in a modern header that is not large.
    info_offset = 6, "0";
    /// How many registers it has.
    frame_size = 7, "5";
    /// Its flags byte; a large header's own, where there is one.
    flags = 8, "4";
}

/// The fields that only one of the layouts has.
///
/// ```
/// use bisquepond::{Layout, function::{self, Rest}};
///
/// let file = [0, 1, 0, 4, 0x0A, 0x80, 1, 0, 0, 0, 0, 0x0A, 1, 2, 3, 4];
/// let row = function::read_function(&file, Layout::Legacy16, 0, 0)?;
/// assert_eq!(row.rest(), Some(Rest::Legacy16 { environment_size: 1, read_index: 2, write_index: 3 }));
/// # Ok::<(), bisquepond::Refusal>(())
/// ```
#[derive(Clone, Copy, PartialEq, Eq, Hash, Debug)]
#[allow(missing_docs)] // The names are the format's own.
pub enum Rest {
    /// Those of a legacy header.
    Legacy16 {
        environment_size: u32,
        read_index: u32,
        write_index: u32,
    },
    /// Those of a modern header.
    Modern12 {
        loop_depth: u32,
        number_reg: u32,
        non_ptr_reg: u32,
        read_cache: u32,
        write_cache: u32,
        new_object: u32,
        private_name: u32,
    },
}

const FIELDS: [&str; 8] = [
    "id",
    "offset",
    "param_count",
    "size",
    "name",
    "info_offset",
    "frame_size",
    "flags",
];
const LEGACY: [&str; 3] = ["environment_size", "read_index", "write_index"];
const MODERN: [&str; 7] = [
    "loop_depth",
    "number_reg",
    "non_ptr_reg",
    "read_cache",
    "write_cache",
    "new_object",
    "private_name",
];

/// A legacy row of zeros, to be filled field by field: it was read from no large header.
///
/// ```
/// use bisquepond::{Layout, function::FunctionRow};
///
/// let row = FunctionRow::default();
/// assert_eq!((row.layout(), row.large_place()), (Some(Layout::Legacy16), None));
/// assert!(row.record().iter().all(|&word| word == 0));
/// ```
impl Default for FunctionRow {
    fn default() -> FunctionRow {
        let mut words = [0; FunctionRow::WORDS];
        words[LARGE_PLACE] = INLINE;
        FunctionRow(words)
    }
}

impl FunctionRow {
    /// The layout of the header that it was read from; none of words that no call wrote, whose first is neither 0 nor 1.
    ///
    /// ```
    /// # use bisquepond::{Layout, Row, function::{self, FunctionRow}};
    /// # let file = [0, 1, 0, 0x44, 0x0A, 0xC0, 0, 0x29, 6, 7, 0x48, 4];
    /// let row = function::read_function(&file, Layout::Modern12, 0, 0)?;
    /// assert_eq!(row.layout(), Some(Layout::Modern12));
    /// assert_eq!(FunctionRow::rows(&[7; FunctionRow::WORDS])[0].layout(), None);
    /// # Ok::<(), bisquepond::Refusal>(())
    /// ```
    pub const fn layout(&self) -> Option<Layout> {
        match self.0[0] {
            0 => Some(Layout::Legacy16),
            1 => Some(Layout::Modern12),
            _ => None,
        }
    }

    /// Where in the file the large header is that it was read from; none if it was read from its own header. This is the
    /// last word of the row as it is in C, where [`INLINE`] stands for none. It is below 2^30 in every row that was read.
    ///
    /// A writer does not look at it ([`write_functions`]), and it stays what it was when fields are set.
    ///
    /// ```
    /// # use bisquepond::{Layout, function};
    /// // The first header names a large one at byte 40: its offset is 40, and its overflow bit is set. The second has none.
    /// let mut file = [0; 71];
    /// (file[0], file[15]) = (40, 0x20);
    /// let mut table = function::read_functions(&file, Layout::Legacy16, 0, 2)?;
    /// assert_eq!((table[0].large_place(), table[1].large_place()), (Some(40), None));
    ///
    /// // Another place, and then none: the row follows.
    /// file[0] = 39;
    /// assert_eq!(table.refresh(&file, 0..1)?.len(), 1);
    /// assert_eq!(table[0].large_place(), Some(39));
    /// file[15] = 0;
    /// assert_eq!(table.refresh(&file, 15..16)?.len(), 1);
    /// assert_eq!(table[0].large_place(), None);
    /// # Ok::<(), bisquepond::Refusal>(())
    /// ```
    pub const fn large_place(&self) -> Option<u32> {
        match self.0[LARGE_PLACE] {
            INLINE => None,
            place => Some(place),
        }
    }

    /// The words of its record as they are in C: layout, number and fields, all of the row but the place of its large
    /// header. They are what a writer looks at, and what is read back of a row that was written, wherever its large
    /// header went.
    ///
    /// ```
    /// # use bisquepond::{Layout, function};
    /// // A row that needs a large header, written from byte 16 on and from byte 20 on.
    /// let mut row = function::read_function(&[0; 16], Layout::Legacy16, 0, 0)?;
    /// row.set_size(1 << 15);
    /// let read_back = |large| {
    ///     let mut bytes = Vec::new();
    ///     function::write_functions(&[row], Layout::Legacy16, 0, large, &mut bytes)?;
    ///     function::read_function(&bytes, Layout::Legacy16, 0, 0)
    /// };
    /// let (near, far) = (read_back(16)?, read_back(20)?);
    /// assert_eq!((near.large_place(), far.large_place(), row.large_place()), (Some(16), Some(20), None));
    /// assert_eq!((near.record(), far.record()), (row.record(), row.record()));
    /// assert!(near != far && near != row);
    /// # Ok::<(), bisquepond::Refusal>(())
    /// ```
    pub fn record(&self) -> &[u32] {
        &self.0[..LARGE_PLACE]
    }

    /// The fields that only its layout has; none where it has no layout.
    ///
    /// ```
    /// # use bisquepond::{Layout, function::{self, Rest}};
    /// # let file = [0, 1, 0, 0x44, 0x0A, 0xC0, 0, 0x29, 6, 7, 0x48, 4];
    /// let row = function::read_function(&file, Layout::Modern12, 0, 0)?;
    /// let Some(Rest::Modern12 { loop_depth, number_reg, write_cache, .. }) = row.rest() else { panic!() };
    /// assert_eq!((loop_depth, number_reg, write_cache), (1, 4, 8));
    /// # Ok::<(), bisquepond::Refusal>(())
    /// ```
    pub const fn rest(&self) -> Option<Rest> {
        let [_, _, _, _, _, _, _, _, _, a, b, c, d, e, f, g, _] = self.0;
        match self.layout() {
            Some(Layout::Legacy16) => Some(Rest::Legacy16 {
                environment_size: a,
                read_index: b,
                write_index: c,
            }),
            Some(Layout::Modern12) => Some(Rest::Modern12 {
                loop_depth: a,
                number_reg: b,
                non_ptr_reg: c,
                read_cache: d,
                write_cache: e,
                new_object: f,
                private_name: g,
            }),
            None => None,
        }
    }

    /// How many closure slots it has; a legacy header says so, a modern one does not.
    ///
    /// ```
    /// # use bisquepond::{Layout, function};
    /// # let file = [0, 1, 0, 4, 0x0A, 0x80, 1, 0, 0, 0, 0, 0x0A, 1, 2, 3, 4];
    /// assert_eq!(function::read_function(&file, Layout::Legacy16, 0, 0)?.environment_size(), Some(1));
    /// assert_eq!(function::read_function(&file, Layout::Modern12, 0, 0)?.environment_size(), None);
    /// # Ok::<(), bisquepond::Refusal>(())
    /// ```
    pub const fn environment_size(&self) -> Option<u32> {
        match self.layout() {
            Some(Layout::Legacy16) => Some(self.0[9]),
            _ => None,
        }
    }

    /// Every field by its name, in the order of the row; of no layout those alone that both have. The place of its large
    /// header is none of them: [`large_place`](Self::large_place).
    ///
    /// ```
    /// # use bisquepond::{Layout, function};
    /// # let file = [0, 1, 0, 4, 0x0A, 0x80, 1, 0, 0, 0, 0, 0x0A, 1, 2, 3, 4];
    /// let row = function::read_function(&file, Layout::Legacy16, 0, 0)?;
    /// assert_eq!(row.fields().nth(1), Some(("offset", 256)));
    /// assert_eq!(row.fields().last(), Some(("write_index", 3)));
    /// # Ok::<(), bisquepond::Refusal>(())
    /// ```
    pub fn fields(&self) -> impl Iterator<Item = (&'static str, u32)> + use<> {
        let own: &[&str] = match self.layout() {
            Some(Layout::Legacy16) => &LEGACY,
            Some(Layout::Modern12) => &MODERN,
            None => &[],
        };
        let names = FIELDS.iter().chain(own).copied();
        names.zip(self.0.into_iter().skip(1))
    }
}

/// For each flag its call, and the constant of it.
macro_rules! flags {
    ($($(#[$doc:meta])* $name:ident = $flag:ident, $bits:literal;)*) => {
        impl FunctionRow {
            $(
                $(#[$doc])*
                ///
                /// ```
                /// # use bisquepond::{Layout, function};
                /// # let mut file = [0; 16];
                #[doc = concat!("file[15] = ", $bits, ";")]
                #[doc = concat!("assert!(function::read_function(&file, Layout::Legacy16, 0, 0)?.", stringify!($name), "());")]
                /// # file[15] = 0;
                #[doc = concat!("# assert!(!function::read_function(&file, Layout::Legacy16, 0, 0)?.", stringify!($name), "());")]
                /// # Ok::<(), bisquepond::Refusal>(())
                /// ```
                pub const fn $name(&self) -> bool {
                    self.flags() & $flag != 0
                }
            )*
        }
    };
}

flags! {
    /// Whether its flags say that it is in strict mode (bit 0).
    is_strict = FLAG_STRICT, "0x01";
    /// Whether its flags say that it has exception handlers (bit 3).
    has_handlers = FLAG_HAS_EXCEPTION_HANDLER, "0x08";
    /// Whether its flags say that it cannot be used with `new` (bit 4).
    prohibit_construct = FLAG_PROHIBIT_CONSTRUCT, "0x10";
    /// Whether it is likely an arrow function: such cannot be used with `new`.
    is_likely_arrow = FLAG_PROHIBIT_CONSTRUCT, "0x10";
}

impl FunctionRow {
    /// Whether its flags have the overflow bit (bit 5). Of a function that was read from its large header these are the
    /// large header's own flags, in which the bit need not be set: whether it was, [`large_place`](Self::large_place) says.
    ///
    /// ```
    /// # use bisquepond::{Layout, function};
    /// // A header whose large header is at byte 16: its flags byte is the last of 31.
    /// let mut file = [0; 47];
    /// (file[0], file[15]) = (16, 0x20);
    /// assert!(!function::read_function(&file, Layout::Legacy16, 0, 0)?.is_overflowed());
    /// file[46] = 0x20;
    /// assert!(function::read_function(&file, Layout::Legacy16, 0, 0)?.is_overflowed());
    /// # Ok::<(), bisquepond::Refusal>(())
    /// ```
    pub const fn is_overflowed(&self) -> bool {
        self.flags() & FLAG_OVERFLOWED != 0
    }
}

/// For each field that both layouts have the call that sets it.
macro_rules! setters {
    ($($(#[$doc:meta])* $set:ident, $name:ident = $at:literal;)*) => {
        impl FunctionRow {
            $(
                $(#[$doc])*
                ///
                /// ```
                /// # let mut row = bisquepond::function::FunctionRow::default();
                #[doc = concat!("row.", stringify!($set), "(7);")]
                #[doc = concat!("assert_eq!(row.", stringify!($name), "(), 7);")]
                /// # assert_eq!(row.fields().filter(|(_, word)| *word != 0).count(), 1);
                /// ```
                pub const fn $set(&mut self, word: u32) {
                    self.0[$at] = word;
                }
            )*
        }
    };
}

setters! {
    /// Sets its number, which in a table that is written is that of its row.
    set_id, id = 1;
    /// Sets where its bytecode begins.
    set_offset, offset = 2;
    /// Sets how many parameters it has.
    set_param_count, param_count = 3;
    /// Sets how many bytes of bytecode it has.
    set_size, size = 4;
    /// Sets the number of the string that names it.
    set_name, name = 5;
    /// Sets where its further data begins. In a modern table that is written it is 0, or what [`renew_info_offsets`] sets.
    set_info_offset, info_offset = 6;
    /// Sets how many registers it has.
    set_frame_size, frame_size = 7;
    /// Sets its flags byte. A row whose overflow bit is set goes to a large header.
    set_flags, flags = 8;
}

/// How many bits an inline header has for each word of a row, from the third on; none where the word is 0 there.
const WIDTHS: [[u32; 14]; 2] = [
    [25, 7, 15, 17, 25, 7, 8, 8, 8, 8, 0, 0, 0, 0],
    [25, 5, 14, 8, 0, 8, 8, 2, 5, 5, 8, 6, 1, 1],
];

impl FunctionRow {
    /// Sets the fields that only one of the layouts has, and with them the layout: [`rest`](Self::rest) then answers them.
    ///
    /// ```
    /// # use bisquepond::{Layout, function::{self, Rest}};
    /// # let file = [0, 1, 0, 4, 0x0A, 0x80, 1, 0, 0, 0, 0, 0x0A, 1, 2, 3, 4];
    /// let mut row = function::read_function(&file, Layout::Legacy16, 0, 0)?;
    /// let Some(Rest::Legacy16 { read_index, write_index, .. }) = row.rest() else { panic!() };
    /// row.set_rest(Rest::Legacy16 { environment_size: 9, read_index, write_index });
    /// assert_eq!((row.environment_size(), row.size()), (Some(9), 10));
    /// # Ok::<(), bisquepond::Refusal>(())
    /// ```
    pub const fn set_rest(&mut self, rest: Rest) {
        let (layout, own) = match rest {
            Rest::Legacy16 {
                environment_size,
                read_index,
                write_index,
            } => (
                Layout::Legacy16,
                [environment_size, read_index, write_index, 0, 0, 0, 0],
            ),
            Rest::Modern12 {
                loop_depth,
                number_reg,
                non_ptr_reg,
                read_cache,
                write_cache,
                new_object,
                private_name,
            } => (
                Layout::Modern12,
                [
                    loop_depth,
                    number_reg,
                    non_ptr_reg,
                    read_cache,
                    write_cache,
                    new_object,
                    private_name,
                ],
            ),
        };
        self.0[0] = layout.number();
        let (words, _) = self.0.split_at_mut(LARGE_PLACE);
        let (_, words) = words.split_at_mut(LARGE_PLACE - own.len());
        words.copy_from_slice(&own);
    }

    /// Whether it goes into its own header when it is written, and not to a large one: all its fields fit, its overflow bit
    /// is clear and, in modern, its `info_offset` is 0. A row of no layout goes nowhere.
    ///
    /// ```
    /// # use bisquepond::{Layout, function};
    /// # let file = [0, 1, 0, 0x44, 0x0A, 0xC0, 0, 0x29, 6, 7, 0x48, 4];
    /// let mut row = function::read_function(&file, Layout::Modern12, 0, 0)?;
    /// row.set_size((1 << 14) - 1);
    /// assert!(row.goes_inline());
    /// row.set_size(1 << 14);
    /// assert!(!row.goes_inline());
    /// # Ok::<(), bisquepond::Refusal>(())
    /// ```
    pub fn goes_inline(&self) -> bool {
        let Some(layout) = self.layout() else {
            return false;
        };
        let mut fields = self.record()[2..].iter().zip(WIDTHS[layout as usize]);
        !self.is_overflowed() && fields.all(|(word, width)| word >> width == 0)
    }
}

impl fmt::Debug for FunctionRow {
    fn fmt(&self, f: &mut fmt::Formatter<'_>) -> fmt::Result {
        let mut shown = f.debug_struct(match self.layout() {
            Some(Layout::Legacy16) => "Legacy16",
            Some(Layout::Modern12) => "Modern12",
            None => "FunctionRow",
        });
        if self.layout().is_none() {
            shown.field("no_such_layout", &self.0[0]);
        }
        for (name, word) in self.fields() {
            shown.field(name, &word);
        }
        shown.field("large_place", &self.large_place());
        shown.finish()
    }
}

/// Two totals over the rows of a table: how many of them were read from large headers, and the sum of their bytecode sizes.
///
/// A table of its own has them, always those of its rows ([`FunctionTable::totals`]). Rows that are lent have them beside:
/// [`read_functions_into`] answers them, and [`refresh_functions`] brings them up to date with the rows. They cannot be set
/// by hand: they are what a read answered, what a refresh made of that, or what [`of`](Self::of) added up; by default those
/// of no rows.
///
/// ```
/// use bisquepond::{Layout, function::{self, Totals}};
///
/// // Two functions of size 10, of which the second gets a large header at byte 32, with the size 77.
/// let header = [0, 1, 0, 4, 0x0A, 0x80, 1, 0, 0, 0, 0, 0x0A, 1, 2, 3, 4];
/// let mut file = [&header[..], &header, &[0; 31]].concat();
/// file[40] = 77;
/// let mut table = function::read_functions(&file, Layout::Legacy16, 0, 2)?;
/// assert_eq!((table.totals().large(), table.totals().sizes()), (0, 20));
/// (file[16], file[17], file[31]) = (32, 0, 0x20);
/// assert_eq!(table.refresh(&file, 16..32)?.len(), 1);
/// assert_eq!((table.totals().large(), table.totals().sizes()), (1, 87));
/// assert_eq!(table.totals(), Totals::of(&table));
/// # Ok::<(), bisquepond::Refusal>(())
/// ```
#[derive(Clone, Copy, PartialEq, Eq, Hash, Debug, Default)]
pub struct Totals {
    pub(crate) large: u64,
    pub(crate) sizes: u64,
}

impl Totals {
    /// Adds up these rows, whatever they are: of copies that were edited, or of the first so many rows alone. A row counts
    /// as large by its last word ([`FunctionRow::large_place`]), and not by its flags.
    ///
    /// ```
    /// # use bisquepond::{Layout, function::{self, Totals}};
    /// # let file = [0, 1, 0, 4, 0x0A, 0x80, 1, 0, 0, 0, 0, 0x0A, 1, 2, 3, 4].repeat(3);
    /// let table = function::read_functions(&file, Layout::Legacy16, 0, 3)?;
    /// let mut rows = table.to_vec();
    /// rows[0].set_size(15);
    /// assert_eq!((Totals::of(&rows).sizes(), Totals::of(&rows[..1]).sizes()), (35, 15));
    /// assert_eq!((table.totals().sizes(), Totals::of(&[])), (30, Totals::default()));
    /// # Ok::<(), bisquepond::Refusal>(())
    /// ```
    pub fn of(rows: &[FunctionRow]) -> Totals {
        let large = rows.iter().filter(|row| row.large_place().is_some());
        let sizes = rows.iter().map(|row| u64::from(row.size()));
        Totals {
            large: large.count() as u64,
            // More than 2^32 rows would be needed to get there, and so large a total is refused.
            sizes: sizes.fold(0, u64::saturating_add),
        }
    }

    /// How many rows were read from large headers.
    ///
    /// ```
    /// # use bisquepond::{Layout, function};
    /// # let mut file = [0; 47];
    /// (file[0], file[15]) = (16, 0x20); // a large header at byte 16
    /// assert_eq!(function::read_functions(&file, Layout::Legacy16, 0, 1)?.totals().large(), 1);
    /// # Ok::<(), bisquepond::Refusal>(())
    /// ```
    pub const fn large(&self) -> u64 {
        self.large
    }

    /// The sum of the rows' sizes: how many bytes of bytecode they have together.
    ///
    /// ```
    /// # use bisquepond::{Layout, function};
    /// # let file = [0, 1, 0, 4, 0x0A, 0x80, 1, 0, 0, 0, 0, 0x0A, 1, 2, 3, 4].repeat(3);
    /// let table = function::read_functions(&file, Layout::Legacy16, 0, 3)?;
    /// assert_eq!((table[0].size(), table.totals().sizes()), (10, 30));
    /// # Ok::<(), bisquepond::Refusal>(())
    /// ```
    pub const fn sizes(&self) -> u64 {
        self.sizes
    }
}

/// Reads function `id` alone. `start` is the byte of the file at which the table of headers begins.
///
/// # Errors
///
/// `TooLong`; `PastEnd` at place 0 if `start` is past the end; `PastEnd` or `Cut` with `id` as place.
///
/// ```
/// use bisquepond::{Layout, function};
///
/// let file = [0, 1, 0, 0x44, 0x0A, 0xC0, 0, 0x29, 6, 7, 0x48, 4];
/// let row = function::read_function(&file, Layout::Modern12, 0, 0)?;
/// assert_eq!((row.offset(), row.param_count(), row.size(), row.name()), (256, 2, 10, 3));
/// let refusal = function::read_function(&file, Layout::Modern12, 0, 1).unwrap_err();
/// assert_eq!((refusal.number, refusal.place), (3, 1));
/// # Ok::<(), bisquepond::Refusal>(())
/// ```
pub fn read_function(file: &[u8], layout: Layout, start: usize, id: u32) -> Result<FunctionRow> {
    boundary::read_function(file, layout.number(), start, id)
}

/// Reads functions 0 to count - 1 into the first rows that are lent, and answers these and their totals. Other rows stay.
///
/// # Errors
///
/// `TooLong`; `PastEnd` if `start` is past the end; `TooFewRows` if fewer than `count` rows are lent; then, with the first
/// function that cannot be read as place, `PastEnd` if its packed place is past the end, `Cut` if its header or large
/// header runs past the end.
///
/// ```
/// use bisquepond::{Layout, function::{self, FunctionRow}};
///
/// let file = [0, 1, 0, 4, 0x0A, 0x80, 1, 0, 0, 0, 0, 0x0A, 1, 2, 3, 4];
/// let mut rows = [FunctionRow::default(); 8];
/// let (read, totals) = function::read_functions_into(&file, Layout::Legacy16, 0, 1, &mut rows)?;
/// assert_eq!((read.len(), read[0].frame_size()), (1, 5));
/// assert_eq!((totals.large(), totals.sizes()), (0, 10));
/// let short = function::read_functions_into(&file, Layout::Legacy16, 0, 9, &mut rows);
/// assert_eq!(short.unwrap_err().number, 4);
/// # Ok::<(), bisquepond::Refusal>(())
/// ```
pub fn read_functions_into<'t>(
    file: &[u8],
    layout: Layout,
    start: usize,
    count: u32,
    rows: &'t mut [FunctionRow],
) -> Result<(&'t [FunctionRow], Totals)> {
    let (read, totals) = boundary::read_functions(file, layout.number(), start, count, rows)?;
    Ok((&rows[..read as usize], totals))
}

/// Brings rows up to date after the bytes of `span` changed, and nothing else: reads again those of the first `count`
/// functions whose header or large header shares a byte with it, from the file as it is now. Answers how many.
///
/// The totals are those of the first `count` rows, as the last read or refresh of these rows with this count left them, or
/// as [`Totals::of`] adds them up; and so they are afterwards. Of each row that is read again what it has in them is taken
/// out, and then what it has now is added.
///
/// Refused, no row and no total was changed, and the edit is not taken in: the caller undoes it before the next call, or
/// holds it in the span of that call too; a file of another length is read anew. [`FunctionTable::refresh`] sees to this by
/// itself.
///
/// Two edits may be in the file when their refreshes come, one for each span: in either order the rows and totals in the end
/// are the same, each answers as it would alone, and one that is done again changes nothing and answers the same (proved,
/// for totals that are those of the rows). Of rows that were read before both edits, nothing else having changed, the end is
/// a fresh read's if both are accepted. A function that meets both spans is read again by both, and counted by both. Of a
/// call that is refused nothing stands, and the other does what it would do without that call, with both edits in the file;
/// when the bytes of the refused one are undone or put right after it, its own span is refreshed again, and no other. Any
/// two refreshes of the same file that follow one another may be exchanged, however many there are.
///
/// # Errors
///
/// `TooLong`; `PastEnd` if `start` is past the end; `BadSpan` if the span is reversed or goes past the end; `TooFewRows`
/// if fewer than `count` rows are lent; `Cut` with the first function whose header is not wholly in the file; then as a
/// read, for the first function that meets the span; then `BadTotals`, with the first function as place at which a total
/// falls below 0 by what is taken out, or is above 2^63 - 1: never where they are those of the rows.
///
/// ```
/// use bisquepond::{Layout, Reason, function::{self, FunctionRow, Totals}};
///
/// let mut file = [0, 1, 0, 4, 0x0A, 0x80, 1, 0, 0, 0, 0, 0x0A, 1, 2, 3, 4];
/// let mut rows = [FunctionRow::default()];
/// let (_, mut totals) = function::read_functions_into(&file, Layout::Legacy16, 0, 1, &mut rows)?;
/// (file[0], file[4]) = (4, 12);
/// let again = function::refresh_functions(&file, Layout::Legacy16, 0, 1, 0..5, &mut rows, &mut totals)?;
/// assert_eq!((again, rows[0].offset(), totals.sizes()), (1, 260, 12));
/// // An empty span meets nothing.
/// assert_eq!(function::refresh_functions(&file, Layout::Legacy16, 0, 1, 1..1, &mut rows, &mut totals)?, 0);
///
/// // Totals of other rows: the 12 of this one are not in them.
/// let mut other = Totals::default();
/// let refusal =
///     function::refresh_functions(&file, Layout::Legacy16, 0, 1, .., &mut rows, &mut other).unwrap_err();
/// assert_eq!((refusal.reason(), refusal.place), (Reason::BadTotals, 0));
/// assert_eq!((other, totals), (Totals::default(), Totals::of(&rows)));
/// # Ok::<(), bisquepond::Refusal>(())
/// ```
pub fn refresh_functions(
    file: &[u8],
    layout: Layout,
    start: usize,
    count: u32,
    span: impl RangeBounds<usize>,
    rows: &mut [FunctionRow],
    totals: &mut Totals,
) -> Result<u32> {
    let span = span_of(&span, file.len());
    boundary::refresh_functions(file, layout.number(), start, count, span, rows, totals)
}

/// What a function is read from, as places in the file: its header, and the large header if its flag names one.
#[derive(Clone, Copy, Debug, PartialEq, Eq, Hash)]
pub struct Ground {
    /// Where its own header starts.
    pub header: usize,
    /// Where its large header starts, if it has one; this may be past the end of the file.
    pub large: Option<usize>,
}

/// What function `id` is read from. Whether its large header is there is not looked at.
///
/// # Errors
///
/// [`TooLong`](crate::Reason::TooLong); [`PastEnd`](crate::Reason::PastEnd) if `start` is past the end;
/// [`Cut`](crate::Reason::Cut), with `id` as place, if its header is not wholly in the file.
///
/// ```
/// use bisquepond::{Layout, function::{self, Ground}};
///
/// // One function, whose large header is at byte 12: the name is 0 and the low 24 bits of the offset are 12.
/// let mut file = [0; 49];
/// (file[0], file[11]) = (12, 0x20);
/// let ground = function::function_ground(&file, Layout::Modern12, 0, 0)?;
/// assert_eq!(ground, Ground { header: 0, large: Some(12) });
/// assert_eq!(function::function_ground(&file, Layout::Modern12, 12, 2)?, Ground { header: 36, large: None });
/// let refusal = function::function_ground(&file, Layout::Modern12, 12, 3).unwrap_err();
/// assert_eq!((refusal.number, refusal.place), (3, 3));
/// # Ok::<(), bisquepond::Refusal>(())
/// ```
pub fn function_ground(file: &[u8], layout: Layout, start: usize, id: u32) -> Result<Ground> {
    let (header, large) = boundary::function_ground(file, layout.number(), start, id)?;
    let large = (large != usize::MAX).then_some(large);
    Ok(Ground { header, large })
}

/// Whether the header of function `id`, or its large header if it has one, shares a byte with the span.
///
/// # Errors
///
/// [`TooLong`](crate::Reason::TooLong); [`PastEnd`](crate::Reason::PastEnd) if `start` is past the end;
/// [`BadSpan`](crate::Reason::BadSpan) if the span is reversed or ends past the end of the file;
/// [`Cut`](crate::Reason::Cut), with `id` as place, if its header is not wholly in the file.
///
/// ```
/// use bisquepond::{Layout, function};
///
/// // One function, whose large header is at byte 12: the name is 0 and the low 24 bits of the offset are 12.
/// let mut file = [0; 60];
/// (file[0], file[11]) = (12, 0x20);
/// assert!(function::function_meets(&file, Layout::Modern12, 0, 0, 48..49)?);
/// assert!(!function::function_meets(&file, Layout::Modern12, 0, 0, 49..60)?);
/// let refusal = function::function_meets(&file, Layout::Modern12, 0, 0, 49..61).unwrap_err();
/// assert_eq!((refusal.number, refusal.place), (10, 0));
/// # Ok::<(), bisquepond::Refusal>(())
/// ```
pub fn function_meets(
    file: &[u8],
    layout: Layout,
    start: usize,
    id: u32,
    span: impl RangeBounds<usize>,
) -> Result<bool> {
    let span = span_of(&span, file.len());
    boundary::function_meets(file, layout.number(), start, id, span)
}

/// Reads functions 0 to count - 1 into a table of their own. No rows are allocated where the headers are not all in the
/// file, whatever the count.
///
/// # Errors
///
/// Those of [`read_functions_into`], but never `TooFewRows`.
///
/// ```
/// use bisquepond::{Layout, function};
///
/// // One modern function, whose large header is at byte 12: 49 bytes are enough, 48 are not.
/// let mut file = [0; 49];
/// (file[0], file[11]) = (12, 0x20);
/// let table = function::read_functions(&file, Layout::Modern12, 0, 1)?;
/// assert_eq!(table[0].info_offset(), 52);
/// let cut = function::read_functions(&file[..48], Layout::Modern12, 0, 1).unwrap_err();
/// assert_eq!((cut.number, cut.place), (3, 0));
/// let many = function::read_functions(&file[..48], Layout::Legacy16, 0, u32::MAX).unwrap_err();
/// assert_eq!((many.number, many.place), (3, 3));
/// # Ok::<(), bisquepond::Refusal>(())
/// ```
pub fn read_functions(
    file: &[u8],
    layout: Layout,
    start: usize,
    count: u32,
) -> Result<FunctionTable> {
    // What comes before 4 is refused with no row lent; past this the file is not too long and the start is in it.
    if let Err(refusal) = read_functions_into(file, layout, start, count, &mut []) {
        if refusal.reason() != Reason::TooFewRows {
            return Err(refusal);
        }
        let fit = (file.len() - start) / layout.header_size();
        if count as usize > fit {
            // It is refused at a function that can be found one by one: at the latest the first that does not fit.
            let refused = |id| read_function(file, layout, start, id).err();
            if let Some(refusal) = (0..count).find_map(refused) {
                return Err(refusal);
            }
        }
    }
    let mut rows = Table::zeros(count as usize);
    let (_, totals) = read_functions_into(file, layout, start, count, rows.lent())?;
    Ok(FunctionTable {
        layout,
        start,
        count,
        length: file.len(),
        pending: None,
        rows,
        totals,
    })
}

/// Writes rows as a table of headers into a buffer that is lent, from byte `start` on, and answers where what was written
/// ends. [`read_functions`] of the buffer, with the same layout and start, reads their [records](FunctionRow::record) back,
/// each with the place of its large header as it is now. No byte is written but those of headers and large headers; where
/// a row's large header was ([`FunctionRow::large_place`]) is not looked at, and stays in the rows: read them from the
/// buffer before you go by it.
///
/// A row goes into its own header if it fits there ([`FunctionRow::goes_inline`]). The others go to large headers, in the
/// order of their rows, each at the next multiple of 4: the first at `large`, or behind it. Of a modern one the place says
/// which `info_offset` the row must have, and [`renew_info_offsets`] sets it.
///
/// # Errors
///
/// `TooLong`; `PastEnd` if `start` is past the end of the buffer; then, each looked for in all rows before the next, `BadRow`
/// with the first row as place whose layout or number is not its own, or that has more than 255 in a field of one byte;
/// `BadInfoOffset` with the first row as place that is modern, goes to a large header, and has another `info_offset` than
/// that; `LargeBeforeEnd` if `large` is before the table's end, even if no row needs it; `TooFewRows` if the buffer ends
/// before what is to be written does. Refused, no byte is written.
///
/// ```
/// use bisquepond::{Layout, Reason, function};
///
/// let mut file = [0, 1, 0, 4, 0x0A, 0x80, 1, 0, 0, 0, 0, 0x0A, 1, 2, 3, 4];
/// let mut row = function::read_function(&file, Layout::Legacy16, 0, 0)?;
/// row.set_size(11);
/// let end = function::write_functions_into(&[row], Layout::Legacy16, 0, 16, &mut file)?;
/// assert_eq!((end, file[4]), (16, 11));
/// assert_eq!(function::read_function(&file, Layout::Legacy16, 0, 0)?, row);
///
/// // Of 15 bits the size has one too many. The large header would end at byte 47.
/// row.set_size(1 << 15);
/// let refusal = function::write_functions_into(&[row], Layout::Legacy16, 0, 16, &mut file).unwrap_err();
/// assert_eq!(refusal.reason(), Reason::TooFewRows);
/// let mut longer = [0; 47];
/// assert_eq!(function::write_functions_into(&[row], Layout::Legacy16, 0, 16, &mut longer)?, 47);
/// # Ok::<(), bisquepond::Refusal>(())
/// ```
pub fn write_functions_into(
    rows: &[FunctionRow],
    layout: Layout,
    start: usize,
    large: usize,
    buffer: &mut [u8],
) -> Result<usize> {
    // More rows than that are refused, as so many are: their headers alone pass 2^30 bytes.
    let count = u32::try_from(rows.len()).unwrap_or(u32::MAX);
    let end = boundary::write_functions(rows, layout.number(), start, count, large, buffer)?;
    Ok(end as usize)
}

/// The same into a vector, which grows by zeros if it ends before what is written does: up to `large` and the large headers
/// behind it, whatever `large` is, to 2^30 bytes. What it holds already stays where no header is written: so rows of a file
/// are written into the file itself, with the file's length as `large`. What stands from `large` on is overwritten.
///
/// # Errors
///
/// Those of [`write_functions_into`], `PastEnd` and `TooFewRows` where what is to be written would end past 2^30 bytes.
/// Refused, the vector is as it was.
///
/// ```
/// use bisquepond::{Layout, Reason, function};
///
/// // Two modern functions of size 10.
/// let mut file = [0, 1, 0, 0x44, 0x0A, 0xC0, 0, 0x29, 6, 7, 0x48, 4].repeat(2);
/// let table = function::read_functions(&file, Layout::Modern12, 0, 2)?;
///
/// // The table's own rows stay what was read; copies of them are edited.
/// let mut rows = table.to_vec();
/// rows[0].set_size(12);
/// rows[1].set_size(20_000); // 14 bits are too few: it needs a large header, and with it an info_offset
/// let large = file.len();
/// let refusal = function::write_functions(&rows, Layout::Modern12, 0, large, &mut file).unwrap_err();
/// assert_eq!((refusal.reason(), refusal.place), (Reason::BadInfoOffset, 1));
/// function::renew_info_offsets(&mut rows, large);
/// assert_eq!((rows[0].info_offset(), rows[1].info_offset()), (0, 64));
///
/// // The large header is at 24, and has 37 bytes.
/// let end = function::write_functions(&rows, Layout::Modern12, 0, large, &mut file)?;
/// assert_eq!((end, file.len(), file[4]), (61, 61, 12));
/// let again = function::read_functions(&file, Layout::Modern12, 0, 2)?;
/// assert_eq!((again[0], again[1].record()), (rows[0], rows[1].record()));
/// assert_eq!((rows[1].large_place(), again[1].large_place()), (None, Some(24)));
/// # Ok::<(), bisquepond::Refusal>(())
/// ```
pub fn write_functions(
    rows: &[FunctionRow],
    layout: Layout,
    start: usize,
    large: usize,
    bytes: &mut Vec<u8>,
) -> Result<usize> {
    let before = bytes.len();
    let table = rows.len() * layout.header_size();
    let table = start.saturating_add(table);
    let grows = before <= sys::LIMIT && table <= sys::LIMIT;
    if grows {
        // What is refused for the rows or for the place alone is refused before anything grows.
        let asked = write_functions_into(rows, layout, 0, large, &mut []);
        let of_rows =
            |refusal: Refusal| matches!(refusal.reason(), Reason::BadRow | Reason::BadInfoOffset);
        if asked.is_err_and(of_rows) {
            return asked;
        }
        if large < table {
            return Err(Refusal::of(Reason::LargeBeforeEnd, 0, Place::Row));
        }
    }
    let mut written = |room: usize| {
        bytes.resize(before.max(room), 0);
        write_functions_into(rows, layout, start, large, bytes)
    };
    let mut end = written(if grows { table } else { 0 });
    let size = layout.large_header_size();
    let first = large
        .checked_next_multiple_of(4)
        .map(|place| place.saturating_add(size));
    if end.is_err_and(|refusal| refusal.reason() == Reason::TooFewRows)
        && first.is_some_and(|end| end <= sys::LIMIT)
    {
        // Which rows need a large header the call knows: there is room for all of them, and what is too much goes again.
        let most = large.next_multiple_of(4) + size.next_multiple_of(4) * rows.len();
        end = written(most.min(sys::LIMIT));
    }
    bytes.truncate(before.max(end.unwrap_or(0)));
    end
}

/// Gives each modern row that goes to a large header ([`FunctionRow::goes_inline`]) the `info_offset` that it must have to
/// be written with `large` as the place for large headers: the end of its own, rounded up to a multiple of 4. Other rows
/// stay. What the file has at the old `info_offset`, such as handlers, is not moved; and of two large headers in turn the
/// second begins where the first one's `info_offset` leads, so that only the last can have handlers of its own there:
/// clear the handler bit of the others.
///
/// A row that has an `info_offset` counts as one that needs a large header: to bring it back into its own header, set 0.
///
/// ```
/// use bisquepond::{Layout, function};
///
/// let mut rows = function::read_functions(&[0; 36], Layout::Modern12, 0, 3)?.to_vec();
/// rows[0].set_name(256);
/// rows[2].set_offset(1 << 25);
/// function::renew_info_offsets(&mut rows, 38);
/// // The large headers are at 40 and 80.
/// assert!(rows.iter().map(|row| row.info_offset()).eq([80, 0, 120]));
/// let mut bytes = Vec::new();
/// assert_eq!(function::write_functions(&rows, Layout::Modern12, 0, 38, &mut bytes)?, 117);
/// # Ok::<(), bisquepond::Refusal>(())
/// ```
pub fn renew_info_offsets(rows: &mut [FunctionRow], large: usize) {
    let modern = |row: &&mut FunctionRow| row.layout() == Some(Layout::Modern12);
    let each = Layout::Modern12.large_header_size().next_multiple_of(4);
    let mut place = large.checked_next_multiple_of(4);
    for row in rows.iter_mut().filter(modern) {
        if !row.goes_inline() {
            place = place.and_then(|place| place.checked_add(each));
            // Past 2^32 there is none, and the row is refused whatever it has.
            if let Some(info_offset) = place.and_then(|place| u32::try_from(place).ok()) {
                row.set_info_offset(info_offset);
            }
        }
    }
}

/// The functions of one file, with the layout and the start that they were read by, and with their totals. It is a slice of
/// rows. Two are equal if layout, start and rows are; then the totals are too.
///
/// ```
/// use bisquepond::{Layout, function};
///
/// let file = [0, 1, 0, 4, 0x0A, 0x80, 1, 0, 0, 0, 0, 0x0A, 1, 2, 3, 4];
/// let table = function::read_functions(&file, Layout::Legacy16, 0, 1)?;
/// assert_eq!((table.layout(), table.start(), table.len()), (Layout::Legacy16, 0, 1));
/// for row in &table {
///     assert_eq!(row.size(), 10);
/// }
/// # Ok::<(), bisquepond::Refusal>(())
/// ```
///
/// Its rows stay what was read, or a refresh could leave them wrong, and the totals with them:
///
/// ```compile_fail,E0596
/// # let mut table = bisquepond::function::read_functions(&[0; 16], bisquepond::Layout::Legacy16, 0, 1).unwrap();
/// table[0].set_size(11);
/// ```
///
/// Whoever edits rows takes copies of them, and writes these ([`write_functions`]):
///
/// ```
/// # let table = bisquepond::function::read_functions(&[0; 16], bisquepond::Layout::Legacy16, 0, 1)?;
/// let mut rows = table.to_vec();
/// rows[0].set_size(11);
/// assert_eq!((rows[0].size(), table[0].size()), (11, 0));
/// # Ok::<(), bisquepond::Refusal>(())
/// ```
#[derive(Clone, Debug)]
pub struct FunctionTable {
    layout: Layout,
    start: usize,
    count: u32,
    /// The bytes of the file that it was read from.
    length: usize,
    /// Bytes of which a refresh was refused, so that their rows may be out of date.
    pending: Option<(usize, usize)>,
    rows: Table<FunctionRow>,
    /// Those of the rows: both are changed by a refresh alone.
    totals: Totals,
}

impl FunctionTable {
    /// The layout that it was read by.
    ///
    /// ```
    /// # use bisquepond::{Layout, function};
    /// let table = function::read_functions(&[], Layout::Modern12, 0, 0)?;
    /// assert_eq!(table.layout(), Layout::Modern12);
    /// # Ok::<(), bisquepond::Refusal>(())
    /// ```
    pub const fn layout(&self) -> Layout {
        self.layout
    }

    /// The byte of the file at which the table of headers begins.
    ///
    /// ```
    /// # use bisquepond::{Layout, function};
    /// let table = function::read_functions(&[0; 20], Layout::Legacy16, 4, 1)?;
    /// assert_eq!(table.start(), 4);
    /// # Ok::<(), bisquepond::Refusal>(())
    /// ```
    pub const fn start(&self) -> usize {
        self.start
    }

    /// All rows as the words that they are in C.
    ///
    /// ```
    /// # use bisquepond::{Layout, function};
    /// let table = function::read_functions(&[0; 12], Layout::Modern12, 0, 1)?;
    /// assert_eq!(table.words()[..16], [1, 0, 0, 0, 0, 0, 0, 0, 0, 0, 0, 0, 0, 0, 0, 0]);
    /// assert_eq!(table.words()[16..], [function::INLINE]);
    /// # Ok::<(), bisquepond::Refusal>(())
    /// ```
    pub fn words(&self) -> &[u32] {
        self.rows.words()
    }

    /// How many of its rows were read from large headers, and the sum of their sizes: always those of the rows as they are,
    /// and nothing is added up to answer them.
    ///
    /// ```
    /// # use bisquepond::{Layout, function};
    /// let mut file = [0; 48];
    /// let mut table = function::read_functions(&file, Layout::Legacy16, 0, 3)?;
    /// file[20] = 7; // the size of function 1
    /// let before = table.totals();
    /// assert_eq!(table.refresh(&file, 20..21)?.len(), 1);
    /// assert_eq!((before.sizes(), table.totals().sizes()), (0, 7));
    /// # Ok::<(), bisquepond::Refusal>(())
    /// ```
    pub const fn totals(&self) -> Totals {
        self.totals
    }

    /// Writes the table as headers into a buffer that is lent, in the layout and at the start that it was read by:
    /// [`write_functions_into`] of its rows. The table is not changed: its rows still have the places that they were read
    /// from, and not those of the large headers in the buffer.
    ///
    /// ```
    /// # use bisquepond::{Layout, function};
    /// let file = [0, 1, 0, 4, 0x0A, 0x80, 1, 0, 0, 0, 0, 0x0A, 1, 2, 3, 4];
    /// let table = function::read_functions(&file, Layout::Legacy16, 0, 1)?;
    /// let mut buffer = [7; 18];
    /// assert_eq!(table.write_into(16, &mut buffer)?, 16);
    /// assert_eq!((&buffer[..16], &buffer[16..]), (&file[..], &[7, 7][..]));
    /// # Ok::<(), bisquepond::Refusal>(())
    /// ```
    ///
    /// # Errors
    ///
    /// Those of [`write_functions_into`], but never `BadRow`: a modern table with large headers is written by its own rows
    /// only where they stood.
    pub fn write_into(&self, large: usize, buffer: &mut [u8]) -> Result<usize> {
        write_functions_into(self, self.layout, self.start, large, buffer)
    }

    /// The same into a vector, which grows: [`write_functions`] of its rows.
    ///
    /// ```
    /// # use bisquepond::{Layout, function};
    /// // One function, whose large header is at byte 1000. Its fields would fit without.
    /// let mut file = vec![0; 1031];
    /// file[..2].copy_from_slice(&1000u16.to_le_bytes());
    /// (file[15], file[1008]) = (0x20, 77);
    /// let table = function::read_functions(&file, Layout::Legacy16, 0, 1)?;
    /// let mut short = Vec::new();
    /// assert_eq!(table.write(16, &mut short)?, 16);
    /// assert_eq!(function::read_functions(&short, Layout::Legacy16, 0, 1)?[0].size(), 77);
    /// # Ok::<(), bisquepond::Refusal>(())
    /// ```
    ///
    /// # Errors
    ///
    /// Those of [`write_functions`], but never `BadRow`.
    pub fn write(&self, large: usize, bytes: &mut Vec<u8>) -> Result<usize> {
        write_functions(self, self.layout, self.start, large, bytes)
    }

    /// The bytes whose edit is not yet taken in, since every refresh from it on was refused: the least span that holds all
    /// of them. The rows that have a part in it may be out of date. None where no edit is left to be taken in.
    ///
    /// ```
    /// # use bisquepond::{Layout, function};
    /// let mut file = [0; 16];
    /// let mut table = function::read_functions(&file, Layout::Legacy16, 0, 1)?;
    /// assert_eq!(table.pending(), None);
    /// file[15] = 0x20; // a large header at byte 0, which would need 31 bytes
    /// assert!(table.refresh(&file, 15..).is_err());
    /// assert_eq!(table.pending(), Some(15..16));
    /// # Ok::<(), bisquepond::Refusal>(())
    /// ```
    pub fn pending(&self) -> Option<Range<usize>> {
        self.pending.map(|(low, high)| low..high)
    }

    /// Brings the table and its totals up to date after the bytes of `span` changed, and nothing else: what a fresh read of
    /// `file` would give, or that read's refusal. Answers which functions were read again.
    ///
    /// Refused, no row and no total is changed, and the span is remembered ([`pending`](Self::pending)): the next refresh
    /// reads again what has a part in the bytes from the first to the last that are not taken in.
    ///
    /// Two edits, or more, may be in the file when their refreshes come, one for each span, in any order: where none is
    /// refused, what each reads again, and rows and totals in the end, are the same, and after the last the table is a fresh
    /// read's (proved for two). A function that has a part in several of the spans is read again by each. But the span of
    /// one that is refused is joined to the next, whatever that is: where a function could not be read, the next is refused
    /// too, until the edit is undone or put right; where only the span was bad, or the file of another length, the next
    /// takes it in. Whoever would take in the others meanwhile lends rows to [`refresh_functions`], which remembers nothing.
    ///
    /// ```
    /// use bisquepond::{Layout, function};
    ///
    /// // A header at 0 whose large header is at byte 1000, far from the table.
    /// let mut file = vec![0; 1031];
    /// file[..2].copy_from_slice(&1000u16.to_le_bytes());
    /// file[15] = 0x20;
    /// let mut table = function::read_functions(&file, Layout::Legacy16, 0, 1)?;
    /// assert_eq!(table[0].size(), 0);
    ///
    /// // Its size is the third number there.
    /// file[1008] = 77;
    /// let again = table.refresh(&file, 1008..1009)?;
    /// assert_eq!((again.len(), again.collect::<Vec<_>>()), (1, vec![0]));
    /// assert_eq!(table[0].size(), 77);
    /// assert_eq!(table, function::read_functions(&file, Layout::Legacy16, 0, 1)?);
    ///
    /// // Bytes that no header has a part in.
    /// assert_eq!(table.refresh(&file, 16..1000)?.len(), 0);
    /// # Ok::<(), bisquepond::Refusal>(())
    /// ```
    ///
    /// Two edits, and both orders:
    ///
    /// ```
    /// # use bisquepond::{Layout, function};
    /// // Function 1 has its large header at byte 1000. The header of function 0 is edited, and that large header.
    /// let mut file = vec![0; 1031];
    /// file[16..18].copy_from_slice(&1000u16.to_le_bytes());
    /// file[31] = 0x20;
    /// let mut table = function::read_functions(&file, Layout::Legacy16, 0, 2)?;
    /// let mut other = table.clone();
    /// (file[4], file[1008]) = (7, 77);
    ///
    /// assert!(table.refresh(&file, ..32)?.eq([0, 1]));
    /// assert!(table.refresh(&file, 1000..)?.eq([1]));
    ///
    /// assert!(other.refresh(&file, 1000..)?.eq([1]));
    /// assert!(other.refresh(&file, ..32)?.eq([0, 1]));
    ///
    /// assert_eq!((&table, table.totals()), (&other, other.totals()));
    /// assert_eq!(table, function::read_functions(&file, Layout::Legacy16, 0, 2)?);
    /// # Ok::<(), bisquepond::Refusal>(())
    /// ```
    ///
    /// # Errors
    ///
    /// `AnotherLength` if the file has not as many bytes as the one that the table was read from: it is to be read again.
    /// `BadSpan` if the span is reversed or goes past the end. `Cut` with the first function whose header is not wholly in
    /// the file as place; `PastEnd` or `Cut` with the first function that has a part in the span and cannot be read. Never
    /// `BadTotals`: its totals are those of its rows.
    ///
    /// ```
    /// use bisquepond::{Layout, Reason, function};
    ///
    /// let mut file = [0; 32];
    /// let mut table = function::read_functions(&file, Layout::Legacy16, 0, 2)?;
    /// // Function 0 now has a large header at byte 8, which would need 31 bytes. It is refused, and not forgotten.
    /// (file[0], file[15]) = (8, 0x20);
    /// assert_eq!(table.refresh(&file, ..16).unwrap_err().reason(), Reason::Cut);
    /// file[20] = 7;
    /// assert_eq!(table.refresh(&file, 20..=20).unwrap_err().reason(), Reason::Cut);
    /// // Undone, all that was missed is taken in: of function 0 its offset, of function 1 its size.
    /// file[15] = 0;
    /// assert!(table.refresh(&file, 15..16)?.eq([0, 1]));
    /// assert_eq!((table[0].offset(), table[1].size()), (8, 7));
    ///
    /// assert_eq!(table.refresh(&file[..31], ..).unwrap_err().reason(), Reason::AnotherLength);
    /// assert_eq!(table.refresh(&file, ..33).unwrap_err().reason(), Reason::BadSpan);
    /// # Ok::<(), bisquepond::Refusal>(())
    /// ```
    pub fn refresh<'f>(
        &mut self,
        file: &'f [u8],
        span: impl RangeBounds<usize>,
    ) -> Result<Refreshed<'f>> {
        let span = span_of(&span, file.len());
        let refreshed = self.refreshed(file, span);
        self.pending = match refreshed {
            Ok(_) => None,
            // More than what changed may be remembered, but never less: a reversed span is taken for the other way round.
            Err(_) => hull(self.pending, within(span, self.length)),
        };
        refreshed
    }

    fn refreshed<'f>(&mut self, file: &'f [u8], span: (usize, usize)) -> Result<Refreshed<'f>> {
        let (layout, start, count) = (self.layout, self.start, self.count);
        if file.len() != self.length {
            let place = self.length as u32; // at most 2^30, or it would not have been read
            return Err(Refusal::of(Reason::AnotherLength, place, Place::Bytes));
        }
        // A span that is refused is not joined, so that it is still refused.
        let (low, high) = match span.0 <= span.1 && span.1 <= self.length {
            true => hull(self.pending, span).unwrap_or(span),
            false => span,
        };
        let (rows, totals) = (self.rows.lent(), &mut self.totals);
        let number = layout.number();
        let read =
            boundary::refresh_functions(file, number, start, count, (low, high), rows, totals)?;
        Ok(Refreshed {
            file,
            layout,
            start,
            span: (low, high),
            ids: 0..count,
            left: read,
        })
    }
}

/// The part of a span, or of a reversed one the other way round, that lies in so many bytes.
fn within((a, b): (usize, usize), length: usize) -> (usize, usize) {
    (a.min(b).min(length), a.max(b).min(length))
}

/// The least span that holds both; none where there is no byte to hold.
fn hull(pending: Option<(usize, usize)>, (low, high): (usize, usize)) -> Option<(usize, usize)> {
    match pending {
        Some((from, to)) if low < high => Some((from.min(low), to.max(high))),
        Some(pending) => Some(pending),
        None => (low < high).then_some((low, high)),
    }
}

impl PartialEq for FunctionTable {
    fn eq(&self, other: &FunctionTable) -> bool {
        let of = |table: &FunctionTable| (table.layout, table.start);
        of(self) == of(other) && self.rows == other.rows
    }
}

impl Eq for FunctionTable {}

impl Deref for FunctionTable {
    type Target = [FunctionRow];

    fn deref(&self) -> &[FunctionRow] {
        &self.rows
    }
}

impl<'t> IntoIterator for &'t FunctionTable {
    type Item = &'t FunctionRow;
    type IntoIter = slice::Iter<'t, FunctionRow>;

    fn into_iter(self) -> slice::Iter<'t, FunctionRow> {
        self.iter()
    }
}

/// Which functions a refresh read again: it goes through their numbers, rising. How many there are costs nothing to ask;
/// which ones are looked for while they are asked for.
///
/// ```
/// use bisquepond::{Layout, function};
///
/// let mut file = [0; 64];
/// let mut table = function::read_functions(&file, Layout::Legacy16, 0, 4)?;
/// file[20] = 7;
/// file[50] = 7;
/// let again = table.refresh(&file, 20..51)?;
/// assert_eq!(again.len(), 3);
/// for id in again {
///     println!("function {id}: {:?}", table[id as usize]);
/// }
/// # Ok::<(), bisquepond::Refusal>(())
/// ```
#[derive(Clone, Debug)]
#[must_use = "whether it was refused, and what was read again"]
pub struct Refreshed<'f> {
    file: &'f [u8],
    layout: Layout,
    start: usize,
    span: (usize, usize),
    /// Those that are not yet looked at.
    ids: Range<u32>,
    /// How many of them were read again.
    left: u32,
}

impl Iterator for Refreshed<'_> {
    type Item = u32;

    fn next(&mut self) -> Option<u32> {
        if self.left == 0 {
            return None;
        }
        let (file, layout, start, span) = (self.file, self.layout.number(), self.start, self.span);
        // Exactly the functions that meet the span by the file as it is now were read again.
        let met = |&id: &u32| boundary::function_meets(file, layout, start, id, span) == Ok(true);
        let id = self.ids.find(met)?;
        self.left -= 1;
        Some(id)
    }

    fn size_hint(&self) -> (usize, Option<usize>) {
        (self.left as usize, Some(self.left as usize))
    }
}

impl ExactSizeIterator for Refreshed<'_> {}
