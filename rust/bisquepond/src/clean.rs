//! The clean-bundle profile: whether headers, kinds, strings and literal series are tidy enough for release, by five rules.
//!
//! The readers of the other modules accept large headers that share bytes, empty kind runs, strings that leave the
//! storage. [`check_bundle`] accepts what they accept, and says of it whether it is clean, or which rule it breaks first,
//! and where.

use core::fmt;

use crate::boundary;
use crate::function::Layout;
use crate::literal::Objects;
use crate::refusal::Place;
use crate::table::Strings;
use crate::{Reason, Refusal, Result};

pub use crate::boundary::SeriesRow;

words! {
    SeriesRow,
    "let row = bisquepond::clean::SeriesRow::of_keys(7, 2);":
    /// Where in its buffer it begins.
    offset = 1, "7";
    /// How many values are asked for.
    count = 2, "2";
}

impl SeriesRow {
    /// `count` values of the keys, from `offset` on.
    ///
    /// ```
    /// # use bisquepond::clean::SeriesRow;
    /// assert!(SeriesRow::of_keys(7, 2).is_of_keys());
    /// ```
    pub const fn of_keys(offset: u32, count: u32) -> SeriesRow {
        SeriesRow([1, offset, count])
    }

    /// `count` values of the values, from `offset` on.
    ///
    /// ```
    /// # use bisquepond::clean::SeriesRow;
    /// assert!(!SeriesRow::of_values(7, 2).is_of_keys());
    /// ```
    pub const fn of_values(offset: u32, count: u32) -> SeriesRow {
        SeriesRow([0, offset, count])
    }

    /// Whether it is read from the keys; else it is from the values.
    ///
    /// ```
    /// # use bisquepond::{Row, clean::SeriesRow};
    /// // All but 0 names the keys.
    /// let rows = SeriesRow::rows(&[0, 7, 2, 9, 7, 2]);
    /// assert!(!rows[0].is_of_keys() && rows[1].is_of_keys());
    /// ```
    pub const fn is_of_keys(&self) -> bool {
        self.0[0] != 0
    }
}

impl fmt::Debug for SeriesRow {
    fn fmt(&self, f: &mut fmt::Formatter<'_>) -> fmt::Result {
        f.debug_struct("SeriesRow")
            .field("of_keys", &self.is_of_keys())
            .field("offset", &self.offset())
            .field("count", &self.count())
            .finish()
    }
}

/// What is checked: the tables of a file, each as the readers of the other modules take it.
#[derive(Clone, Copy, Debug)]
pub struct Bundle<'a> {
    /// The bytes of the file.
    pub file: &'a [u8],
    /// The layout of its function headers.
    pub layout: Layout,
    /// The byte at which the table of headers begins.
    pub start: usize,
    /// How many functions the table has.
    pub count: u32,
    /// The kind runs, and what the strings are decoded from, in Hermes mode.
    pub strings: Strings<'a>,
    /// How many strings there are. Of them as many are decoded as there are small entries, if these are fewer, which breaks
    /// no rule; the kind runs must add up to this number, and every literal string number be below it.
    pub string_count: u32,
    /// The buffers that the series are read from.
    pub objects: Objects<'a, 'a>,
    /// The literal series, by what their instructions ask for.
    pub series: &'a [SeriesRow],
}

/// Each rule with its number, its words, and what is wrong at a place.
macro_rules! rules {
    ($($(#[$doc:meta])* $name:ident = $number:literal, $words:literal, $wrong:literal;)*) => {
        /// A rule that a clean bundle keeps. Printed with `{}` it is a sentence. In include/hbc.h the name of `LargeHeaders`
        /// is `HBC_RULE_LARGE_HEADERS`, and so on.
        ///
        /// ```
        /// use bisquepond::clean::Rule;
        ///
        /// assert_eq!(Rule::Strings.to_string(), "each string is valid in Hermes mode");
        /// ```
        #[derive(Clone, Copy, PartialEq, Eq, PartialOrd, Ord, Hash, Debug)]
        pub enum Rule {
            $($(#[$doc])* $name = $number,)*
        }

        impl Rule {
            /// Every rule, in the order in which they are looked at.
            ///
            /// ```
            /// use bisquepond::clean::Rule;
            ///
            /// assert!(Rule::ALL.iter().map(|rule| rule.number()).eq(1..=5));
            /// ```
            pub const ALL: &[Rule] = &[$(Rule::$name),*];

            /// `number` is one that the archive answered.
            fn of(number: u32) -> Rule {
                match number {
                    $($number => Rule::$name,)*
                    _ => unreachable!("a rule of number {number}"),
                }
            }

            /// The number that include/hbc.h has for it, from 1 to 5.
            ///
            /// ```
            /// use bisquepond::clean::Rule;
            ///
            /// assert_eq!((Rule::LargeHeaders.number(), Rule::LiteralStrings.number()), (1, 5));
            /// ```
            pub const fn number(self) -> u32 {
                self as u32
            }
        }

        impl fmt::Display for Rule {
            fn fmt(&self, f: &mut fmt::Formatter<'_>) -> fmt::Result {
                f.write_str(match self {
                    $(Rule::$name => $words,)*
                })
            }
        }

        impl fmt::Display for Verdict {
            fn fmt(&self, f: &mut fmt::Formatter<'_>) -> fmt::Result {
                match *self {
                    Verdict::Clean => f.write_str("clean"),
                    $(Verdict::Broken { rule: Rule::$name, place } => {
                        write!(f, concat!("rule ", $number, " is broken at {place}: ", $wrong), place = place)
                    })*
                }
            }
        }
    };
}

rules! {
    /// Large headers start at or after the table's end and share no bytes. The place is the lowest function whose large
    /// header starts before the table's end, or shares a byte with that of any other function.
    LargeHeaders = 1, "large headers start at or after the table's end and share no bytes",
    "the large header of function {place} starts before the table's end, or shares bytes with another";
    /// Kind lengths add up to the string count, with no empty run. The place is the first run that is empty, or the number
    /// of runs if only the sum is wrong.
    KindRuns = 2, "kind lengths add up to the string count, and no run is empty",
    "kind run {place} is empty or, if there is no run {place}, the lengths of all do not add up to the string count";
    /// Each string is valid in Hermes mode. The place is the string.
    Strings = 3, "each string is valid in Hermes mode",
    "string {place} does not lie in the storage";
    /// No series passes a length-0 tag: none stands before the last value that is asked for. The place is the number of the
    /// series.
    EmptyTags = 4, "no series passes a length-0 tag",
    "series {place} passes a length-0 tag before its last value";
    /// Each literal string number is below the string count. The place is the number of the series.
    LiteralStrings = 5, "each literal string number is below the string count",
    "series {place} has a string number that is not below the string count";
}

/// What [`check_bundle`] finds. Printed with `{}` it is a sentence.
///
/// ```
/// use bisquepond::clean::{Rule, Verdict};
///
/// assert_eq!(Verdict::Clean.to_string(), "clean");
/// let broken = Verdict::Broken { rule: Rule::Strings, place: 7 };
/// assert_eq!(broken.to_string(), "rule 3 is broken at 7: string 7 does not lie in the storage");
/// ```
#[derive(Clone, Copy, PartialEq, Eq, Hash, Debug)]
#[must_use = "a bundle that breaks a rule is no refusal"]
pub enum Verdict {
    /// All rules hold.
    Clean,
    /// A rule does not hold, and all before it do.
    Broken {
        /// The first that does not.
        rule: Rule,
        /// Its lowest place: a function, a run, a string or a series, as [`Rule`] says. 2^32 - 1 stands for that place and
        /// for all behind it.
        place: u32,
    },
}

impl Verdict {
    /// Whether all rules hold.
    ///
    /// ```
    /// use bisquepond::clean::{Rule, Verdict};
    ///
    /// assert!(Verdict::Clean.is_clean());
    /// assert!(!Verdict::Broken { rule: Rule::KindRuns, place: 0 }.is_clean());
    /// ```
    pub const fn is_clean(self) -> bool {
        matches!(self, Verdict::Clean)
    }
}

/// The refusal in the words of the reader whose it is.
fn told(bundle: &Bundle<'_>, refusal: Refusal) -> Refusal {
    let place = refusal.place;
    refusal.counting(match refusal.reason() {
        Reason::PastEnd => Place::Function,
        Reason::NoOverflowPair => Place::HermesString,
        // Of headers exactly where this function is among them and cannot be read.
        Reason::Cut => {
            let layout = bundle.layout.into();
            let read = || boundary::read_function(bundle.file, layout, bundle.start, place);
            match place < bundle.count && read().is_err() {
                true => Place::Function,
                false => Place::Values,
            }
        }
        _ => Place::Nothing,
    })
}

/// Whether the bundle is clean; else the first rule that it breaks, in the order of [`Rule`], and its lowest place. It is
/// clean exactly if all rules hold. Nothing is allocated, and nothing of the bundle changes.
///
/// What the readers refuse is refused, before any rule is looked at: by [`read_functions`](crate::function::read_functions),
/// by [`decode_hermes`](Strings::decode_hermes), and by [`keys`](Objects::keys) or [`values`](Objects::values) of each
/// series in turn.
///
/// It takes time that grows with the functions, the runs, the strings, and what each series takes by itself, over all tags
/// of length 0 on its way: n rows that name the same bytes take n times as long as one. Where large headers do not rise, the
/// first at or behind the table's end and each at or behind the end of the one before it, the functions are gone through
/// once more for each 65,535 large headers that the file has room for behind the table, and 272 KiB of stack are needed,
/// else 8.
///
/// # Errors
///
/// `TooLong` if the file is longer than 2^30 bytes; `PastEnd` if `start` is past its end; `PastEnd` or `Cut` if a
/// function cannot be read, with the first such as place. `TooLong` if the storage is longer than 2^30 bytes;
/// `NoOverflowPair` if the pair that a string names is not there, with the first such string as place. Then, series by
/// series, `TooLong` if its buffer is longer than 2^30 bytes; `SeriesPastEnd` if it begins at or past the end and is
/// not empty; `Cut` if the bytes end before its values do, with the number of whole values before that as place: which
/// series it was is not told.
///
/// ```
/// use bisquepond::clean::{self, Bundle, Rule, SeriesRow, Verdict};
/// use bisquepond::{Layout, literal::Objects, table::Strings};
///
/// // Two functions with their large headers at 32 and at 63, two strings, and the keys "a" and "bc" of an object.
/// let mut file = [0; 94];
/// (file[0], file[15]) = (32, 0x20);
/// (file[16], file[31]) = (63, 0x20);
/// let bundle = Bundle {
///     file: &file,
///     layout: Layout::Legacy16,
///     start: 0,
///     count: 2,
///     strings: Strings { kinds: &[2], small: &[1 << 24, 1 << 1 | 2 << 24], overflow: &[], storage: b"abc" },
///     string_count: 2,
///     objects: Objects { keys: &[0x62, 0, 1], values: &[] },
///     series: &[SeriesRow::of_keys(0, 2)],
/// };
/// assert_eq!(clean::check_bundle(&bundle)?, Verdict::Clean);
///
/// // The second string would end a byte past the storage.
/// let short = Bundle { strings: Strings { storage: b"ab", ..bundle.strings }, ..bundle };
/// assert_eq!(clean::check_bundle(&short)?, Verdict::Broken { rule: Rule::Strings, place: 1 });
///
/// // With the large header of function 1 a byte earlier, the two share one: of two functions the lower is told.
/// let mut moved = file;
/// moved[16] = 62;
/// let shared = Bundle { file: &moved, ..short };
/// assert_eq!(clean::check_bundle(&shared)?, Verdict::Broken { rule: Rule::LargeHeaders, place: 0 });
///
/// // What a reader refuses is refused: function 1 is cut.
/// let cut = Bundle { file: &file[..93], ..bundle };
/// assert_eq!(clean::check_bundle(&cut).unwrap_err().number, 3);
/// # Ok::<(), bisquepond::Refusal>(())
/// ```
pub fn check_bundle(bundle: &Bundle<'_>) -> Result<Verdict> {
    match boundary::check_bundle(bundle) {
        Ok((0, _)) => Ok(Verdict::Clean),
        Ok((rule, place)) => Ok(Verdict::Broken {
            rule: Rule::of(rule),
            place,
        }),
        Err(refusal) => Err(told(bundle, refusal)),
    }
}
