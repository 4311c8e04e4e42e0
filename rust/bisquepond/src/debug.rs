//! The debug section: strings, scopes with their names, and callees. It is read on 8 KiB of stack where the callees'
//! addresses rise or there are none, else on 272 KiB, however many there are; n of those take three passes over all of
//! them for each 65,536, so that the time grows with n²/65,536: sorting in that space takes no less.
//!
//! ```
//! // One byte, then the section: seven words, and the data in three parts.
//! let mut file = vec![0];
//! for word in [0u32, 0, 0, 0, 5, 8, 13] {
//!     file.extend(word.to_le_bytes());
//! }
//! file.extend(b"\x7F\x00\x02\x00\x05"); // a scope: no parent, no flags, two names, strings 0 and 5
//! file.extend(b"\x01\x05\x00"); // one callee: address 5, string 0
//! file.extend(b"\x01x\x02hi"); // two strings
//!
//! let debug = bisquepond::debug::read_debug(&file, 1)?;
//! assert_eq!(debug.strings[1].bytes(&file), b"hi");
//! assert_eq!(debug.scopes[0].parent(), None);
//! // There is no string 5.
//! let names: Vec<Option<u32>> = debug.rows().names_of(0).iter().map(|name| name.string()).collect();
//! assert_eq!(names, [Some(0), None]);
//! assert_eq!((debug.callees[0].address(), debug.callees[0].string()), (5, 0));
//! // No number has more than 64 bits.
//! assert!(debug.exact);
//! # Ok::<(), bisquepond::Refusal>(())
//! ```

use core::fmt;

use crate::boundary;
use crate::{Reason, Result, Table};

pub use crate::boundary::{CalleeRow, NameRow, ScopeRow, TextRow};

/// A word, or none for the one that stands for no parent and for no such string.
const fn some(word: u32) -> Option<u32> {
    match word {
        u32::MAX => None,
        _ => Some(word),
    }
}

words! {
    TextRow,
    "# let mut file = vec![0];\n# for word in [0u32, 0, 0, 0, 5, 8, 13] { file.extend(word.to_le_bytes()); }\n# file.extend(b\"\\x7F\\x00\\x02\\x00\\x05\\x01\\x05\\x00\\x01x\\x02hi\");\nlet row = bisquepond::debug::read_debug(&file, 1)?.strings[0];":
    /// Where its bytes begin in the file, after the length before them.
    start = 0, "38";
    /// How many bytes it has.
    byte_len = 1, "1";
}

impl TextRow {
    /// Its bytes; none where it leaves the file, which a row read from that file never does.
    ///
    /// ```
    /// # let mut file = vec![0];
    /// # for word in [0u32, 0, 0, 0, 5, 8, 13] { file.extend(word.to_le_bytes()); }
    /// # file.extend(b"\x7F\x00\x02\x00\x05\x01\x05\x00\x01x\x02hi");
    /// let row = bisquepond::debug::read_debug(&file, 1)?.strings[0];
    /// assert_eq!(row.bytes(&file), b"x");
    /// assert_eq!(row.bytes(&file[..38]), b"");
    /// # Ok::<(), bisquepond::Refusal>(())
    /// ```
    pub fn bytes<'a>(&self, file: &'a [u8]) -> &'a [u8] {
        let from = file.get(self.start() as usize..).unwrap_or_default();
        from.get(..self.byte_len() as usize).unwrap_or_default()
    }
}

words! {
    ScopeRow,
    "# let mut file = vec![0];\n# for word in [0u32, 0, 0, 0, 5, 8, 13] { file.extend(word.to_le_bytes()); }\n# file.extend(b\"\\x7F\\x00\\x02\\x00\\x05\\x01\\x05\\x00\\x01x\\x02hi\");\nlet row = bisquepond::debug::read_debug(&file, 1)?.scopes[0];":
    /// Where it stands in the part of scopes: what another scope's parent names.
    offset = 0, "0";
    /// Its flags, their low 32 bits.
    flags = 2, "0";
    /// The first of its names in the table of names.
    first_name = 3, "0";
    /// How many names it has there.
    name_count = 4, "2";
}

impl ScopeRow {
    /// The offset of the scope around it.
    ///
    /// ```
    /// # let mut file = vec![0];
    /// # for word in [0u32, 0, 0, 0, 5, 8, 13] { file.extend(word.to_le_bytes()); }
    /// # file.extend(b"\x7F\x00\x02\x00\x05\x01\x05\x00\x01x\x02hi");
    /// assert_eq!(bisquepond::debug::read_debug(&file, 1)?.scopes[0].parent(), None);
    /// # Ok::<(), bisquepond::Refusal>(())
    /// ```
    pub const fn parent(&self) -> Option<u32> {
        some(self.0[1])
    }

    /// Whether its flags say that it is an inner scope (bit 0).
    ///
    /// ```
    /// # use bisquepond::{Row, debug::ScopeRow};
    /// assert!(ScopeRow::rows(&[0, 0, 1, 0, 0])[0].is_inner_scope());
    /// assert!(!ScopeRow::rows(&[0, 0, 2, 0, 0])[0].is_inner_scope());
    /// ```
    pub const fn is_inner_scope(&self) -> bool {
        self.flags() & 1 != 0
    }

    /// Whether its flags say that it is dynamic (bit 1).
    ///
    /// ```
    /// # use bisquepond::{Row, debug::ScopeRow};
    /// assert!(ScopeRow::rows(&[0, 0, 2, 0, 0])[0].is_dynamic());
    /// assert!(!ScopeRow::rows(&[0, 0, 1, 0, 0])[0].is_dynamic());
    /// ```
    pub const fn is_dynamic(&self) -> bool {
        self.flags() & 2 != 0
    }
}

impl NameRow {
    /// The number of its string, if there is one.
    ///
    /// ```
    /// # let mut file = vec![0];
    /// # for word in [0u32, 0, 0, 0, 5, 8, 13] { file.extend(word.to_le_bytes()); }
    /// # file.extend(b"\x7F\x00\x02\x00\x05\x01\x05\x00\x01x\x02hi");
    /// let debug = bisquepond::debug::read_debug(&file, 1)?;
    /// assert_eq!((debug.names[0].string(), debug.names[1].string()), (Some(0), None));
    /// # Ok::<(), bisquepond::Refusal>(())
    /// ```
    pub const fn string(&self) -> Option<u32> {
        some(self.0[0])
    }
}

words! {
    CalleeRow,
    "# let mut file = vec![0];\n# for word in [0u32, 0, 0, 0, 5, 8, 13] { file.extend(word.to_le_bytes()); }\n# file.extend(b\"\\x7F\\x00\\x02\\x00\\x05\\x01\\x05\\x00\\x01x\\x02hi\");\nlet row = bisquepond::debug::read_debug(&file, 1)?.callees[0];":
    /// Its address, the low 32 bits; addresses rise.
    address = 0, "5";
    /// The number of the string that names it.
    string = 1, "0";
}

impl fmt::Debug for TextRow {
    fn fmt(&self, f: &mut fmt::Formatter<'_>) -> fmt::Result {
        f.debug_struct("TextRow")
            .field("start", &self.start())
            .field("byte_len", &self.byte_len())
            .finish()
    }
}

impl fmt::Debug for ScopeRow {
    fn fmt(&self, f: &mut fmt::Formatter<'_>) -> fmt::Result {
        f.debug_struct("ScopeRow")
            .field("offset", &self.offset())
            .field("parent", &self.parent())
            .field("flags", &self.flags())
            .field("first_name", &self.first_name())
            .field("name_count", &self.name_count())
            .finish()
    }
}

impl fmt::Debug for NameRow {
    fn fmt(&self, f: &mut fmt::Formatter<'_>) -> fmt::Result {
        f.debug_tuple("NameRow").field(&self.string()).finish()
    }
}

impl fmt::Debug for CalleeRow {
    fn fmt(&self, f: &mut fmt::Formatter<'_>) -> fmt::Result {
        f.debug_struct("CalleeRow")
            .field("address", &self.address())
            .field("string", &self.string())
            .finish()
    }
}

/// The four tables to be filled.
#[derive(Debug)]
pub struct LentTables<'t> {
    /// For the strings.
    pub strings: &'t mut [TextRow],
    /// For the scopes.
    pub scopes: &'t mut [ScopeRow],
    /// For the names of all scopes.
    pub names: &'t mut [NameRow],
    /// For the callees.
    pub callees: &'t mut [CalleeRow],
}

/// The rows of a debug section.
#[derive(Clone, Copy, PartialEq, Eq, Debug)]
pub struct DebugRows<'t> {
    /// The strings.
    pub strings: &'t [TextRow],
    /// The scopes.
    pub scopes: &'t [ScopeRow],
    /// The names of all scopes; each scope names a part of them.
    pub names: &'t [NameRow],
    /// The callees, one an address, rising.
    pub callees: &'t [CalleeRow],
    /// Whether every number of the debug data that was read is exact. If not, at least one of them does not fit 64
    /// bits, and what is shown of it is its low 64 bits: a parent, flags, a name or an address may then be another than
    /// the file says, a text shorter, or rows may be missing behind a count or a length that was taken for another. No
    /// compiler writes such numbers, so that the file is damaged or was made to mislead. A number counts wherever it
    /// was read: also the length of a text that is cut, the numbers of a scope that was given up, a count that is
    /// refused because it is negative or above the bytes left, and a name that no string has. A read that failed is no
    /// number. Where no number was read, as where there is no debug information, it is true.
    ///
    /// ```
    /// use bisquepond::debug::{self, LentTables, ScopeRow};
    ///
    /// # let mut file = vec![0];
    /// # for word in [0u32, 0, 0, 0, 12, 12, 12] { file.extend(word.to_le_bytes()); }
    /// // A scope without names, whose parent has ten bytes: 2^64, of which 0 is left.
    /// file.extend(b"\x80\x80\x80\x80\x80\x80\x80\x80\x80\x02\x00\x00");
    /// let mut scopes = [ScopeRow::default(); 1];
    /// let mut lent = LentTables {
    ///     strings: &mut [],
    ///     scopes: &mut scopes,
    ///     names: &mut [],
    ///     callees: &mut [],
    /// };
    /// let rows = debug::read_debug_into(&file, 1, &mut lent)?;
    /// assert_eq!((rows.scopes[0].parent(), rows.exact), (Some(0), false));
    /// # Ok::<(), bisquepond::Refusal>(())
    /// ```
    pub exact: bool,
}

impl<'t> DebugRows<'t> {
    /// The names of the scope of that number; none where there is no such scope.
    ///
    /// ```
    /// # let mut file = vec![0];
    /// # for word in [0u32, 0, 0, 0, 5, 8, 13] { file.extend(word.to_le_bytes()); }
    /// # file.extend(b"\x7F\x00\x02\x00\x05\x01\x05\x00\x01x\x02hi");
    /// let debug = bisquepond::debug::read_debug(&file, 1)?;
    /// assert_eq!(debug.rows().names_of(0)[0].string(), Some(0));
    /// assert!(debug.rows().names_of(1).is_empty());
    /// # Ok::<(), bisquepond::Refusal>(())
    /// ```
    pub fn names_of(&self, scope: usize) -> &'t [NameRow] {
        let part = |row: &ScopeRow| {
            let from = self.names.get(row.first_name() as usize..)?;
            from.get(..row.name_count() as usize)
        };
        self.scopes.get(scope).and_then(part).unwrap_or_default()
    }
}

/// The rows of a debug section, in memory of their own.
#[derive(Clone, PartialEq, Eq, Debug)]
pub struct DebugInfo {
    /// The strings.
    pub strings: Table<TextRow>,
    /// The scopes.
    pub scopes: Table<ScopeRow>,
    /// The names of all scopes; each scope names a part of them.
    pub names: Table<NameRow>,
    /// The callees, one an address, rising.
    pub callees: Table<CalleeRow>,
    /// Whether every number of the debug data that was read is exact; [`DebugRows::exact`] says what that means.
    ///
    /// ```
    /// # let mut file = vec![0];
    /// # for word in [0u32, 0, 0, 0, 0, 0, 14] { file.extend(word.to_le_bytes()); }
    /// // A text of two bytes, and one whose length is cut off at 64 bits, and then says 9.
    /// file.extend(b"\x02hi\x89\x80\x80\x80\x80\x80\x80\x80\x80\x02?");
    /// let debug = bisquepond::debug::read_debug(&file, 1)?;
    /// assert_eq!((debug.strings.len(), debug.exact), (1, false));
    /// // No debug information.
    /// assert!(bisquepond::debug::read_debug(&file, 0)?.exact);
    /// # Ok::<(), bisquepond::Refusal>(())
    /// ```
    pub exact: bool,
}

impl DebugInfo {
    /// Its rows.
    ///
    /// ```
    /// # let mut file = vec![0];
    /// # for word in [0u32, 0, 0, 0, 5, 8, 13] { file.extend(word.to_le_bytes()); }
    /// # file.extend(b"\x7F\x00\x02\x00\x05\x01\x05\x00\x01x\x02hi");
    /// let debug = bisquepond::debug::read_debug(&file, 1)?;
    /// assert_eq!(debug.rows().strings.len(), 2);
    /// # Ok::<(), bisquepond::Refusal>(())
    /// ```
    pub fn rows(&self) -> DebugRows<'_> {
        DebugRows {
            strings: &self.strings,
            scopes: &self.scopes,
            names: &self.names,
            callees: &self.callees,
            exact: self.exact,
        }
    }
}

/// Reads the debug section at byte `offset` of the file into four tables that are lent, and answers their first rows, and
/// whether every number was [exact](DebugRows::exact); other rows stay. At offset 0, 2^32 - 1, or at or past the end there
/// is no debug information: no rows.
///
/// # Errors
///
/// `TooLong`; `Cut` if the header of 28 bytes is cut; `TooFewRows` if one of the tables has too few rows, looked at last.
///
/// ```
/// use bisquepond::debug::{self, CalleeRow, LentTables, NameRow, ScopeRow, TextRow};
///
/// # let mut file = vec![0];
/// # for word in [0u32, 0, 0, 0, 5, 8, 13] { file.extend(word.to_le_bytes()); }
/// # file.extend(b"\x7F\x00\x02\x00\x05\x01\x05\x00\x01x\x02hi");
/// let (mut strings, mut scopes) = ([TextRow::default(); 2], [ScopeRow::default(); 1]);
/// let (mut names, mut callees) = ([NameRow::default(); 2], [CalleeRow::default(); 1]);
/// let mut lent = LentTables {
///     strings: &mut strings,
///     scopes: &mut scopes,
///     names: &mut names,
///     callees: &mut callees,
/// };
/// let rows = debug::read_debug_into(&file, 1, &mut lent)?;
/// assert_eq!((rows.strings.len(), rows.scopes[0].name_count()), (2, 2));
///
/// lent.callees = &mut [];
/// assert_eq!(debug::read_debug_into(&file, 1, &mut lent).unwrap_err().number, 4);
/// assert_eq!(debug::read_debug_into(&file[..28], 1, &mut lent).unwrap_err().number, 3);
/// assert!(debug::read_debug_into(&file, 0, &mut lent)?.strings.is_empty());
/// # Ok::<(), bisquepond::Refusal>(())
/// ```
pub fn read_debug_into<'t>(
    file: &[u8],
    offset: u32,
    lent: &'t mut LentTables<'_>,
) -> Result<DebugRows<'t>> {
    let LentTables {
        strings,
        scopes,
        names,
        callees,
    } = lent;
    let (counts, exact) = boundary::read_debug(file, offset, strings, scopes, names, callees)?;
    Ok(DebugRows {
        strings: &strings[..counts[0]],
        scopes: &scopes[..counts[1]],
        names: &names[..counts[2]],
        callees: &callees[..counts[3]],
        exact,
    })
}

/// The same into tables of their own.
///
/// # Errors
///
/// Those of [`read_debug_into`], but never `TooFewRows`.
///
/// ```
/// # let mut file = vec![0];
/// # for word in [0u32, 0, 0, 0, 5, 8, 13] { file.extend(word.to_le_bytes()); }
/// # file.extend(b"\x7F\x00\x02\x00\x05\x01\x05\x00\x01x\x02hi");
/// let debug = bisquepond::debug::read_debug(&file, 1)?;
/// let counts = [debug.strings.len(), debug.scopes.len(), debug.names.len(), debug.callees.len()];
/// assert_eq!(counts, [2, 1, 2, 1]);
/// assert_eq!(bisquepond::debug::read_debug(&file[..28], 1).unwrap_err().number, 3);
/// # Ok::<(), bisquepond::Refusal>(())
/// ```
pub fn read_debug(file: &[u8], offset: u32) -> Result<DebugInfo> {
    // A row of any table takes a byte at the least, so that as many rows as bytes are always enough. Most sections need
    // far fewer: the tables begin shorter, and grow while they are refused.
    let most = file.len().saturating_sub(offset as usize);
    let mut room = (most / 16).max(64);
    loop {
        let mut debug = DebugInfo {
            strings: Table::zeros(room),
            scopes: Table::zeros(room),
            names: Table::zeros(room),
            callees: Table::zeros(room),
            exact: true,
        };
        let DebugInfo {
            strings,
            scopes,
            names,
            callees,
            exact,
        } = &mut debug;
        let (a, b, c, d) = (strings.lent(), scopes.lent(), names.lent(), callees.lent());
        match boundary::read_debug(file, offset, a, b, c, d) {
            Ok(([texts, scoped, named, called], all_exact)) => {
                strings.keep(texts);
                scopes.keep(scoped);
                names.keep(named);
                callees.keep(called);
                *exact = all_exact;
                return Ok(debug);
            }
            Err(refusal) if refusal.reason() == Reason::TooFewRows && room < most => {
                room = most.min(room.saturating_mul(4));
            }
            Err(refusal) => return Err(refusal),
        }
    }
}
