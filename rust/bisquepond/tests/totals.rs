//! The totals beside a table: what a read sets, what a refresh makes of them, what a refused call leaves, and refusal 16.

use bisquepond::function::{self, FunctionRow, FunctionTable, INLINE, Totals};
use bisquepond::sys::{hbc_read_functions, hbc_refresh_functions, number, place};
use bisquepond::{Layout, Reason, Row};

const LAYOUTS: [Layout; 2] = [Layout::Legacy16, Layout::Modern12];
const OVERFLOW: u8 = 0x20;
const MOST: u64 = (1 << 63) - 1;

/// The byte of a header in which its size begins, and of a large header.
fn size_at(layout: Layout) -> (usize, usize) {
    match layout {
        Layout::Legacy16 => (4, 8),
        Layout::Modern12 => (4, 12),
    }
}

/// Three functions of sizes 10, 0 and 70,000, of which the last is read from the large header behind the table.
fn three(layout: Layout) -> Vec<u8> {
    let own = layout.header_size();
    let mut file = vec![0; 3 * own + layout.large_header_size()];
    let (at, in_large) = size_at(layout);
    file[at] = 10;
    (file[2 * own], file[3 * own - 1]) = (3 * own as u8, OVERFLOW);
    file[3 * own + in_large..][..4].copy_from_slice(&70_000u32.to_le_bytes());
    file
}

fn both(totals: Totals) -> (u64, u64) {
    (totals.large(), totals.sizes())
}

#[test]
fn a_read_sets_them() {
    for layout in LAYOUTS {
        let file = three(layout);
        let mut rows = [FunctionRow::default(); 5];
        for (count, right) in [(3, (1, 70_010)), (2, (0, 10)), (1, (0, 10)), (0, (0, 0))] {
            let table = function::read_functions(&file, layout, 0, count).unwrap();
            assert_eq!(both(table.totals()), right);
            let read = function::read_functions_into(&file, layout, 0, count, &mut rows);
            let (read, totals) = read.unwrap();
            assert_eq!((both(totals), read.len()), (right, count as usize));
            assert_eq!(totals, Totals::of(read));
        }
    }
}

/// The last word of a row tells, not its flags; and every word of a row may be any number.
#[test]
fn rows_are_added_up_by_their_words() {
    let mut row = FunctionRow::default();
    row.set_flags(0x20);
    row.set_size(u32::MAX);
    assert_eq!(both(Totals::of(&[row; 3])), (0, 3 * u64::from(u32::MAX)));
    for place in [0, 1, 1 << 30, INLINE - 1, INLINE] {
        let mut words = [9; FunctionRow::WORDS];
        words[FunctionRow::WORDS - 1] = place;
        let large = u64::from(place != INLINE);
        assert_eq!(both(Totals::of(FunctionRow::rows(&words))), (large, 9));
    }
    assert_eq!(Totals::of(&[]), Totals::default());
}

/// The table after an edit of one byte: its totals are those of its rows, and of a fresh read.
fn edited(table: &mut FunctionTable, file: &mut [u8], (at, byte): (usize, u8)) -> (u64, u64) {
    file[at] = byte;
    assert!(table.refresh(file, at..=at).is_ok());
    assert_eq!(table.totals(), Totals::of(table));
    let fresh = function::read_functions(file, table.layout(), 0, table.len() as u32);
    assert_eq!(fresh.map(|fresh| fresh.totals()), Ok(table.totals()));
    both(table.totals())
}

#[test]
fn they_follow_edits() {
    for layout in LAYOUTS {
        let (own, (at, in_large)) = (layout.header_size(), size_at(layout));
        let mut file = three(layout);
        let mut table = function::read_functions(&file, layout, 0, 3).unwrap();
        let mut after = |edit| edited(&mut table, &mut file, edit);
        // A size in a header, and one in a large header.
        assert_eq!(after((at, 12)), (1, 70_012));
        assert_eq!(
            after((3 * own + in_large + 2, 0)),
            (1, 12 + 70_000 - 65_536)
        );
        // A function that gets a large header, at byte 0, where its size is 0, and loses it; one whose large header goes.
        assert_eq!(after((2 * own - 1, OVERFLOW)), (2, 12 + 70_000 - 65_536));
        assert_eq!(after((2 * own - 1, 0)), (1, 12 + 70_000 - 65_536));
        assert_eq!(after((3 * own - 1, 0)), (0, 12));
        // A byte that no total has a part in.
        assert_eq!(after((0, 1)), (0, 12));
    }
}

/// A refresh that is refused leaves rows and totals; when it is taken in later they are those of the rows.
#[test]
fn a_refused_edit_is_not_counted() {
    let layout = Layout::Legacy16;
    let mut file = three(layout);
    let mut table = function::read_functions(&file, layout, 0, 3).unwrap();
    // Function 0 is 11 bytes, and the large header of function 2 is past the end.
    (file[4], file[32]) = (11, 200);
    assert_eq!(
        table.refresh(&file, ..48).unwrap_err().reason(),
        Reason::PastEnd
    );
    assert_eq!(both(table.totals()), (1, 70_010));
    assert_eq!(table.totals(), Totals::of(&table));
    assert_eq!(edited(&mut table, &mut file, (32, 48)), (1, 70_011));
}

/// Many edits one after another, some of them refused: the totals are always those of the rows.
#[test]
fn many_edits() {
    for layout in LAYOUTS {
        let (mut file, mut state) = (three(layout), 7u64);
        let mut table = function::read_functions(&file, layout, 0, 3).unwrap();
        let mut random = |bound: usize| {
            state = state
                .wrapping_mul(6_364_136_223_846_793_005)
                .wrapping_add(1_442_695_040_888_963_407);
            (state >> 33) as usize % bound
        };
        let (mut large, mut refused) = ([0; 4], 0);
        for _ in 0..6_000 {
            // The flag, the place, or the size of a function; or a byte of a large header.
            let (own, id) = (layout.header_size(), random(3));
            let large_header = 3 * own + random(file.len() - 3 * own);
            let (at, byte) = [
                (own * id + own - 1, [0, OVERFLOW][random(2)]),
                (own * id, random(60) as u8),
                (own * id + size_at(layout).0, random(256) as u8),
                (large_header, random(256) as u8),
            ][random(4)];
            let was = file[at];
            file[at] = byte;
            match table.refresh(&file, at..=at) {
                Ok(_) => {
                    let fresh = function::read_functions(&file, layout, 0, 3).unwrap();
                    assert_eq!((&table, table.totals()), (&fresh, fresh.totals()));
                    large[table.totals().large() as usize] += 1;
                }
                Err(why) => {
                    assert_ne!(why.reason(), Reason::BadTotals);
                    refused += 1;
                    file[at] = was;
                }
            }
            assert_eq!(table.totals(), Totals::of(&table));
        }
        assert!(
            refused > 100 && large.iter().all(|&n| n > 50),
            "{large:?} {refused}"
        );
    }
}

/// Totals of other rows are refused at the row at which they fall short, after every read; rows and totals stay.
#[test]
fn totals_of_other_rows() {
    for layout in LAYOUTS {
        let own = layout.header_size();
        let mut file = three(layout);
        let read = function::read_functions(&file, layout, 0, 3).unwrap();
        let mut rows = read.to_vec();
        // Those of no rows: function 0 has 10 bytes. Those of the first: function 2 is large.
        for (other, place) in [(Totals::default(), 0), (Totals::of(&rows[..1]), 2)] {
            let mut totals = other;
            let refused =
                function::refresh_functions(&file, layout, 0, 3, .., &mut rows, &mut totals);
            let refusal = refused.unwrap_err();
            assert_eq!(
                (refusal.reason(), refusal.place),
                (Reason::BadTotals, place)
            );
            assert_eq!(
                refusal.to_string(),
                format!(
                    "refused 16 at {place}: the totals that were lent are not those of the rows: with function {place} one falls below 0, or is above 2^63 - 1"
                )
            );
            assert_eq!((&rows[..], totals), (&read[..], other));
            // Where no row is read again they are not looked at.
            let again =
                function::refresh_functions(&file, layout, 0, 3, 1..1, &mut rows, &mut totals);
            assert_eq!((again, totals), (Ok(0), other));
        }
        // A read that is refused comes first.
        let mut totals = Totals::default();
        file[2 * own] = 0xFF;
        let refused = function::refresh_functions(&file, layout, 0, 3, .., &mut rows, &mut totals);
        let refusal = refused.unwrap_err();
        assert_eq!((refusal.reason(), refusal.place), (Reason::PastEnd, 2));
        // Added up anew they do.
        let mut totals = Totals::of(&rows);
        file[2 * own] = 3 * own as u8;
        let again = function::refresh_functions(&file, layout, 0, 3, .., &mut rows, &mut totals);
        assert_eq!((again, totals), (Ok(3), read.totals()));
    }
}

/// A refresh of all bytes of two functions, with any totals: of the answer the number and the place, and the totals after.
fn lending(file: &[u8], rows: &[u32], lent: [u64; 2]) -> ((u32, u32), [u64; 2], Vec<u32>) {
    let (mut rows, [mut large, mut sizes]) = (rows.to_vec(), lent);
    let (s, len, words) = (file.as_ptr(), file.len(), rows.len());
    let code = unsafe {
        hbc_refresh_functions(
            s,
            len,
            0,
            0,
            2,
            0,
            len,
            rows.as_mut_ptr(),
            words,
            &mut large,
            &mut sizes,
        )
    };
    ((number(code), place(code)), [large, sizes], rows)
}

/// Numbers that no safe call can lend: just 0, just 2^63 - 1, one beyond each, and 2^64 - 1; also of a total that no row
/// changes.
#[test]
fn the_bounds_of_a_total() {
    // Two legacy functions of sizes 5 and 7, lent as rows of sizes 3 and 20; the first was large.
    let mut file = [0; 32];
    (file[4], file[20]) = (5, 7);
    let mut rows = vec![1; 2 * FunctionRow::WORDS];
    (rows[4], rows[16], rows[21], rows[33]) = (3, 0, 20, INLINE);
    let now = function::read_functions(&file, Layout::Legacy16, 0, 2).unwrap();
    for (lent, right) in [
        ([1, 23], Ok([0, 12])),
        ([9, 100], Ok([8, 89])),
        ([0, 23], Err(0)),
        ([1, 2], Err(0)),
        ([1, 3], Err(1)),
        ([1, 17], Err(1)),
        ([1, 18], Ok([0, 7])),
        ([MOST + 1, 23], Ok([MOST, 12])),
        ([MOST + 2, 23], Err(0)),
        ([1, MOST - 2], Ok([0, MOST - 13])),
        ([1, MOST - 1], Err(0)),
        ([u64::MAX, 23], Err(0)),
        ([1, u64::MAX], Err(0)),
    ] {
        let (answer, totals, left) = lending(&file, &rows, lent);
        match right {
            Ok(right) => assert_eq!((answer, totals, &left[..]), ((0, 2), right, now.words())),
            Err(row) => assert_eq!((answer, totals, left), ((16, row), lent, rows.clone())),
        }
    }
    // All inline, before and after: the first total is not changed by any row, and yet looked at.
    rows[16] = INLINE;
    assert_eq!(lending(&file, &rows, [MOST, 23]).0, (0, 2));
    assert_eq!(lending(&file, &rows, [MOST + 1, 23]).0, (16, 0));
}

/// What the totals hold does not matter to a read, and stays where it is refused.
#[test]
fn a_read_does_not_look_at_them() {
    let (file, mut rows) = (three(Layout::Legacy16), [0; 3 * FunctionRow::WORDS]);
    for lent in [[0, 0], [7, MOST + 1], [u64::MAX; 2]] {
        for (len, right) in [(79, Some([1, 70_010])), (78, None)] {
            let [mut large, mut sizes] = lent;
            let (s, words) = (file.as_ptr(), rows.len());
            let table = rows.as_mut_ptr();
            let code = unsafe {
                hbc_read_functions(s, len, 0, 0, 3, table, words, &mut large, &mut sizes)
            };
            assert_eq!(number(code) == 0, right.is_some());
            assert_eq!([large, sizes], right.unwrap_or(lent));
        }
    }
}
