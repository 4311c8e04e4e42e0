//! Tables that are written: the worked cases, every refusal, rows at the edge of each field, and what a vector becomes.

use bisquepond::function::{self, FunctionRow, Ground, Rest};
use bisquepond::{Layout, Reason, Refusal, Row};

const LAYOUTS: [Layout; 2] = [Layout::Legacy16, Layout::Modern12];

/// The words of a row, and the last of them, which no writer looks at.
const ROW: usize = FunctionRow::WORDS;
const PLACE: usize = ROW - 1;

const P1: [u8; 16] = [0, 1, 0, 4, 0x0A, 0x80, 1, 0, 0, 0, 0, 0x0A, 1, 2, 3, 4];
const P2: [u8; 12] = [0, 1, 0, 0x44, 0x0A, 0xC0, 0, 0x29, 6, 7, 0x48, 4];

fn refused<T: std::fmt::Debug>(answer: Result<T, Refusal>) -> (Reason, u32) {
    let refusal = answer.unwrap_err();
    (refusal.reason(), refusal.place)
}

/// So many rows that are 0 but for layout and number.
fn empty(layout: Layout, count: u32) -> Vec<FunctionRow> {
    let row = |id: u32| {
        let mut words = [0; ROW];
        (words[0], words[1], words[PLACE]) = (layout.into(), id, function::INLINE);
        FunctionRow::rows(&words)[0]
    };
    (0..count).map(row).collect()
}

/// The same row with another word.
fn with(row: &FunctionRow, word: usize, value: u32) -> FunctionRow {
    let place = row.large_place().unwrap_or(function::INLINE);
    let mut words = [row.record(), &[place]].concat();
    words[word] = value;
    FunctionRow::rows(&words)[0]
}

/// What of rows is written, and read back.
fn records(rows: &[FunctionRow]) -> Vec<&[u32]> {
    rows.iter().map(FunctionRow::record).collect()
}

/// The same rows, as they are once they are written with this place for large headers: with their places there.
fn placed(rows: &[FunctionRow], layout: Layout, large: usize) -> Vec<FunctionRow> {
    let mut next = large.next_multiple_of(4);
    let row = |row: &FunctionRow| match row.goes_inline() {
        true => with(row, PLACE, function::INLINE),
        false => {
            let place = next;
            next += layout.large_header_size().next_multiple_of(4);
            with(row, PLACE, place as u32)
        }
    };
    rows.iter().map(row).collect()
}

/// Writes into bytes that hold 7, and sees that the rows are read back, with the places of their large headers.
fn written(
    rows: &[FunctionRow],
    layout: Layout,
    start: usize,
    large: usize,
    len: usize,
) -> Vec<u8> {
    let mut buffer = vec![7; len];
    let end = function::write_functions_into(rows, layout, start, large, &mut buffer).unwrap();
    let table = function::read_functions(&buffer[..end], layout, start, rows.len() as u32).unwrap();
    assert_eq!(table[..], placed(rows, layout, large));
    buffer
}

#[test]
fn p1_and_p2_are_their_own_bytes() {
    for (layout, bytes) in [(Layout::Legacy16, &P1[..]), (Layout::Modern12, &P2[..])] {
        let row = function::read_function(bytes, layout, 0, 0).unwrap();
        assert!(row.goes_inline());
        assert_eq!(written(&[row], layout, 0, bytes.len(), bytes.len()), bytes);
        // Behind and before the header nothing is written.
        let around = written(&[row], layout, 3, 3 + bytes.len(), 5 + bytes.len());
        assert_eq!(around, [&[7; 3], bytes, &[7; 2]].concat());
    }
}

#[test]
fn p5_is_its_own_bytes() {
    // The large header is all zeros, so that its row needs one only where its info_offset says so: in modern.
    let mut modern = vec![0; 49];
    (modern[0], modern[11]) = (12, 0x20);
    let row = function::read_function(&modern, Layout::Modern12, 0, 0).unwrap();
    assert_eq!(written(&[row], Layout::Modern12, 0, 12, 49), modern);
    let short = function::write_functions_into(&[row], Layout::Modern12, 0, 12, &mut [7; 48]);
    assert_eq!(refused(short), (Reason::TooFewRows, 0));
    let elsewhere = function::write_functions_into(&[row], Layout::Modern12, 0, 13, &mut [7; 90]);
    assert_eq!(refused(elsewhere), (Reason::BadInfoOffset, 0));

    let mut legacy = vec![0; 47];
    (legacy[0], legacy[15]) = (16, 0x20);
    let mut row = function::read_function(&legacy, Layout::Legacy16, 0, 0).unwrap();
    assert_eq!(written(&[row], Layout::Legacy16, 0, 16, 16), [0; 16]);
    // With a flag that no inline header has, it is.
    row.set_flags(function::FLAG_OVERFLOWED);
    legacy[46] = 0x20;
    assert_eq!(written(&[row], Layout::Legacy16, 0, 16, 47), legacy);
}

#[test]
fn p3_is_the_same_place_by_other_bytes() {
    let mut row = empty(Layout::Legacy16, 1)[0];
    row.set_size(1 << 15);
    let bytes = written(&[row], Layout::Legacy16, 0, 65_552, 65_552 + 31);
    let ground = function::function_ground(&bytes, Layout::Legacy16, 0, 0).unwrap();
    assert_eq!(
        ground,
        Ground {
            header: 0,
            large: Some(65_552)
        }
    );
    // P3's own header has 65,552 in the offset too, of which info_offset has the upper part already.
    assert_eq!(
        bytes[..16],
        [0x10, 0, 0, 0, 0, 0, 0, 0, 1, 0, 0, 0, 0, 0, 0, 0x20]
    );
}

/// Large headers at multiples of 4 in the order of their rows, and not a byte between them.
#[test]
fn large_headers_rise_by_fours() {
    for (layout, own, large, each) in [
        (Layout::Legacy16, 16, 31, 32),
        (Layout::Modern12, 12, 37, 40),
    ] {
        let mut rows = empty(layout, 5);
        for id in [1, 2, 4] {
            rows[id].set_param_count(300);
        }
        let place = (5 * own + 3usize).next_multiple_of(4);
        function::renew_info_offsets(&mut rows, place - 1);
        let bytes = written(&rows, layout, 1, place - 1, place + 3 * each + 9);
        for (n, id) in [1, 2, 4].into_iter().enumerate() {
            let at = place + n * each;
            let ground = function::function_ground(&bytes, layout, 1, id).unwrap();
            assert_eq!(ground.large, Some(at));
            assert!(bytes[at + large..at + each].iter().all(|&byte| byte == 7));
        }
        assert_eq!(bytes[0], 7);
        assert!(bytes[1 + 5 * own..place].iter().all(|&byte| byte == 7));
    }
}

/// The greatest number of each field is written inline, one more in a large header, or not at all where that has a byte.
#[test]
fn fields_at_their_edges() {
    let legacy = [25, 7, 15, 17, 25, 7, 8, 8, 8, 8];
    let modern = [25, 5, 14, 8, 0, 8, 8, 2, 5, 5, 8, 6, 1, 1];
    for (layout, widths) in [
        (Layout::Legacy16, &legacy[..]),
        (Layout::Modern12, &modern[..]),
    ] {
        let bytes: &[usize] = match layout {
            Layout::Legacy16 => &[8, 10, 11],
            Layout::Modern12 => &[8, 12, 13, 14, 15],
        };
        let (own, large) = (layout.header_size(), layout.large_header_size());
        for (word, width) in (2..).zip(widths) {
            let most = (1u32 << width) - 1;
            // Of the flags bit 5 is not the row's own.
            let fits = with(
                &empty(layout, 1)[0],
                word,
                if word == 8 { 0xDF } else { most },
            );
            assert!(fits.goes_inline());
            written(&[fits], layout, 0, own, own);

            let mut wide = [with(&fits, word, most + 1)];
            assert!(!wide[0].goes_inline());
            let byte = bytes.contains(&word);
            if byte && most == 255 {
                let answer = function::write_functions_into(&wide, layout, 0, own, &mut [7; 60]);
                assert_eq!(refused(answer), (Reason::BadRow, 0));
                continue;
            }
            let room = own.next_multiple_of(4) + large;
            function::renew_info_offsets(&mut wide, own);
            written(&wide, layout, 0, own, room);
            let short =
                function::write_functions_into(&wide, layout, 0, own, &mut vec![7; room - 1]);
            assert_eq!(refused(short), (Reason::TooFewRows, 0));
            let most = with(&wide[0], word, if byte { 255 } else { u32::MAX });
            let mut most = [most];
            function::renew_info_offsets(&mut most, own);
            written(&most, layout, 0, own, room);
        }
    }
}

/// Each refusal by itself, and before those that follow it, which all hold; no byte is written.
#[test]
fn refusals_in_their_order() {
    for layout in LAYOUTS {
        let own = layout.header_size();
        let mut good = empty(layout, 3);
        good[1].set_size(1 << 20);
        good[2].set_size(1 << 20);
        let (start, large) = (4, 4 + 3 * own);
        function::renew_info_offsets(&mut good, large);
        let end = written(&good, layout, start, large, 200).len();
        assert_eq!(end, 200);
        let refuse = |rows: &[FunctionRow], start, large, len| {
            let mut buffer = vec![7; len];
            let answer = function::write_functions_into(rows, layout, start, large, &mut buffer);
            assert!(buffer.iter().all(|&byte| byte == 7));
            refused(answer)
        };
        assert_eq!(refuse(&good, 201, large, 200), (Reason::PastEnd, 0));
        let before = (Reason::LargeBeforeEnd, 0);
        if layout == Layout::Legacy16 {
            assert_eq!(refuse(&good, start, large - 1, 200), before);
            assert_eq!(refuse(&good, start, large - 1, 20), before);
        }
        // Also where no row needs it, and for no rows.
        assert_eq!(refuse(&empty(layout, 3), start, large - 1, 200), before);
        assert_eq!(refuse(&[], start, 3, 200), before);
        assert_eq!(refuse(&good, start, large, large), (Reason::TooFewRows, 0));
        assert_eq!(refuse(&good, start, large, start), (Reason::TooFewRows, 0));

        let mut info = good.clone();
        info[2].set_info_offset(1);
        if layout == Layout::Modern12 {
            assert_eq!(refuse(&info, start, large, 200), (Reason::BadInfoOffset, 2));
            assert_eq!(refuse(&info, start, 0, 4), (Reason::BadInfoOffset, 1));
        }
        let other = LAYOUTS[1 - u32::from(layout) as usize];
        for (word, value) in [
            (0, other.into()),
            (1, 1),
            (8, 256),
            (10, 1 << 31),
            (15, 256),
        ] {
            // Word 10 of a modern row is no byte.
            if layout == Layout::Modern12 && word == 10 {
                continue;
            }
            // Row 2 is wrong, row 1 has no info_offset that it may have, and all that follows holds as well.
            let mut bad = info.clone();
            bad[1].set_info_offset(3);
            bad[2] = with(&bad[2], word, value);
            assert_eq!(
                refuse(&bad, start, 0, 4),
                (Reason::BadRow, 2),
                "word {word}"
            );
            bad[0].set_id(9);
            assert_eq!(refuse(&bad, start, large, 200), (Reason::BadRow, 0));
            assert_eq!(refuse(&bad, 5, 0, 4), (Reason::PastEnd, 0));
        }
    }
    // Whatever a legacy row has behind its fields is 0.
    for word in 12..PLACE {
        let bad = with(&empty(Layout::Legacy16, 1)[0], word, 1);
        let answer = function::write_functions_into(&[bad], Layout::Legacy16, 0, 16, &mut [7; 60]);
        assert_eq!(refused(answer), (Reason::BadRow, 0));
    }
    let mut long = vec![7; (1 << 30) + 1];
    let answer = function::write_functions_into(&[], Layout::Legacy16, 0, 0, &mut long);
    assert_eq!(refused(answer), (Reason::TooLong, 0));
}

/// A vector grows to what is written and no further, keeps what it has, and is as it was where the call is refused.
#[test]
fn a_vector_grows_as_it_must() {
    for layout in LAYOUTS {
        let (own, large) = (layout.header_size(), layout.large_header_size());
        let mut rows = empty(layout, 9);
        let inline = rows.clone();
        rows[3].set_frame_size(256);
        let place = 20 + 9 * own;
        function::renew_info_offsets(&mut rows, place);
        for before in [0, 20, place - 1, place, place + large, place + large + 50] {
            let mut bytes = vec![7; before];
            let end = function::write_functions(&rows, layout, 20, place, &mut bytes).unwrap();
            assert_eq!(
                (end, bytes.len()),
                (place + large, before.max(place + large))
            );
            let kept = before.min(20);
            assert!(bytes[..kept].iter().all(|&byte| byte == 7));
            assert!(bytes[kept..20].iter().all(|&byte| byte == 0));
            let table = function::read_functions(&bytes, layout, 20, 9).unwrap();
            assert_eq!(table[..], placed(&rows, layout, place));
            let mut again = vec![0; bytes.len()];
            assert_eq!(table.write_into(place, &mut again), Ok(end));

            // No row is large: it ends with the table, wherever large headers would go.
            let mut bytes = vec![7; before];
            let end = function::write_functions(&inline, layout, 20, usize::MAX, &mut bytes);
            assert_eq!((end, bytes.len()), (Ok(place), before.max(place)));

            let mut bytes = vec![7; before];
            let mut bad = rows.clone();
            bad[8].set_flags(256);
            let answers = [
                function::write_functions(&bad, layout, 20, place, &mut bytes),
                function::write_functions(&inline, layout, 20, place - 1, &mut bytes),
                function::write_functions(&inline, layout, usize::MAX, usize::MAX, &mut bytes),
            ];
            let reasons = answers.map(refused);
            let expected = [
                (Reason::BadRow, 8),
                (Reason::LargeBeforeEnd, 0),
                (Reason::PastEnd, 0),
            ];
            assert_eq!(reasons, expected);
            assert_eq!(bytes, vec![7; before]);
        }
        // A large header that would end past 2^30 bytes is refused, and no memory taken for it.
        let mut bytes = Vec::new();
        let mut rows = [rows[3]];
        rows[0].set_id(0);
        for place in [(1 << 30) + 1, 1 << 33, usize::MAX] {
            function::renew_info_offsets(&mut rows, place);
            let answer = function::write_functions(&rows, layout, 0, place, &mut bytes);
            let far = layout == Layout::Modern12 && place >= 1 << 32;
            let reason = if far {
                Reason::BadInfoOffset
            } else {
                Reason::TooFewRows
            };
            assert_eq!(refused(answer), (reason, 0), "{layout} {place}");
            assert!(bytes.is_empty() && bytes.capacity() < 1 << 20);
        }
    }
}

/// Rows of a real table edited by name: written, they are read back as they were edited.
#[test]
fn every_field_by_its_name() {
    for layout in LAYOUTS {
        let mut rows = empty(layout, 2);
        let row = &mut rows[1];
        for (set, value) in [
            (
                FunctionRow::set_offset as fn(&mut FunctionRow, u32),
                70_000_000,
            ),
            (FunctionRow::set_param_count, 200),
            (FunctionRow::set_size, 100_000),
            (FunctionRow::set_name, 300_000),
            (FunctionRow::set_frame_size, 1_000),
            (FunctionRow::set_flags, 0xFF),
        ] {
            set(row, value);
        }
        let rest = match layout {
            Layout::Legacy16 => Rest::Legacy16 {
                environment_size: 1_000,
                read_index: 255,
                write_index: 254,
            },
            Layout::Modern12 => Rest::Modern12 {
                loop_depth: 4,
                number_reg: 32,
                non_ptr_reg: 33,
                read_cache: 255,
                write_cache: 64,
                new_object: 2,
                private_name: 3,
            },
        };
        row.set_rest(rest);
        assert_eq!((row.rest(), row.layout()), (Some(rest), Some(layout)));
        function::renew_info_offsets(&mut rows, 40);
        let bytes = written(&rows, layout, 0, 40, 90);
        let row = function::read_function(&bytes, layout, 0, 1).unwrap();
        assert_eq!(
            (row.offset(), row.size(), row.name()),
            (70_000_000, 100_000, 300_000)
        );
        assert_eq!(
            (row.param_count(), row.frame_size(), row.flags()),
            (200, 1_000, 0xFF)
        );
        assert_eq!((row.rest(), rows[0].goes_inline()), (Some(rest), true));
    }
    // What a legacy row keeps of a modern one's fields is nothing.
    let mut row = empty(Layout::Modern12, 1)[0];
    row.set_rest(Rest::Modern12 {
        loop_depth: 1,
        number_reg: 2,
        non_ptr_reg: 3,
        read_cache: 4,
        write_cache: 5,
        new_object: 1,
        private_name: 1,
    });
    let rest = Rest::Legacy16 {
        environment_size: 6,
        read_index: 7,
        write_index: 8,
    };
    row.set_rest(rest);
    written(&[row], Layout::Legacy16, 0, 16, 16);
    // A row of no layout has no place.
    assert!(!FunctionRow::rows(&[7; ROW])[0].goes_inline());
}

/// Whatever the last word of a row is, the writer answers the same and leaves the same bytes, refused too; and what is read
/// back has the place where the large header went.
#[test]
fn the_last_word_is_not_looked_at() {
    for layout in LAYOUTS {
        let own = layout.header_size();
        let mut rows = empty(layout, 4);
        rows[1].set_size(1 << 20);
        rows[3].set_name(1 << 20);
        let large = 4 * own + 1;
        function::renew_info_offsets(&mut rows, large);
        let first = large.next_multiple_of(4) as u32;
        let second = first + layout.large_header_size().next_multiple_of(4) as u32;
        let bytes = written(&rows, layout, 0, large, 200);
        let again = function::read_functions(&bytes, layout, 0, 4).unwrap();
        let places = [None, Some(first), None, Some(second)];
        assert!(again.iter().map(FunctionRow::large_place).eq(places));

        // 0, its own place, another's, none, and numbers that are no places.
        let words = [0, 1, first, second, 1 << 30, u32::MAX - 1, function::INLINE];
        for word in words {
            for only in [None, Some(0), Some(1), Some(3)] {
                let mut other = rows.clone();
                for (id, row) in other.iter_mut().enumerate() {
                    if only.is_none_or(|only| only == id) {
                        *row = with(row, PLACE, word);
                        assert_eq!(row.goes_inline(), rows[id].goes_inline());
                    }
                }
                assert_eq!(written(&other, layout, 0, large, 200), bytes);
                let mut vector = Vec::new();
                let end = function::write_functions(&other, layout, 0, large, &mut vector).unwrap();
                assert_eq!(vector[..own], bytes[..own]);
                assert_eq!(end, vector.len());
                function::renew_info_offsets(&mut other, large);
                assert_eq!(records(&other), records(&rows));

                // What is refused is refused the same.
                let mut buffer = vec![7; end - 1];
                let short = function::write_functions_into(&other, layout, 0, large, &mut buffer);
                assert_eq!(refused(short), (Reason::TooFewRows, 0));
                other[2].set_flags(256);
                let bad = function::write_functions_into(&other, layout, 0, large, &mut buffer);
                assert_eq!(refused(bad), (Reason::BadRow, 2));
                assert!(buffer.iter().all(|&byte| byte == 7));
            }
        }
    }
}

/// A table that is read, written with its large headers elsewhere, and read: the records stay, the places are the new ones.
#[test]
fn a_table_moves_its_large_headers() {
    for layout in LAYOUTS {
        let own = layout.header_size();
        let mut rows = empty(layout, 3);
        rows[0].set_frame_size(1_000);
        rows[2].set_frame_size(1_000);
        let near = 3 * own;
        function::renew_info_offsets(&mut rows, near);
        let file = written(&rows, layout, 0, near, 200);
        let table = function::read_functions(&file, layout, 0, 3).unwrap();
        let mut rows = table.to_vec();
        for far in [500, 300] {
            function::renew_info_offsets(&mut rows, far);
            let mut file = file.clone();
            function::write_functions(&rows, layout, 0, far, &mut file).unwrap();
            let again = function::read_functions(&file, layout, 0, 3).unwrap();
            assert_eq!(records(&again), records(&rows));
            let moved = far as u32 + layout.large_header_size().next_multiple_of(4) as u32;
            let places = [Some(far as u32), None, Some(moved)];
            assert!(again.iter().map(FunctionRow::large_place).eq(places));
            assert!(again[1] == rows[1] && again[0] != rows[0]);
        }
    }
    // A row made by hand has no place, and is read back as it was made where it goes inline.
    let mut row = FunctionRow::default();
    row.set_size(77);
    let bytes = written(&[row], Layout::Legacy16, 0, 16, 16);
    let again = function::read_function(&bytes, Layout::Legacy16, 0, 0);
    assert_eq!((again, row.large_place()), (Ok(row), None));
    // Fields that are set leave the place as it was.
    let mut legacy = vec![0; 47];
    (legacy[0], legacy[15]) = (16, 0x20);
    let mut row = function::read_function(&legacy, Layout::Legacy16, 0, 0).unwrap();
    row.set_flags(1);
    row.set_rest(Rest::Legacy16 {
        environment_size: u32::MAX,
        read_index: u32::MAX,
        write_index: u32::MAX,
    });
    assert_eq!(row.large_place(), Some(16));
    row.set_rest(Rest::Modern12 {
        loop_depth: u32::MAX,
        number_reg: u32::MAX,
        non_ptr_reg: u32::MAX,
        read_cache: u32::MAX,
        write_cache: u32::MAX,
        new_object: u32::MAX,
        private_name: u32::MAX,
    });
    assert_eq!(row.large_place(), Some(16));
}

/// A word for each refusal of a writer, for whoever reads it.
#[test]
fn what_a_refusal_says() {
    let mut rows = empty(Layout::Modern12, 2);
    rows[1].set_size(1 << 14);
    let said = |rows: &[FunctionRow], start, large| {
        let answer =
            function::write_functions_into(rows, Layout::Modern12, start, large, &mut [0; 24]);
        answer.unwrap_err().to_string()
    };
    assert_eq!(
        said(&rows, 0, 24),
        "refused 14 at 1: row 1 needs a large header, and its info_offset is not the end of that, rounded up to a multiple of 4"
    );
    assert_eq!(
        said(&rows, 25, 24),
        "refused 2 at 0: the table's start is past the end of the buffer"
    );
    rows[1].set_info_offset(64);
    assert_eq!(
        said(&rows, 0, 24),
        "refused 4 at 0: the buffer ends before the headers and large headers to be written do"
    );
    rows[1].set_id(0);
    assert!(said(&rows, 0, 24).starts_with(
        "refused 13 at 1: row 1 has another layout than the table, another id than 1, "
    ));
    assert_eq!(
        said(&rows[..1], 0, 11),
        "refused 15 at 0: the place for large headers is before the end of the table"
    );
}
