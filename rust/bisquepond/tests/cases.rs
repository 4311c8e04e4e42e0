//! The worked cases P1 to P10 with the two others, every refusal that can be made, and counts that the bytes do not bear
//! out.

use bisquepond::debug::{self, CalleeRow, LentTables, NameRow, ScopeRow, TextRow};
use bisquepond::function::{self, FunctionRow, Ground, Rest, Totals};
use bisquepond::io::ByteReader;
use bisquepond::literal::{self, Literal, Objects};
use bisquepond::parsing::{self, HandlerRow, SectionCounts};
use bisquepond::table::{StringRow, Strings};
use bisquepond::{Layout, Reason, Refusal, Row};

const P1: [u8; 16] = [0, 1, 0, 4, 0x0A, 0x80, 1, 0, 0, 0, 0, 0x0A, 1, 2, 3, 4];
const P2: [u8; 12] = [0, 1, 0, 0x44, 0x0A, 0xC0, 0, 0x29, 6, 7, 0x48, 4];

/// The flag of a header that has a large one.
const OVERFLOW: u8 = 0x20;

/// A refusal's number and place, of a call that must be refused.
fn refused<T: std::fmt::Debug>(answer: Result<T, Refusal>) -> (u32, u32) {
    let refusal = answer.unwrap_err();
    (refusal.number, refusal.place)
}

const LAYOUTS: [Layout; 2] = [Layout::Legacy16, Layout::Modern12];

/// A file of so many zeros that begins with a header of that layout, flagged, whose fields pack a place.
fn flagged(layout: Layout, len: usize, offset: u32, packed: u8) -> Vec<u8> {
    let mut file = vec![0; len];
    file[..4].copy_from_slice(&offset.to_le_bytes());
    match layout {
        // info_offset, from bit 64 on
        Layout::Legacy16 => file[8] = packed,
        // name, from bit 46 on
        Layout::Modern12 => file[5..7].copy_from_slice(&[packed << 6, packed >> 2]),
    }
    file[layout.header_size() - 1] = OVERFLOW;
    file
}

/// A row of which info_offset and flags are set alone.
fn function_at(info_offset: u32, flags: u32) -> FunctionRow {
    let mut row = FunctionRow::default();
    row.set_info_offset(info_offset);
    row.set_flags(flags);
    row
}

#[test]
fn p1_a_legacy_header() {
    let row = function::read_function(&P1, Layout::Legacy16, 0, 0).unwrap();
    let words: Vec<u32> = row.fields().map(|(_, word)| word).collect();
    assert_eq!(words, [0, 256, 2, 10, 3, 0, 5, 4, 1, 2, 3]);
    assert_eq!(row.layout(), Some(Layout::Legacy16));
    assert_eq!(row.large_place(), None);
    let rest = Rest::Legacy16 {
        environment_size: 1,
        read_index: 2,
        write_index: 3,
    };
    assert_eq!(row.rest(), Some(rest));
}

#[test]
fn p2_a_modern_header() {
    let row = function::read_function(&P2, Layout::Modern12, 0, 0).unwrap();
    assert_eq!((row.offset(), row.param_count(), row.size()), (256, 2, 10));
    assert_eq!((row.name(), row.info_offset(), row.frame_size()), (3, 0, 6));
    assert_eq!((row.flags(), row.layout()), (4, Some(Layout::Modern12)));
    assert_eq!(row.large_place(), None);
    let rest = Rest::Modern12 {
        loop_depth: 1,
        number_reg: 4,
        non_ptr_reg: 5,
        read_cache: 7,
        write_cache: 8,
        new_object: 1,
        private_name: 0,
    };
    assert_eq!(row.rest(), Some(rest));
}

/// The large header is read at `place`, and the function meets its bytes and no others beyond its own header.
fn large_at(layout: Layout, mut file: Vec<u8>, place: usize) {
    file[place] = 9;
    let row = function::read_function(&file, layout, 0, 0).unwrap();
    assert_eq!((row.offset(), row.large_place()), (9, Some(place as u32)));
    let end = place + layout.large_header_size();
    let ground = function::function_ground(&file, layout, 0, 0).unwrap();
    assert_eq!((ground.header, ground.large), (0, Some(place)));
    let meets = |span| function::function_meets(&file, layout, 0, 0, span).unwrap();
    assert!(meets(place..place + 1) && meets(end - 1..end));
    assert!(!meets(layout.header_size()..place) && !meets(end..file.len()));
}

#[test]
fn p3_p4_packed_places() {
    // Added, the parts would be 131088.
    let legacy = flagged(Layout::Legacy16, 131_200, 65_552, 1);
    large_at(Layout::Legacy16, legacy, 65_552);
    let modern = flagged(Layout::Modern12, 16_777_300, 16_777_248, 1);
    large_at(Layout::Modern12, modern, 16_777_248);
}

#[test]
fn p5_large_headers_that_just_fit() {
    for (layout, place, fits, info) in [
        (Layout::Modern12, 12, 49, 52),
        (Layout::Legacy16, 16, 47, 0),
    ] {
        let file = flagged(layout, fits, place, 0);
        let table = function::read_functions(&file, layout, 0, 1).unwrap();
        assert_eq!((table.len(), table[0].info_offset()), (1, info));
        assert_eq!(table[0].large_place(), Some(place));
        let cut = function::read_functions(&file[..fits - 1], layout, 0, 1);
        assert_eq!(refused(cut), (3, 0));
    }
}

#[test]
fn p6_p7_strings() {
    let p6 = Strings {
        kinds: &[],
        small: &[3 << 1, 4 << 1],
        overflow: &[],
        storage: b"abcd",
    };
    let rows = p6.decode(2).unwrap();
    assert_eq!(rows.words(), [3, 0, 0, 0, 0, 0, 1, 0]);
    let p7 = Strings {
        kinds: &[1, 1 << 31, 1],
        small: &[1 << 24; 3],
        ..p6
    };
    let rows = p7.decode(3).unwrap();
    assert!(!rows[0].is_identifier() && rows[1].is_identifier() && !rows[2].is_identifier());
}

#[test]
fn p8_p9_series() {
    let p8 = [0x72, 5, 0, 0, 0, 0xFF, 0xFF, 0xFF, 0xFF, 0x11];
    let series = literal::read_series(&p8, 0, 3).unwrap();
    let values = [
        Literal::Integer(5),
        Literal::Integer(-1),
        Literal::Bool(true),
    ];
    assert_eq!((&series.values[..], series.used), (&values[..], &p8[..]));
    let series = literal::read_series(&[0x81, 0x02], 0, 258).unwrap();
    assert_eq!(
        (series.values, series.used.len()),
        (vec![Literal::Null; 258], 2)
    );
}

#[test]
fn p10_sleb128() {
    let read = |bytes: &[u8]| ByteReader::new(bytes).read_sleb128().unwrap();
    assert_eq!((read(&[0x80, 0x7F]), read(&[0x40])), (-128, -64));
    assert_eq!(read(&[[0x80; 9].as_slice(), &[2]].concat()), 0);
}

/// Every tenth byte behind nine bytes, against the number in 128 bits; a shorter number is always exact. The calls without
/// the mark read the same.
#[test]
fn which_leb128_numbers_are_exact() {
    for lead in [0x80, 0xFF, 0xA5] {
        for len in 1..=10 {
            for last in 0..128 {
                let mut bytes = vec![lead; len];
                bytes[len - 1] = last;
                let digits = bytes.iter().rev();
                let number = digits.fold(0u128, |sum, &byte| sum << 7 | u128::from(byte & 0x7F));
                let unused = 128 - 7 * len;
                let signed = (number << unused) as i128 >> unused;

                let mut reader = ByteReader::new(&bytes);
                let read = reader.read_uleb128_marked().unwrap();
                assert_eq!(read.value, number as u64);
                assert_eq!(read.exact, u128::from(read.value) == number);
                assert_eq!(read.exact, len < 10 || last <= 1);
                assert_eq!(read.if_exact(), read.exact.then_some(number as u64));
                assert_eq!(reader.position(), len);
                assert_eq!(ByteReader::new(&bytes).read_uleb128(), Ok(read.value));

                let mut reader = ByteReader::new(&bytes);
                let read = reader.read_sleb128_marked().unwrap();
                assert_eq!(read.value, signed as i64);
                assert_eq!(read.exact, i128::from(read.value) == signed);
                assert_eq!(read.exact, len < 10 || last == 0 || last == 0x7F);
                assert_eq!(reader.position(), len);
                assert_eq!(ByteReader::new(&bytes).read_sleb128(), Ok(read.value));
            }
        }
    }
}

#[test]
fn a_marked_read_is_refused_as_the_other_is() {
    let long = [0x80; 11];
    for at in 0..=12 {
        let reader = || ByteReader::at(&long, at);
        let (mut plain, mut marked) = (reader(), reader());
        let (a, b) = (plain.read_uleb128(), marked.read_uleb128_marked());
        assert_eq!((refused(a), plain), (refused(b), marked));
        let (mut plain, mut marked) = (reader(), reader());
        let (a, b) = (plain.read_sleb128(), marked.read_sleb128_marked());
        assert_eq!((refused(a), plain), (refused(b), marked));
        let (mut plain, mut marked) = (reader(), reader());
        let a = plain.read_length_prefixed_string();
        let b = marked.read_length_prefixed_string_marked();
        assert_eq!((refused(a), plain), (refused(b), marked));
    }
    // The length was read, and the bytes are too few.
    let mut reader = ByteReader::new(&[3, b'h', b'i']);
    let cut = reader.read_length_prefixed_string_marked();
    assert_eq!((refused(cut), reader.position()), ((3, 0), 1));
}

#[test]
fn a_cut_handler_and_a_padding_past_the_end() {
    let mut file = [0; 64];
    file[48] = 2;
    let functions = [function_at(45, 8)];
    assert!(
        parsing::read_handlers(&file, &functions, 1)
            .unwrap()
            .is_empty()
    );
    let counts = SectionCounts {
        storage: 1,
        ..SectionCounts::default()
    };
    assert_eq!(
        refused(parsing::trailing_sections(&[0; 10], 8, counts)),
        (2, 0)
    );
}

#[test]
fn every_kind_of_literal() {
    let bytes = [
        &[0x01, 0x11, 0x21, 0x31][..],
        &1.5f64.to_le_bytes(),
        &[
            0x41, 1, 0, 1, 0, 0x51, 2, 1, 0x61, 3, 0x71, 0xFE, 0xFF, 0xFF, 0xFF,
        ],
    ]
    .concat();
    let values = [
        Literal::Null,
        Literal::Bool(true),
        Literal::Bool(false),
        Literal::Number(1.5),
        Literal::String(65_537),
        Literal::String(258),
        Literal::String(3),
        Literal::Integer(-2),
    ];
    let series = literal::read_series(&bytes, 0, 8).unwrap();
    assert_eq!((&series.values[..], series.used), (&values[..], &bytes[..]));
    // A NaN of a series keeps its bits.
    let nan = [&[0x31][..], &0x7FF0_0000_0000_0001u64.to_le_bytes()].concat();
    let Literal::Number(read) = literal::read_series(&nan, 0, 1).unwrap().values[0] else {
        panic!("not a number");
    };
    assert_eq!(read.to_bits(), 0x7FF0_0000_0000_0001);
}

#[test]
fn one_literal_of_every_tag() {
    let bytes = [0xFE, 0xFF, 0xFF, 0xFF, 0, 0, 0xF8, 0x3F];
    let read = |tag: u8| {
        let mut reader = ByteReader::new(&bytes);
        (reader.read_literal(tag).unwrap(), reader.position())
    };
    assert_eq!(read(0x0F), (Literal::Null, 0));
    assert_eq!(read(0x91), (Literal::Bool(true), 0));
    assert_eq!(read(0x20), (Literal::Bool(false), 0));
    assert_eq!(read(0x30), (Literal::Number(f64::from_le_bytes(bytes)), 8));
    assert_eq!(read(0x40), (Literal::String(0xFFFF_FFFE), 4));
    assert_eq!(read(0x50), (Literal::String(0xFFFE), 2));
    assert_eq!(read(0x60), (Literal::String(0xFE), 1));
    assert_eq!(read(0x70), (Literal::Integer(-2), 4));
}

#[test]
fn the_part_that_is_used_is_the_chosen_buffers_own() {
    let objects = Objects {
        keys: &[9, 0x61, 7, 9],
        values: &[9, 9, 0x71, 1, 0, 0, 0],
    };
    let keys = objects.keys(1, 1).unwrap();
    assert!(std::ptr::eq(keys.used, &objects.keys[1..3]));
    let values = objects.values(2, 1).unwrap();
    assert!(std::ptr::eq(values.used, &objects.values[2..]));
    // For count 0 the empty beginning, at any offset.
    let none = objects.values(77, 0).unwrap();
    assert!(std::ptr::eq(none.used, &objects.values[..0]));
    assert_eq!(refused(objects.keys(4, 1)), (7, 0));
}

#[test]
fn refused_1_above_2_to_the_30() {
    let long = vec![0; (1 << 30) + 1];
    assert_eq!(refused(ByteReader::new(&long).read_u8()), (1, 0));
    assert_eq!(refused(ByteReader::new(&long).align(0)), (1, 0));
    assert_eq!(refused(ByteReader::new(&long).read_u32_table(1)), (1, 0));
    assert_eq!(refused(literal::read_series(&long, 0, 0)), (1, 0));
    for count in [0, 1, u32::MAX] {
        assert_eq!(
            refused(function::read_functions(&long, Layout::Legacy16, 0, count)),
            (1, 0)
        );
    }
    assert_eq!(refused(parsing::read_handlers(&long, &[], 1)), (1, 0));
    assert_eq!(
        refused(parsing::read_handlers(&long, &[FunctionRow::default()], 1)),
        (1, 0)
    );
    assert_eq!(
        refused(parsing::trailing_sections(
            &long,
            0,
            SectionCounts::default()
        )),
        (1, 0)
    );
    assert_eq!(refused(debug::read_debug(&long, 0)), (1, 0));
    let strings = Strings {
        kinds: &[],
        small: &[],
        overflow: &[],
        storage: &long,
    };
    assert_eq!(refused(strings.decode(0)), (1, 0));
    assert_eq!(refused(strings.decode_hermes(0)), (1, 0));
    let layout = Layout::Legacy16;
    let met = function::function_meets(&long, layout, 0, 0, 0..16);
    assert_eq!(refused(met), (1, 0));
    assert_eq!(
        refused(function::function_ground(&long, layout, 0, 0)),
        (1, 0)
    );
}

#[test]
fn refused_2_past_the_end() {
    assert_eq!(refused(ByteReader::new(&[1]).seek(2)), (2, 0));
    assert_eq!(refused(ByteReader::at(&[1], 1).align(2)), (2, 0));
    assert_eq!(refused(ByteReader::at(&[1], 2).read_bytes(0)), (2, 0));
    assert_eq!(
        refused(ByteReader::at(&[1], usize::MAX).read_u32_table(0)),
        (2, 0)
    );
    for count in [0, 1, u32::MAX] {
        assert_eq!(
            refused(function::read_functions(&P1, Layout::Legacy16, 17, count)),
            (2, 0)
        );
    }
    // The second function's large header would begin past the end.
    let file = [&P1[..], &flagged(Layout::Legacy16, 16, 33, 0)].concat();
    assert_eq!(
        refused(function::read_functions(&file, Layout::Legacy16, 0, 2)),
        (2, 1)
    );
    assert_eq!(
        refused(function::read_functions(
            &file,
            Layout::Legacy16,
            0,
            u32::MAX
        )),
        (2, 1)
    );
}

#[test]
fn refused_3_cut() {
    assert_eq!(refused(ByteReader::new(&[1]).read_u16()), (3, 0));
    assert_eq!(
        refused(ByteReader::new(&[1]).read_bytes(usize::MAX)),
        (3, 0)
    );
    let mut reader = ByteReader::new(&[0x80, 0x80]);
    assert_eq!(
        (refused(reader.read_uleb128()), reader.position()),
        ((3, 0), 2)
    );
    assert_eq!(refused(ByteReader::new(&[0; 11]).read_u32_table(3)), (3, 2));
    assert_eq!(
        refused(ByteReader::new(&[0; 15]).read_pair_table(2)),
        (3, 1)
    );
    assert_eq!(refused(literal::read_series(&[0x62, 1], 0, 2)), (3, 1));
    assert_eq!(refused(debug::read_debug(&[0; 28], 1)), (3, 0));
    let counts = SectionCounts {
        regexps: 1,
        ..SectionCounts::default()
    };
    assert_eq!(
        refused(parsing::trailing_sections(&[0; 7], 0, counts)),
        (3, 0)
    );
}

#[test]
fn refused_4_leaves_every_row() {
    let kept = FunctionRow::rows(&[7; 2 * FunctionRow::WORDS]);
    let mut rows = [kept[0], kept[1]];
    let two = function::read_functions_into(&[0; 48], Layout::Legacy16, 0, 3, &mut rows);
    assert_eq!(refused(two), (4, 0));
    let (layout, mut totals) = (Layout::Legacy16, Totals::of(kept));
    let two = function::refresh_functions(&[0; 48], layout, 0, 3, 0..1, &mut rows, &mut totals);
    assert_eq!((refused(two), &rows[..]), ((4, 0), kept));
    assert_eq!(totals, Totals::of(kept));
    let mut words = [7; 2];
    let three = ByteReader::new(&[0; 12]).read_u32_table_into(3, &mut words);
    assert_eq!((refused(three), words), ((4, 0), [7; 2]));
    let (mut kinds, mut payloads) = ([7; 2], [7; 1]);
    let two = literal::read_series_into(&[0x12], 0, 2, &mut kinds, &mut payloads);
    assert_eq!(refused(two), (4, 0));
    assert_eq!((kinds, payloads), ([7; 2], [7; 1]));
}

#[test]
fn refused_5_6_7_9_10_11() {
    let mut reader = ByteReader::new(&[0x80; 12]);
    assert_eq!(
        (refused(reader.read_uleb128()), reader.position()),
        ((5, 0), 10)
    );
    assert_eq!(refused(ByteReader::new(&[0x80; 12]).read_sleb128()), (5, 0));
    assert_eq!(refused(ByteReader::at(&[], 9).align(0)), (6, 0));
    assert_eq!(refused(literal::read_series(&[0x01], 1, 1)), (7, 0));
    let mut reader = ByteReader::new(b"ab");
    assert_eq!(
        (refused(reader.read_cstring()), reader.position()),
        ((9, 0), 2)
    );
    let mut table = function::read_functions(&P1, Layout::Legacy16, 0, 1).unwrap();
    let before = table.clone();
    let reversed = std::ops::Range { start: 3, end: 2 };
    assert_eq!(refused(table.refresh(&P1, reversed)), (10, 0));
    assert_eq!(refused(table.refresh(&P1, 0..17)), (10, 0));
    assert_eq!(table, before);
    assert_eq!(refused(parsing::read_handlers(&P1, &table, 2)), (11, 0));
}

#[test]
fn refused_8_no_pair_is_left() {
    let strings = Strings {
        kinds: &[],
        small: &[255 << 24, 255 << 24],
        overflow: &[[0, 1]],
        storage: b"a",
    };
    let refusal = strings.decode(2).unwrap_err();
    assert_eq!((refusal.number, refusal.place), (8, 1));
    assert_eq!(
        refusal.to_string(),
        "refused 8 at 1: string 1 needs an overflow entry and none is left"
    );
    let mut rows = [StringRow::default(); 1];
    assert_eq!(strings.decode_into(1, &mut rows).unwrap()[0].byte_len(), 1);
}

/// The pair that the field names: in any order, shared, left out; the last one that there is, and one past it.
#[test]
fn hermes_pairs_by_number() {
    let long = |number: u32| number << 1 | 255 << 24;
    let small = [long(2), long(0), 3 << 1 | 1 << 24, long(2), long(2) | 1];
    let strings = Strings {
        kinds: &[],
        small: &small,
        overflow: &[[0, 1], [0, 0], [1, 2]],
        storage: b"abcdefgh",
    };
    let rows = strings.decode_hermes(9).unwrap();
    let words: [[u32; 4]; 5] = [
        [1, 2, 0, 0],
        [0, 1, 0, 0],
        [3, 1, 0, 0],
        [1, 2, 0, 0],
        [1, 4, 0, 1],
    ];
    assert_eq!(rows.words(), words.as_flattened());
    assert_eq!(refused(strings.decode(5)), (8, 4));
    for (number, pairs) in [(3, 3), ((1 << 23) - 1, 3), (0, 0)] {
        let past = Strings {
            small: &[1 << 24, long(number)],
            overflow: &strings.overflow[..pairs],
            ..strings
        };
        let refusal = past.decode_hermes(2).unwrap_err();
        assert_eq!((refusal.number, refusal.place), (8, 1));
        assert_eq!(
            refusal.to_string(),
            "refused 8 at 1: string 1 names an overflow entry whose number is past those lent"
        );
        assert_eq!(past.decode_hermes(1).unwrap().len(), 1);
    }
}

/// An empty run names no string, wherever it stands; past the last run a string is plain.
#[test]
fn hermes_empty_runs() {
    const IDENTIFIER: u32 = 1 << 31;
    let marked = |kinds: &[u32]| {
        let strings = Strings {
            kinds,
            small: &[1 << 24; 4],
            overflow: &[],
            storage: b"a",
        };
        let rows = strings.decode_hermes(4).unwrap();
        [0, 1, 2, 3].map(|i| rows[i].is_identifier())
    };
    let runs = [IDENTIFIER + 2, 1];
    assert_eq!(marked(&runs), [true, true, false, false]);
    for place in 0..=2 {
        for empty in [&[0][..], &[IDENTIFIER], &[0, IDENTIFIER, 0]] {
            let with = [&runs[..place], empty, &runs[place..]].concat();
            assert_eq!(marked(&with), marked(&runs), "{with:x?}");
        }
    }
    assert_eq!(marked(&[]), [false; 4]);
    assert_eq!(marked(&[IDENTIFIER; 9]), [false; 4]);
    // P7, which the old mode reads as plain, identifier, plain.
    assert_eq!(marked(&[1, IDENTIFIER, 1]), [false; 4]);
    // Lengths that add up to more than 2^32.
    let most = IDENTIFIER - 1;
    assert_eq!(marked(&[0, u32::MAX, most, most]), [true; 4]);
}

/// 1 before 4 before 8, and nothing written; where the pairs are in order and no run is empty, both modes are one.
#[test]
fn hermes_refusals_and_both_modes() {
    let before = StringRow::rows(&[7; 8]);
    let strings = Strings {
        kinds: &[1, 1 << 31 | 1],
        small: &[255 << 24, 1 << 1 | 255 << 24],
        overflow: &[[0, 1]],
        storage: b"ab",
    };
    let mut rows = [before[0]; 2];
    assert_eq!(
        refused(strings.decode_hermes_into(2, &mut rows[..1])),
        (4, 0)
    );
    assert_eq!(refused(strings.decode_hermes_into(2, &mut rows)), (8, 1));
    assert_eq!(rows, before);
    let both = Strings {
        overflow: &[[0, 1], [1, 1]],
        ..strings
    };
    let (hermes, in_order) = (both.decode_hermes(2).unwrap(), both.decode(2).unwrap());
    assert_eq!(hermes.words(), in_order.words());
    assert_eq!(hermes.words(), [0, 1, 0, 0, 1, 1, 0, 2]);
}

/// A header that is not flagged has no large one, whatever its offset says; a flagged one has it where its fields say.
#[test]
fn ground_of_both_kinds() {
    for layout in [Layout::Legacy16, Layout::Modern12] {
        let mut file = flagged(layout, 64, 40, 0);
        let ground = |file: &[u8], id| function::function_ground(file, layout, 0, id);
        let second = layout.header_size();
        assert_eq!(
            ground(&file, 0),
            Ok(Ground {
                header: 0,
                large: Some(40)
            })
        );
        assert_eq!(
            ground(&file, 1),
            Ok(Ground {
                header: second,
                large: None
            })
        );
        file[second - 1] = 0;
        assert_eq!(
            ground(&file, 0),
            Ok(Ground {
                header: 0,
                large: None
            })
        );
    }
}

/// Whoever asks what a function is read from, or whether it meets a span, is told where that is no question.
#[test]
fn ground_and_span_are_refused() {
    let layout = Layout::Legacy16;
    let meets = |start, id, low, high| {
        let span = std::ops::Range {
            start: low,
            end: high,
        };
        function::function_meets(&P1, layout, start, id, span)
    };
    let ground = |start, id| function::function_ground(&P1, layout, start, id);
    assert_eq!(meets(0, 0, 15, 16), Ok(true));
    assert_eq!(meets(0, 0, 16, 16), Ok(false));
    assert_eq!(
        (refused(meets(17, 0, 3, 2)), refused(ground(17, 0))),
        ((2, 0), (2, 0))
    );
    assert_eq!(
        (refused(meets(0, 9, 3, 2)), refused(meets(0, 9, 0, 17))),
        ((10, 0), (10, 0))
    );
    assert_eq!(
        (refused(meets(0, 9, 0, 16)), refused(ground(0, 9))),
        ((3, 9), (3, 9))
    );
    assert_eq!(
        (refused(meets(16, 0, 0, 16)), refused(ground(1, 0))),
        ((3, 0), (3, 0))
    );
}

/// A count that the bytes do not bear out is refused as the lent form refuses it, and costs no memory.
#[test]
fn counts_of_any_size() {
    for layout in [Layout::Legacy16, Layout::Modern12] {
        let file = vec![0; layout.header_size() * 5 + 3];
        for count in [6, 7, 1 << 20, u32::MAX] {
            assert_eq!(
                refused(function::read_functions(&file, layout, 0, count)),
                (3, 5)
            );
            assert_eq!(
                refused(function::read_functions(&file, layout, 3, count)),
                (3, 5)
            );
            assert_eq!(
                refused(function::read_functions(&file, layout, 4, count)),
                (3, 4)
            );
        }
        assert_eq!(
            function::read_functions(&file, layout, 3, 5).unwrap().len(),
            5
        );
    }
    for count in [3, 4, u32::MAX] {
        assert_eq!(
            refused(ByteReader::new(&[0; 11]).read_u32_table(count)),
            (3, 2)
        );
        assert_eq!(
            refused(ByteReader::new(&[0; 23]).read_pair_table(count)),
            (3, 2)
        );
        assert_eq!(refused(literal::read_series(&[0x12], 0, count)), (3, 2));
    }
}

/// Tables that are read in more than one go are as those that are read in one.
#[test]
fn series_longer_than_the_first_go() {
    for count in [4095u32, 4096, 4097, 8192, 8193, 20_000] {
        // Tags of 1000 string numbers of two bytes each, then what is left.
        let mut bytes = Vec::new();
        for begin in (0..count).step_by(1000) {
            let run = (count - begin).min(1000);
            bytes.extend([0xD0 | (run >> 8) as u8, run as u8]);
            bytes.extend((begin..begin + run).flat_map(|i| (i as u16).to_le_bytes()));
        }
        let series = literal::read_series(&bytes, 0, count).unwrap();
        assert_eq!(series.used, bytes);
        assert!(
            series
                .values
                .iter()
                .copied()
                .eq((0..count).map(Literal::String))
        );
        let cut = literal::read_series(&bytes[..bytes.len() - 1], 0, count);
        assert_eq!(refused(cut), (3, count - 1));
        let (mut kinds, mut payloads) = (vec![0; 20_000], vec![0; 20_000]);
        let lent = literal::read_series_into(&bytes, 0, count, &mut kinds, &mut payloads).unwrap();
        assert!(lent.values.eq(series.values) && lent.used == bytes);
    }
}

#[test]
fn handlers_that_functions_share() {
    // 1000 handlers, the most that a function can have, at byte 4.
    let mut file = vec![0; 8 + 12_000];
    file[4..8].copy_from_slice(&1000u32.to_le_bytes());
    for (i, handler) in file[8..].chunks_exact_mut(12).enumerate() {
        handler[..4].copy_from_slice(&(i as u32).to_le_bytes());
    }
    let mut functions = [8, 0, 8].map(|flags| function_at(4, flags));
    functions.iter_mut().for_each(|row| row.set_id(9));
    let functions = &functions;
    let handlers = parsing::read_handlers(&file, functions, 3).unwrap();
    assert_eq!(handlers.len(), 2000);
    assert_eq!((handlers[999].function(), handlers[999].start()), (0, 999));
    assert_eq!((handlers[1000].function(), handlers[1000].start()), (2, 0));
    // Exactly so many rows are needed.
    let mut rows = vec![HandlerRow::default(); 2000];
    assert_eq!(
        parsing::read_handlers_into(&file, functions, 3, &mut rows).unwrap(),
        &handlers[..]
    );
    assert_eq!(
        refused(parsing::read_handlers_into(
            &file,
            functions,
            3,
            &mut rows[..1999]
        )),
        (4, 0)
    );
}

/// A debug section at byte 1 of these three parts.
fn section(scopes: &[u8], callees: &[u8], strings: &[u8]) -> Vec<u8> {
    let (a, b) = (scopes.len(), scopes.len() + callees.len());
    let words = [0, 0, 0, 0, a, b, b + strings.len()];
    let mut file = vec![0];
    file.extend(
        words
            .into_iter()
            .flat_map(|word| (word as u32).to_le_bytes()),
    );
    [&file[..], scopes, callees, strings].concat()
}

#[test]
fn debug_sections_of_any_size() {
    for n in [0, 1, 63, 64, 65, 5_000] {
        // As many rows as there can be for the bytes: empty strings, and scopes without names.
        let file = section(&vec![0; 3 * n], &[], &vec![0; n]);
        let debug = debug::read_debug(&file, 1).unwrap();
        assert_eq!((debug.strings.len(), debug.scopes.len()), (n, n));
        assert_eq!((debug.names.len(), debug.callees.len()), (0, 0));
        let (mut strings, mut scopes) = (vec![TextRow::default(); n], vec![ScopeRow::default(); n]);
        let mut lent = LentTables {
            strings: &mut strings,
            scopes: &mut scopes,
            names: &mut [],
            callees: &mut [],
        };
        assert_eq!(
            debug::read_debug_into(&file, 1, &mut lent).unwrap(),
            debug.rows()
        );
        if n > 0 {
            lent.strings = &mut [];
            assert_eq!(refused(debug::read_debug_into(&file, 1, &mut lent)), (4, 0));
        }
    }
    // One scope of many names, and names that are not there.
    let names = vec![0; 2_000];
    let count = [0xD0, 0x0F];
    let file = section(
        &[&[0x7F, 3][..], &count, &names].concat(),
        &[1, 5, 0],
        b"\x01x",
    );
    let debug = debug::read_debug(&file, 1).unwrap();
    let rows = debug.rows();
    assert_eq!((rows.scopes[0].flags(), rows.scopes[0].parent()), (3, None));
    assert_eq!(rows.names_of(0).len(), 2_000);
    assert!(rows.names_of(0).iter().all(|name| name.string() == Some(0)));
    assert_eq!(
        (rows.callees[0].address(), rows.callees[0].string()),
        (5, 0)
    );
    assert_eq!(rows.strings[0].bytes(&file), b"x");
    for offset in [0, u32::MAX, file.len() as u32] {
        let none = debug::read_debug(&file, offset).unwrap();
        assert!(none.rows().strings.is_empty() && none.rows().scopes.is_empty());
    }
}

/// A number in ten bytes, the last of them this.
fn ten(low: u8, last: u8) -> Vec<u8> {
    [&[low | 0x80][..], &[0x80; 8], &[last]].concat()
}

/// Whether a section of these parts is exact, by both calls.
fn exact(scopes: &[u8], callees: &[u8], strings: &[u8]) -> bool {
    let file = section(scopes, callees, strings);
    let debug = debug::read_debug(&file, 1).unwrap();
    let mut lent = LentTables {
        strings: &mut [TextRow::default(); 9],
        scopes: &mut [ScopeRow::default(); 9],
        names: &mut [NameRow::default(); 9],
        callees: &mut [CalleeRow::default(); 9],
    };
    let rows = debug::read_debug_into(&file, 1, &mut lent).unwrap();
    assert_eq!(rows, debug.rows());
    debug.exact
}

#[test]
fn which_debug_sections_are_exact() {
    let none: &[u8] = &[];
    assert!(exact(none, none, none));
    assert!(exact(
        &[&[0x7F, 0, 1][..], &ten(0, 0)].concat(),
        &[1, 5, 0],
        &ten(0, 1)
    ));
    // Each of a scope's four numbers and of a callee's three in ten bytes, exact, and with bits lost.
    let lost = |low| ten(low, 2);
    let scope = |place: usize, number: Vec<u8>| {
        let mut numbers = [vec![0x7F], vec![0], vec![1], vec![0]];
        numbers[place] = number;
        numbers.concat()
    };
    let callee = |place: usize, number: Vec<u8>| {
        let mut numbers = [vec![1], vec![5], vec![0]];
        numbers[place] = number;
        numbers.concat()
    };
    for place in 0..4 {
        assert!(exact(&scope(place, ten(0, 0x7F)), none, none));
        // With names that a string has, and with such as none has; counts of none, of one, and above the bytes left.
        assert!(!exact(&scope(place, lost(0)), none, &[0]));
        assert!(!exact(&scope(place, lost(1)), none, none));
        assert!(!exact(&scope(place, lost(9)), none, none));
    }
    for place in 0..3 {
        assert!(exact(none, &callee(place, ten(0, 0)), &[0]));
        assert!(!exact(none, &callee(place, lost(0)), &[0]));
        assert!(!exact(none, &callee(place, lost(1)), none));
        assert!(!exact(none, &callee(place, lost(9)), none));
    }
    // The length of a string, of the last one, and of one that is cut.
    assert!(!exact(none, none, &[&lost(1)[..], b"x\x01y"].concat()));
    assert!(!exact(none, none, &[b"\x01y", &lost(1)[..], b"x"].concat()));
    assert!(!exact(none, none, &lost(1)));
    // A scope that is given up, and a callee whose name is not there.
    assert!(!exact(&[&[0][..], &lost(0)].concat(), none, none));
    assert!(!exact(none, &[&[1][..], &lost(0)].concat(), none));
    // Eleven bytes are no number, and behind an address that fails no name is read.
    let eleven = [0xFF; 10];
    assert!(exact(&eleven, &eleven, &eleven));
    let unread = [&[9][..], &eleven, &lost(0)].concat();
    assert!(exact(none, &unread, none));
    // No debug information.
    let file = section(&lost(0), none, none);
    for offset in [0, u32::MAX, file.len() as u32] {
        assert!(debug::read_debug(&file, offset).unwrap().exact);
    }
    // A part that is outside the data, or reversed, is not read.
    for (word, number) in [(3, 99), (4, 99), (6, 98)] {
        let mut file = file.clone();
        file[1 + 4 * word] = number;
        assert!(debug::read_debug(&file, 1).unwrap().exact);
    }
    assert!(!debug::read_debug(&file, 1).unwrap().exact);
}

/// Rows and words are the same memory, in both directions.
#[test]
fn rows_are_words() {
    let mut words: Vec<u32> = (0..13).collect();
    assert_eq!(HandlerRow::rows(&words).len(), 3);
    assert_eq!(HandlerRow::rows(&words)[2].target(), 11);
    let last = HandlerRow::rows(&words)[2];
    HandlerRow::rows_mut(&mut words)[0] = last;
    assert_eq!(words, [8, 9, 10, 11, 4, 5, 6, 7, 8, 9, 10, 11, 12]);
    assert!(ScopeRow::rows(&[1, 2, 3, 4]).is_empty() && CalleeRow::rows(&[]).is_empty());
    let sizes = [
        FunctionRow::WORDS,
        StringRow::WORDS,
        HandlerRow::WORDS,
        TextRow::WORDS,
    ];
    assert_eq!(sizes, [17, 4, 4, 2]);
    assert_eq!(
        [ScopeRow::WORDS, NameRow::WORDS, CalleeRow::WORDS],
        [5, 1, 2]
    );
}

/// A table that follows edits is what a fresh read gives, edit after edit, and names each function that was met.
#[test]
fn a_refresh_is_a_fresh_read() {
    let layout = Layout::Legacy16;
    // Three functions; the second one's large header is far from the table.
    let mut file = [&P1[..], &flagged(layout, 16, 4_000, 0), &P1].concat();
    file.resize(4_031, 0);
    let mut table = function::read_functions(&file, layout, 0, 3).unwrap();
    for (at, byte, met) in [
        (4_008, 77, 1),
        (3_999, 77, 0),
        (0, 5, 1),
        (20, 1, 1),
        // the flag of the third, whose place is then 256: its header was there already
        (47, OVERFLOW, 1),
        (256, 3, 1),
    ] {
        let met_by = (0..3).filter(|&id| {
            let meets = |file| function::function_meets(file, layout, 0, id, at..at + 1);
            let before = meets(&file).unwrap();
            let mut after = file.clone();
            after[at] = byte;
            before || meets(&after).unwrap()
        });
        assert_eq!(met_by.count(), met);
        file[at] = byte;
        let again = table.refresh(&file, at..at + 1).unwrap();
        assert_eq!(again.len(), met);
        let meets = |id: &u32| function::function_meets(&file, layout, 0, *id, at..at + 1).unwrap();
        assert!(again.eq((0..3).filter(meets)));
        assert_eq!(
            table,
            function::read_functions(&file, layout, 0, 3).unwrap()
        );
    }
}

/// The words of P1 to P5 as they are in C, the last one of each with them, by a table and by the call for one function.
#[test]
fn worked_cases_word_by_word() {
    const INLINE: u32 = 0xFFFF_FFFF;
    let p1 = [0, 0, 256, 2, 10, 3, 0, 5, 4, 1, 2, 3, 0, 0, 0, 0, INLINE];
    let p2 = [1, 0, 256, 2, 10, 3, 0, 6, 4, 1, 4, 5, 7, 8, 1, 0, INLINE];
    let large = |layout: Layout, offset, info_offset, place| {
        let mut words = [0; 17];
        (words[0], words[2], words[6]) = (layout.into(), offset, info_offset);
        words[16] = place;
        words
    };
    let (legacy, modern) = (Layout::Legacy16, Layout::Modern12);
    let mut p3 = flagged(legacy, 65_552 + 31, 65_552, 1);
    let mut p4 = flagged(modern, 16_777_248 + 37, 16_777_248, 1);
    (p3[65_552], p4[16_777_248]) = (7, 7);
    for (layout, file, words) in [
        (legacy, P1.to_vec(), p1),
        (modern, P2.to_vec(), p2),
        (legacy, p3, large(legacy, 7, 0, 65_552)),
        (modern, p4, large(modern, 7, 16_777_288, 16_777_248)),
        (legacy, flagged(legacy, 47, 16, 0), large(legacy, 0, 0, 16)),
        (modern, flagged(modern, 49, 12, 0), large(modern, 0, 52, 12)),
    ] {
        let table = function::read_functions(&file, layout, 0, 1).unwrap();
        assert_eq!(table.words(), words);
        let row = function::read_function(&file, layout, 0, 0).unwrap();
        assert_eq!((row, row.record()), (table[0], &words[..16]));
        let place = words[16];
        assert_eq!(row.large_place(), (place != INLINE).then_some(place));
    }
    assert_eq!(function::INLINE, INLINE);
}

/// The place is the one packed into the function's own header, whatever the large header's flags are; and it is that of
/// each function by itself.
#[test]
fn each_row_has_its_own_place() {
    for layout in LAYOUTS {
        let (own, large) = (layout.header_size(), layout.large_header_size());
        // Function 0 behind the table, 2 at byte 0, 3 in the table, 4 where the file ends; 1 has none.
        let len = 5 * own + large + 9;
        let places = [Some(5 * own + 3), None, Some(0), Some(7), Some(len - large)];
        let mut file = vec![0; len];
        for (header, place) in file.chunks_exact_mut(own).zip(places) {
            if let Some(place) = place {
                header.copy_from_slice(&flagged(layout, own, place as u32, 0));
            }
        }
        for flags in [0, OVERFLOW] {
            file[len - 1] = flags;
            let table = function::read_functions(&file, layout, 0, 5).unwrap();
            for ((row, place), id) in table.iter().zip(places).zip(0..) {
                assert_eq!(row.large_place(), place.map(|place| place as u32));
                let one = function::read_function(&file, layout, 0, id).unwrap();
                let ground = function::function_ground(&file, layout, 0, id).unwrap();
                assert_eq!((one, ground.large), (*row, place));
            }
            assert_eq!(table[4].is_overflowed(), flags == OVERFLOW);
        }
    }
}

/// A function that gets a large header has its place after the refresh, one that loses it has none; one whose large header
/// moves has the new place, and one whose large header is edited keeps it. Rows that are not met keep their words.
#[test]
fn a_refresh_brings_the_place_up_to_date() {
    for layout in LAYOUTS {
        let own = layout.header_size();
        let mut file = vec![0; 3 * own + 60];
        let mut table = function::read_functions(&file, layout, 0, 3).unwrap();
        let (place, flag) = (own, 2 * own - 1); // of function 1: the lowest byte of its offset, and its flags
        let far = (3 * own) as u8;
        let edits = [
            (place, far, None),
            (flag, OVERFLOW, Some(far)),
            (place, far + 5, Some(far + 5)),
            (far as usize + 5, 77, Some(far + 5)), // its offset, in the large header
            (flag, 0, None),
            (flag, OVERFLOW, Some(far + 5)),
            (flag, 0x1F, None),
        ];
        for (at, byte, now) in edits {
            let before = [table[0], table[2]];
            file[at] = byte;
            let again: Vec<u32> = table.refresh(&file, at..at + 1).unwrap().collect();
            assert_eq!(again, [1]);
            assert_eq!(table[1].large_place(), now.map(u32::from), "{layout} {at}");
            assert_eq!([table[0], table[2]], before);
            let fresh = function::read_functions(&file, layout, 0, 3).unwrap();
            assert_eq!((&table, table.words()), (&fresh, fresh.words()));
        }
        // A refresh that is refused leaves the place too.
        file[flag] = OVERFLOW;
        assert_eq!(table.refresh(&file, flag..=flag).unwrap().len(), 1);
        let kept = table[1];
        assert_eq!(kept.large_place(), Some(u32::from(far) + 5));
        file[place] = 0xFF;
        assert_eq!(refused(table.refresh(&file, place..=place)), (2, 1));
        assert_eq!(table[1], kept);
    }
}

/// Bit 24 of a modern offset is no part of the place; of a legacy one it is, and is set once where info_offset has it too.
#[test]
fn bits_of_a_place() {
    let modern = flagged(Layout::Modern12, 100, 1 << 24 | 40, 0);
    let row = function::read_function(&modern, Layout::Modern12, 0, 0).unwrap();
    assert_eq!(row.large_place(), Some(40));
    let mut legacy = flagged(Layout::Legacy16, (3 << 16) + 71, 1 << 16 | 40, 3);
    legacy[(3 << 16) + 40] = 9;
    let row = function::read_function(&legacy, Layout::Legacy16, 0, 0).unwrap();
    assert_eq!((row.large_place(), row.offset()), (Some((3 << 16) + 40), 9));
}

/// Whatever words are lent: a row that is not met keeps all of its words, so do the words behind the rows, and a call that
/// is refused leaves every word.
#[test]
fn words_that_stay() {
    for layout in LAYOUTS {
        let own = layout.header_size();
        // Function 1 of three has a large header behind the table.
        let mut file = vec![0; 3 * own + 50];
        let large = flagged(layout, own, 3 * own as u32, 0);
        file[own..2 * own].copy_from_slice(&large);
        let before: Vec<u32> = (0..3 * FunctionRow::WORDS as u32 + 5)
            .map(|i| i + 900)
            .collect();
        let row = |words: &[u32], id: usize| {
            words[id * FunctionRow::WORDS..][..FunctionRow::WORDS].to_vec()
        };
        let fresh = function::read_functions(&file, layout, 0, 3).unwrap();

        let mut words = before.clone();
        let rows = FunctionRow::rows_mut(&mut words);
        let (span, mut totals) = (own..own + 1, Totals::of(rows));
        let again = function::refresh_functions(&file, layout, 0, 3, span, rows, &mut totals);
        assert_eq!((again, totals), (Ok(1), Totals::of(rows)));
        assert_eq!(row(&words, 0), row(&before, 0));
        assert_eq!(row(&words, 1), row(fresh.words(), 1));
        assert_eq!(
            words[2 * FunctionRow::WORDS..],
            before[2 * FunctionRow::WORDS..]
        );

        let mut words = before.clone();
        let rows = FunctionRow::rows_mut(&mut words);
        function::read_functions_into(&file, layout, 0, 2, rows).unwrap();
        let read = 2 * FunctionRow::WORDS;
        assert_eq!(words[..read], fresh.words()[..read]);
        assert_eq!(words[read..], before[read..]);

        // The large header is cut.
        let mut words = before.clone();
        let rows = FunctionRow::rows_mut(&mut words);
        let cut = &file[..3 * own + 20];
        let read = function::read_functions_into(cut, layout, 0, 3, rows);
        assert_eq!(refused(read.map(|(rows, _)| rows.len())), (3, 1));
        let mut totals = Totals::default();
        let again = function::refresh_functions(cut, layout, 0, 3, .., rows, &mut totals);
        assert_eq!((refused(again), words), ((3, 1), before));
        assert_eq!(totals, Totals::default());
    }
}

/// So many words are as many rows as 17 goes into them: what a row less is lent is refused, by each call that is lent rows
/// or given them. 16 words are no row.
#[test]
fn words_that_make_no_row() {
    use bisquepond::sys::{
        hbc_read_function, hbc_read_functions, hbc_read_handlers, hbc_refresh_functions,
        hbc_why_no_handlers, hbc_write_functions,
    };
    const ROW: usize = FunctionRow::WORDS;
    let file = [0; 64];
    let (s, len) = (file.as_ptr(), file.len());
    for words in 0..=4 * ROW {
        let rows = (words / ROW) as u32;
        for count in 0..=4 {
            // Zeros are a good legacy row but for their number.
            let mut lent: Vec<u32> = vec![0; words];
            (lent.chunks_exact_mut(ROW).zip(0..)).for_each(|(row, id)| row[1] = id);
            let (table, enough) = (lent.as_mut_ptr(), count <= rows);
            let (mut total, mut handlers, mut buffer) = (0, 9, [7; 64]);
            let (bytes, none) = (buffer.as_mut_ptr(), [0; 0].as_mut_ptr());
            let (mut a, mut b) = (0, 0);
            let (large, sizes) = (&mut a, &mut b);
            let codes = unsafe {
                [
                    hbc_read_functions(s, len, 0, 0, count, table, words, large, sizes),
                    hbc_refresh_functions(s, len, 0, 0, count, 0, 64, table, words, large, sizes),
                    hbc_write_functions(table, words, 0, 0, count, 64, bytes, 64),
                    hbc_read_handlers(s, len, table, words, count, none, 0, &mut total),
                    hbc_why_no_handlers(s, len, table, words, count, &mut handlers),
                    hbc_read_function(s, len, 0, 0, 3, table, words),
                ]
            };
            let told = |accepted: bool, answer, refusal: u64| match accepted {
                true => u64::from(answer),
                false => refusal << 32,
            };
            let expected = [
                told(enough, count, 4),
                told(enough, count, 4),
                told(enough, 16 * count, 11),
                told(enough, 0, 11),
                told(count < rows, 1, 11), // the flag is clear
                told(rows > 0, 1, 4),
            ];
            assert_eq!(codes, expected, "{words} words, {count} functions");
        }
    }
}

/// Six legacy functions and a large header at byte 200 of 240, which none has yet.
fn six() -> Vec<u8> {
    let mut file = P1.repeat(6);
    file.resize(240, 0);
    file
}

/// The table after a refused refresh, a small one that is accepted, and a look at what a fresh read gives.
fn after_refusal(refused: impl Fn(&mut Vec<u8>) -> (std::ops::Range<usize>, Reason)) {
    let layout = Layout::Legacy16;
    let mut file = six();
    let mut table = function::read_functions(&file, layout, 0, 6).unwrap();
    let before = table.clone();
    let (span, reason) = refused(&mut file);
    let refusal = table.refresh(&file, span).unwrap_err();
    assert_eq!((refusal.reason(), table == before), (reason, true));
    // What made it refused is undone, and a byte of function 5 changes; the edit of function 1 stays.
    file[31] = P1[15];
    file[84] = 99;
    let again: Vec<u32> = table.refresh(&file, 84..85).unwrap().collect();
    assert!(again.contains(&1) && again.contains(&5));
    assert_eq!(table.pending(), None);
    assert_eq!(
        table,
        function::read_functions(&file, layout, 0, 6).unwrap()
    );
    assert_eq!((table[1].size(), table[5].size()), (77, 99));
}

/// Without the memory of what was refused, function 1 would keep its old size after the second refresh.
#[test]
fn what_was_refused_is_not_forgotten() {
    after_refusal(|file| {
        // A new size, and a large header at byte 256, past the end.
        (file[20], file[31]) = (77, OVERFLOW);
        (20..32, Reason::PastEnd)
    });
    // The same bytes, named by a span that goes past the end.
    after_refusal(|file| {
        file[20] = 77;
        (20..241, Reason::BadSpan)
    });
    // And by one that is reversed.
    after_refusal(|file| {
        file[20] = 77;
        (std::ops::Range { start: 32, end: 20 }, Reason::BadSpan)
    });
}

/// Every refresh of many random edits, some of them refused: a table that was accepted is what a fresh read gives.
#[test]
fn random_edits_with_refusals() {
    let layout = Layout::Legacy16;
    let (mut file, mut state) = (six(), 1u64);
    let mut table = function::read_functions(&file, layout, 0, 6).unwrap();
    let mut random = |bound: usize| {
        state = state
            .wrapping_mul(6_364_136_223_846_793_005)
            .wrapping_add(1_442_695_040_888_963_407);
        (state >> 33) as usize % bound
    };
    let (mut accepted, mut refused) = (0, 0);
    for _ in 0..4_000 {
        // Mostly the flags and the places of large headers, which decide what is refused.
        let at = [16 * random(6) + 15, 16 * random(6), random(240)][random(3)];
        file[at] = [0, OVERFLOW, 200, random(256) as u8][random(4)];
        match table.refresh(&file, at..=at) {
            Ok(again) => {
                let again: Vec<u32> = again.collect();
                assert!(again.is_sorted());
                let fresh = function::read_functions(&file, layout, 0, 6).unwrap();
                assert_eq!((&table, table.pending()), (&fresh, None));
                accepted += 1;
            }
            Err(_) => {
                assert!(function::read_functions(&file, layout, 0, 6).is_err());
                assert!(table.pending().unwrap().contains(&at));
                refused += 1;
            }
        }
    }
    assert!(accepted > 300 && refused > 300, "{accepted} {refused}");
}

#[test]
fn a_file_of_another_length() {
    let file = six();
    let mut table = function::read_functions(&file, Layout::Legacy16, 0, 6).unwrap();
    for other in [&file[..239], &[&file[..], &[0]].concat(), &[]] {
        let refusal = table.refresh(other, 0..0).unwrap_err();
        assert_eq!(
            (refusal.reason(), refusal.place),
            (Reason::AnotherLength, 240)
        );
        assert_eq!(
            refusal.to_string(),
            "refused 100 at 240: the table was read from a file of 240 bytes, and this one has another length: read it again"
        );
    }
    assert_eq!(table.refresh(&file, ..).unwrap().len(), 6);
}

#[test]
fn any_range_for_a_refresh() {
    use std::ops::Bound::{Excluded, Included};
    let file = six();
    let mut table = function::read_functions(&file, Layout::Legacy16, 0, 6).unwrap();
    let mut again = |span: (std::ops::Bound<usize>, std::ops::Bound<usize>)| {
        table.refresh(&file, span).map(|again| again.len())
    };
    assert_eq!(again((Included(16), Included(32))), Ok(2));
    assert_eq!(again((Excluded(15), Excluded(32))), Ok(1));
    assert_eq!(
        refused(again((Excluded(usize::MAX), Included(usize::MAX)))),
        (10, 0)
    );
    for (len, span) in [(6, 0..240), (1, 95..96), (0, 96..240)] {
        assert_eq!(table.refresh(&file, span).unwrap().len(), len);
    }
    assert_eq!(table.refresh(&file, 80..).unwrap().len(), 1);
    assert_eq!(table.refresh(&file, ..=16).unwrap().len(), 2);
    let meets = |id| function::function_meets(&file, Layout::Legacy16, 0, id, 95..).unwrap();
    assert!(meets(5) && !meets(4));
}

/// A row that no call wrote, with a layout that there is not, is not taken for one of either.
#[test]
fn a_row_of_no_layout() {
    for (word, layout) in [
        (0, Some(Layout::Legacy16)),
        (1, Some(Layout::Modern12)),
        (2, None),
        (u32::MAX, None),
    ] {
        let mut words = [5; FunctionRow::WORDS];
        words[0] = word;
        let row = FunctionRow::rows(&words)[0];
        assert_eq!(
            (row.layout(), row.rest().is_some()),
            (layout, layout.is_some())
        );
        let own = match layout {
            Some(Layout::Legacy16) => 3,
            Some(Layout::Modern12) => 7,
            None => 0,
        };
        assert_eq!(row.fields().count(), 8 + own);
        let shown = format!("{row:?}");
        assert!(shown.ends_with(", large_place: Some(5) }"), "{shown}");
        assert_eq!(shown.contains("Modern12"), layout == Some(Layout::Modern12));
        assert_eq!(
            shown.contains(&format!("no_such_layout: {word}")),
            layout.is_none()
        );
    }
}

#[test]
fn layouts_by_word_and_number() {
    for layout in [Layout::Legacy16, Layout::Modern12] {
        assert_eq!(layout.to_string().parse(), Ok(layout));
        assert_eq!(Layout::try_from(u32::from(layout)), Ok(layout));
    }
    assert_eq!(format!("{:>10}", Layout::Legacy16), "  legacy16");
    for word in ["", "Legacy16", "legacy", "modern12 "] {
        assert_eq!(refused(word.parse::<Layout>()), (12, 0));
    }
}

#[test]
fn handlers_by_function() {
    let words: Vec<u32> = [2, 2, 2, 5, 9, 9]
        .into_iter()
        .zip(0..)
        .flat_map(|(function, target)| [function, 0, 0, target])
        .collect();
    let rows = HandlerRow::rows(&words);
    let of = |function| {
        let rows = parsing::handlers_of(rows, function).iter();
        rows.map(HandlerRow::target).collect::<Vec<_>>()
    };
    assert_eq!((of(2), of(5), of(9)), (vec![0, 1, 2], vec![3], vec![4, 5]));
    for none in [0, 1, 3, 8, 10, u32::MAX] {
        assert!(of(none).is_empty());
    }
    assert!(parsing::handlers_of(&[], 0).is_empty());
}
