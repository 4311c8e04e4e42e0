//! The clean-bundle profile: every rule and its places, every refusal, which of several is told, and the sentences.

use std::collections::HashSet;

use bisquepond::clean::{Bundle, Rule, SeriesRow, Verdict, check_bundle};
use bisquepond::literal::Objects;
use bisquepond::table::Strings;
use bisquepond::{Layout, Reason, Row, sys};

const LAYOUTS: [Layout; 2] = [Layout::Legacy16, Layout::Modern12];
const OVERFLOW: u8 = 0x20;

/// Headers from `start` on, each with the place of its large header, below 2^24, or inline; in so many bytes of zeros.
fn headers(layout: Layout, start: usize, places: &[Option<usize>], len: usize) -> Vec<u8> {
    let (own, mut file) = (layout.header_size(), vec![0; len]);
    for (i, place) in places.iter().enumerate() {
        let header = &mut file[start + i * own..][..own];
        if let Some(place) = *place {
            header[..3].copy_from_slice(&(place as u32).to_le_bytes()[..3]);
            header[own - 1] = OVERFLOW;
        }
    }
    file
}

/// No functions, two strings in runs of one, and the keys and the values of an object: all is clean.
const TIDY: Bundle<'_> = Bundle {
    file: &[],
    layout: Layout::Legacy16,
    start: 0,
    count: 0,
    strings: Strings {
        kinds: &[1, 1 << 31 | 1],
        small: &[2 << 24, 2 << 1 | 255 << 24],
        overflow: &[[0, 1], [1, 1], [2, 1]],
        storage: b"abc",
    },
    string_count: 2,
    objects: Objects {
        keys: &[0x62, 0, 1, 0x11],
        values: &[0x72, 5, 0, 0, 0, 6, 0, 0, 0],
    },
    series: &[SeriesRow::of_keys(0, 3), SeriesRow::of_values(0, 2)],
};

fn broken(rule: Rule, place: u32) -> Verdict {
    Verdict::Broken { rule, place }
}

fn verdict(bundle: &Bundle) -> Verdict {
    check_bundle(bundle).unwrap()
}

fn refused(bundle: &Bundle) -> (u32, u32) {
    let refusal = check_bundle(bundle).unwrap_err();
    (refusal.number, refusal.place)
}

#[test]
fn a_tidy_bundle_is_clean() {
    assert!(verdict(&TIDY).is_clean());
    for layout in LAYOUTS {
        let (own, large) = (layout.header_size(), layout.large_header_size());
        let end = 3 + 4 * own;
        // The second and the fourth touch, and so do the table and the first; the third is inline.
        let places = [
            Some(end + 5 + large),
            Some(end),
            None,
            Some(end + 5 + 2 * large),
        ];
        let len = end + 5 + 3 * large;
        let file = headers(layout, 3, &places, len);
        let bundle = Bundle {
            file: &file,
            layout,
            start: 3,
            count: 4,
            ..TIDY
        };
        assert_eq!(verdict(&bundle), Verdict::Clean);
        // And in rising order.
        let places = [Some(end), None, Some(end + large), Some(end + 2 * large)];
        let file = headers(layout, 3, &places, len);
        assert_eq!(
            verdict(&Bundle {
                file: &file,
                ..bundle
            }),
            Verdict::Clean
        );
    }
}

/// Nothing at all is clean, wherever the table would begin in the file.
#[test]
fn nothing_is_clean() {
    let strings = Strings {
        kinds: &[],
        small: &[],
        overflow: &[],
        storage: &[],
    };
    let objects = Objects {
        keys: &[],
        values: &[],
    };
    let nothing = Bundle {
        strings,
        string_count: 0,
        objects,
        series: &[],
        ..TIDY
    };
    for (file, start) in [(&[][..], 0), (&[7; 5], 0), (&[7; 5], 5)] {
        for layout in LAYOUTS {
            let bundle = Bundle {
                file,
                layout,
                start,
                ..nothing
            };
            assert_eq!(verdict(&bundle), Verdict::Clean);
        }
    }
}

#[test]
fn rule_1_large_headers() {
    for layout in LAYOUTS {
        let (own, large) = (layout.header_size(), layout.large_header_size());
        let (start, end) = (3, 3 + 4 * own);
        let says = |places: [Option<usize>; 4]| {
            let file = headers(layout, start, &places, end + 10 * large);
            verdict(&Bundle {
                file: &file,
                layout,
                start,
                count: 4,
                ..TIDY
            })
        };
        let at = |place: usize| Some(end + place);
        let first = |place| broken(Rule::LargeHeaders, place);
        // Touching is not sharing, and one byte is; of two functions the lower, in whatever order they lie.
        assert_eq!(
            says([at(0), at(large), at(2 * large), None]),
            Verdict::Clean
        );
        assert_eq!(
            says([None, at(large), at(0), at(2 * large)]),
            Verdict::Clean
        );
        assert_eq!(says([at(0), at(large), at(2 * large - 1), None]), first(1));
        assert_eq!(says([at(5 * large), at(large), None, at(1)]), first(1));
        assert_eq!(says([at(5 * large), None, at(large), at(large)]), first(2));
        assert_eq!(says([at(0), at(large), at(2 * large), at(0)]), first(0));
        // Before the table's end by a byte, or in the table, though nothing is shared.
        assert_eq!(
            says([at(5 * large), at(0), at(large), Some(end - 1)]),
            first(1)
        );
        assert_eq!(
            says([at(5 * large), at(large), Some(end - 1), None]),
            first(2)
        );
        assert_eq!(
            says([at(0), at(large), None, Some(0)]),
            first(if large > end { 0 } else { 3 })
        );
        // All in one place.
        assert_eq!(says([at(0); 4]), first(0));
        assert_eq!(says([None, at(9), at(9), at(9)]), first(1));
    }
}

/// Slots of one large header's length, and windows of 65,536 of them: pairs on both sides of every such edge.
#[test]
fn rule_1_far_apart() {
    for layout in LAYOUTS {
        let (own, large) = (layout.header_size(), layout.large_header_size());
        let edge = 65_536 * large;
        let len = 2 * edge + 8 * large;
        for apart in [0, 1, large - 1, large, large + 1] {
            for first in (edge - 3 * large..edge + 3 * large).step_by(7) {
                // Out of order, so that no single pass will do.
                let places = [
                    Some(2 * edge),
                    Some(first + apart),
                    Some(first),
                    Some(5 * own),
                ];
                let file = headers(layout, 0, &places, len);
                let bundle = Bundle {
                    file: &file,
                    layout,
                    count: 4,
                    ..TIDY
                };
                let right = match apart < large {
                    true => broken(Rule::LargeHeaders, 1),
                    false => Verdict::Clean,
                };
                assert_eq!(
                    verdict(&bundle),
                    right,
                    "{layout}, {first} and {apart} more"
                );
            }
        }
    }
}

#[test]
fn rule_2_kind_runs() {
    let says = |kinds: &[u32], string_count| {
        verdict(&Bundle {
            strings: Strings {
                kinds,
                small: &[],
                ..TIDY.strings
            },
            string_count,
            series: &[],
            ..TIDY
        })
    };
    let first = |place| broken(Rule::KindRuns, place);
    const NAMES: u32 = 1 << 31;
    assert_eq!(says(&[], 0), Verdict::Clean);
    assert_eq!(says(&[], 1), first(0));
    assert_eq!(says(&[3, NAMES | 4], 7), Verdict::Clean);
    assert_eq!(says(&[3, NAMES | 4], 6), first(2));
    assert_eq!(says(&[3, NAMES | 4], 8), first(2));
    // An empty run is told before the sum, also one that names nothing but itself.
    assert_eq!(says(&[3, NAMES, 4], 7), first(1));
    assert_eq!(says(&[3, 4, 0, 0], 9), first(2));
    assert_eq!(says(&[0], 0), first(0));
    // Sums past 2^32 are not taken for small ones.
    let most = NAMES - 1;
    assert_eq!(says(&[most, u32::MAX, 1], u32::MAX), Verdict::Clean);
    assert_eq!(says(&[most, u32::MAX, 2], 0), first(3));
    assert_eq!(says(&[most, most, 5], 3), first(3));
    assert_eq!(says(&[1, most, most, 1, 7], 7), first(5));
}

/// The count is the one that is given, also where fewer small entries are lent, or more.
#[test]
fn the_string_count_is_the_one_given() {
    let strings = Strings {
        kinds: &[3],
        ..TIDY.strings
    };
    let three = Bundle {
        strings,
        string_count: 3,
        ..TIDY
    };
    assert_eq!(verdict(&three), Verdict::Clean);
    assert_eq!(
        verdict(&Bundle {
            string_count: 2,
            ..three
        }),
        broken(Rule::KindRuns, 1)
    );
    // Of three entries the last is invalid, and not among the first two.
    let strings = Strings {
        small: &[0, 0, 3 << 1],
        ..TIDY.strings
    };
    assert_eq!(verdict(&Bundle { strings, ..TIDY }), Verdict::Clean);
    let strings = Strings {
        kinds: &[3],
        ..strings
    };
    let third = Bundle {
        strings,
        string_count: 3,
        ..TIDY
    };
    assert_eq!(verdict(&third), broken(Rule::Strings, 2));
}

#[test]
fn rule_3_strings() {
    let says = |small: [u32; 2], overflow: &[[u32; 2]]| {
        verdict(&Bundle {
            strings: Strings {
                small: &small,
                overflow,
                ..TIDY.strings
            },
            ..TIDY
        })
    };
    let first = |place| broken(Rule::Strings, place);
    // Start 2 is the last that is within, length 0 or 1; UTF-16 has two bytes for a unit.
    assert_eq!(says([2 << 1, 2 << 1 | 1 << 24], &[]), Verdict::Clean);
    assert_eq!(says([3 << 1, 0], &[]), first(0));
    assert_eq!(says([0, 2 << 1 | 2 << 24], &[]), first(1));
    assert_eq!(
        says([1 | 1 << 1 | 1 << 24, 1 | 2 << 1 | 1 << 24], &[]),
        first(1)
    );
    // A pair is found by its number, and shared: in order, the second string would find none.
    let long = |pair: u32| pair << 1 | 255 << 24;
    assert_eq!(says([long(1), long(1)], &[[9, 9], [0, 3]]), Verdict::Clean);
    assert_eq!(says([long(1), long(0)], &[[2, 2], [0, 3]]), first(1));
}

#[test]
fn rules_4_and_5_series() {
    let says = |values: &[u8], series: &[SeriesRow]| {
        verdict(&Bundle {
            objects: Objects {
                keys: &[0x61, 7],
                values,
            },
            series,
            ..TIDY
        })
    };
    let of = SeriesRow::of_values;
    let (empty, high) = (
        |at| broken(Rule::EmptyTags, at),
        |at| broken(Rule::LiteralStrings, at),
    );
    // null, a tag of length 0, null: it is passed by the second value, and not by the first.
    let between = [0x01, 0x50, 0x01];
    assert_eq!(says(&between, &[of(0, 1)]), Verdict::Clean);
    assert_eq!(says(&between, &[of(0, 2)]), empty(0));
    assert_eq!(says(&between, &[of(0, 1), of(2, 1), of(1, 1)]), empty(2));
    assert_eq!(says(&between, &[of(1, 0), of(0, 2), of(1, 1)]), empty(1));
    // A length of 0 in two bytes.
    assert_eq!(says(&[0x80, 0x00, 0x01], &[of(0, 1)]), empty(0));
    assert_eq!(says(&[0x81, 0x00], &[of(0, 256)]), Verdict::Clean);
    // Strings 1 and 2 of a count of 2, in one, two and four bytes.
    for number in [0x62, 1, 2]
        .as_slice()
        .chunks(3)
        .chain([&[0x52, 1, 0, 2, 0][..], &[0x42, 1, 0, 0, 0, 2, 0, 0, 0]])
    {
        assert_eq!(says(number, &[of(0, 1)]), Verdict::Clean, "{number:x?}");
        assert_eq!(says(number, &[of(0, 1), of(0, 2)]), high(1), "{number:x?}");
    }
    assert_eq!(says(&[0x41, 0, 0, 0, 0x80], &[of(0, 1)]), high(0));
    // No other value is a string number.
    assert_eq!(says(&[0x71, 9, 9, 9, 9], &[of(0, 1)]), Verdict::Clean);
    assert_eq!(
        says(&[0x31, 9, 9, 9, 9, 9, 9, 9, 9], &[of(0, 1)]),
        Verdict::Clean
    );
    // Each series from its own buffer.
    assert_eq!(
        says(&[0x61, 1], &[of(0, 1), SeriesRow::of_keys(0, 1)]),
        high(1)
    );
    // An empty tag in a later series is told before a number in an earlier one: rule 4 is the first.
    assert_eq!(
        says(&[0x61, 7, 0x00, 0x01], &[of(0, 1), of(2, 1)]),
        empty(1)
    );
}

/// A series of count 0 is accepted at any offset, and passes nothing.
#[test]
fn an_empty_series_passes_nothing() {
    for offset in [0, 1, 3, 4, u32::MAX] {
        for row in [
            SeriesRow::of_keys(offset, 0),
            SeriesRow::of_values(offset, 0),
        ] {
            let objects = Objects {
                keys: &[0, 0, 0, 0],
                values: &[0, 0, 0, 0],
            };
            let bundle = Bundle {
                objects,
                series: &[row],
                ..TIDY
            };
            assert_eq!(verdict(&bundle), Verdict::Clean);
        }
    }
}

/// Each rule broken alone, and every set of them: the first is told, with its own place.
#[test]
fn the_first_broken_rule_is_told() {
    let (own, large) = (16, 31);
    let tidy = headers(Layout::Legacy16, 0, &[None, Some(2 * own)], 2 * own + large);
    let early = headers(
        Layout::Legacy16,
        0,
        &[None, Some(2 * own - 1)],
        2 * own + large,
    );
    let places = [1, 2, 1, 0, 1];
    for set in 0..32 {
        let breaks = |rule: Rule| set >> (rule.number() - 1) & 1 == 1;
        let pick = |rule, good, bad| if breaks(rule) { bad } else { good };
        let series = [
            SeriesRow::of_values(if breaks(Rule::EmptyTags) { 0 } else { 1 }, 1),
            SeriesRow::of_keys(if breaks(Rule::LiteralStrings) { 1 } else { 0 }, 1),
        ];
        let bundle = Bundle {
            file: if breaks(Rule::LargeHeaders) {
                &early
            } else {
                &tidy
            },
            count: 2,
            strings: Strings {
                kinds: pick(Rule::KindRuns, &[1, 1], &[1, 2]),
                small: pick(Rule::Strings, &[0, 0], &[0, 9 << 1]),
                ..TIDY.strings
            },
            objects: Objects {
                keys: &[0x01, 0x61, 9],
                values: &[0x00, 0x01],
            },
            series: &series,
            ..TIDY
        };
        let first = Rule::ALL.iter().find(|rule| breaks(**rule));
        let right = first.map_or(Verdict::Clean, |&rule| {
            broken(rule, places[rule.number() as usize - 1])
        });
        assert_eq!(verdict(&bundle), right, "{set:05b}");
    }
}

/// Each reader's refusals: number and place, and the sentence of that reader.
#[test]
fn the_readers_refuse() {
    for layout in LAYOUTS {
        let (own, large) = (layout.header_size(), layout.large_header_size());
        let end = 3 * own;
        let file = headers(layout, 0, &[None, None, Some(end)], end + large);
        let three = Bundle {
            file: &file,
            layout,
            count: 3,
            ..TIDY
        };
        assert_eq!(verdict(&three), Verdict::Clean);
        assert_eq!(
            refused(&Bundle {
                start: file.len() + 1,
                ..three
            }),
            (2, 0)
        );
        assert_eq!(
            refused(&Bundle {
                start: usize::MAX,
                count: 0,
                ..three
            }),
            (2, 0)
        );
        assert_eq!(
            refused(&Bundle {
                file: &file[..file.len() - 1],
                ..three
            }),
            (3, 2)
        );
        assert_eq!(
            refused(&Bundle {
                file: &file[..2 * own - 1],
                ..three
            }),
            (3, 1)
        );
        assert_eq!(
            refused(&Bundle {
                count: u32::MAX,
                file: &[0; 50],
                ..three
            }),
            (3, 50 / own as u32)
        );
        let far = headers(layout, 0, &[None, Some(9_999)], end + large);
        assert_eq!(
            refused(&Bundle {
                file: &far,
                ..three
            }),
            (2, 1)
        );
    }
    let long = |pair: u32| pair << 1 | 255 << 24;
    let strings = |small: &[u32]| {
        let strings = Strings {
            small,
            ..TIDY.strings
        };
        check_bundle(&Bundle { strings, ..TIDY }).map_err(|why| (why.number, why.place))
    };
    assert_eq!(strings(&[long(0), long(3)]), Err((8, 1)));
    assert_eq!(strings(&[long(3), long(4)]), Err((8, 0)));
    // Past the count no entry is looked at.
    assert_eq!(strings(&[0, 0, long(3)]), Ok(Verdict::Clean));
    let series = |rows: &[SeriesRow]| {
        refused(&Bundle {
            series: rows,
            ..TIDY
        })
    };
    assert_eq!(series(&[SeriesRow::of_keys(4, 1)]), (7, 0));
    assert_eq!(series(&[SeriesRow::of_values(9, 1)]), (7, 0));
    assert_eq!(series(&[SeriesRow::of_values(u32::MAX, u32::MAX)]), (7, 0));
    assert_eq!(
        series(&[SeriesRow::of_keys(0, 3), SeriesRow::of_values(0, 3)]),
        (3, 2)
    );
    assert_eq!(series(&[SeriesRow::of_keys(0, u32::MAX)]), (3, 3));
    // The values of a tag that are cut, though it is the last asked for that is.
    let objects = Objects {
        keys: &[],
        values: &[0x73, 1, 0, 0, 0, 2, 0, 0],
    };
    let cut = Bundle {
        objects,
        series: &[SeriesRow::of_values(0, 2)],
        ..TIDY
    };
    assert_eq!(refused(&cut), (3, 1));
    assert_eq!(
        verdict(&Bundle {
            series: &[SeriesRow::of_values(0, 1)],
            ..cut
        }),
        Verdict::Clean
    );
}

/// More than 2^30 bytes, by their number alone: of the file, of the storage, and of a buffer that a series names.
#[test]
fn too_long_is_refused() {
    let long = vec![0; sys::LIMIT + 1];
    assert_eq!(
        refused(&Bundle {
            file: &long,
            ..TIDY
        }),
        (1, 0)
    );
    assert_eq!(
        verdict(&Bundle {
            file: &long[..sys::LIMIT],
            ..TIDY
        }),
        Verdict::Clean
    );
    let strings = Strings {
        storage: &long,
        ..TIDY.strings
    };
    assert_eq!(refused(&Bundle { strings, ..TIDY }), (1, 0));
    let objects = Objects {
        keys: &long,
        ..TIDY.objects
    };
    assert_eq!(refused(&Bundle { objects, ..TIDY }), (1, 0));
    // Refused for a series of none too, and not looked at where no series names it.
    let none = Bundle {
        objects,
        series: &[SeriesRow::of_keys(0, 0)],
        ..TIDY
    };
    assert_eq!(refused(&none), (1, 0));
    let other = Bundle {
        objects,
        series: &[SeriesRow::of_values(0, 2)],
        ..TIDY
    };
    assert_eq!(verdict(&other), Verdict::Clean);
}

/// Headers, then strings, then the series in their order; and all of these before any rule.
#[test]
fn refusals_come_in_order_and_before_the_rules() {
    let rows = [
        SeriesRow::of_values(9, 1),
        SeriesRow::of_values(0, 9),
        SeriesRow::of_keys(4, 1),
    ];
    let mut bundle = Bundle {
        start: 1,
        count: 1,
        strings: Strings {
            kinds: &[0],
            small: &[9 << 1, 9 << 1 | 255 << 24],
            ..TIDY.strings
        },
        objects: Objects {
            keys: &[0x00, 0x61, 9, 0x01],
            values: TIDY.objects.values,
        },
        series: &rows,
        ..TIDY
    };
    assert_eq!(refused(&bundle), (2, 0));
    bundle.start = 0;
    assert_eq!(refused(&bundle), (3, 0));
    let early = headers(Layout::Legacy16, 0, &[Some(0)], 31);
    bundle.file = &early;
    assert_eq!(refused(&bundle), (8, 1));
    bundle.strings.small = &[9 << 1, 0];
    assert_eq!(refused(&bundle), (7, 0));
    bundle.series = &rows[1..];
    assert_eq!(refused(&bundle), (3, 2));
    bundle.series = &rows[2..];
    assert_eq!(refused(&bundle), (7, 0));
    // Now the rules, one after the other.
    let tail = [SeriesRow::of_keys(0, 1)];
    bundle.series = &tail;
    assert_eq!(verdict(&bundle), broken(Rule::LargeHeaders, 0));
    let tidy = [0; 16];
    bundle.file = &tidy;
    assert_eq!(verdict(&bundle), broken(Rule::KindRuns, 0));
    bundle.strings.kinds = &[2];
    assert_eq!(verdict(&bundle), broken(Rule::Strings, 0));
    bundle.strings.small = &[0, 0];
    assert_eq!(verdict(&bundle), broken(Rule::EmptyTags, 0));
    let tail = [SeriesRow::of_keys(1, 1)];
    bundle.series = &tail;
    assert_eq!(verdict(&bundle), broken(Rule::LiteralStrings, 0));
    bundle.string_count = 10;
    bundle.strings.kinds = &[10];
    assert_eq!(verdict(&bundle), Verdict::Clean);
}

/// A refusal says what its reader would: a cut is of a function or of a series, whatever its place.
#[test]
fn refusals_have_their_readers_sentences() {
    let said = |bundle: &Bundle| check_bundle(bundle).unwrap_err().to_string();
    let file = [0; 40];
    let cut = said(&Bundle {
        file: &file,
        count: 3,
        ..TIDY
    });
    assert!(
        cut.starts_with("refused 3 at 2: ") && cut.contains("function 2 "),
        "{cut}"
    );
    // Place 2 again: of values, with as many functions, with fewer, and with none.
    for count in [3, 2, 0] {
        let file = [0; 48];
        let series = &[SeriesRow::of_values(0, 3)];
        let cut = said(&Bundle {
            file: &file,
            count,
            series,
            ..TIDY
        });
        assert!(
            cut.starts_with("refused 3 at 2: ") && cut.contains("2 whole values"),
            "{cut}"
        );
    }
    let strings = Strings {
        small: &[255 << 24],
        overflow: &[],
        ..TIDY.strings
    };
    let pair = said(&Bundle { strings, ..TIDY });
    assert!(pair.contains("string 0 names an overflow entry"), "{pair}");
    let past = said(&Bundle { start: 1, ..TIDY });
    assert!(past.contains("table's start"), "{past}");
    let series = said(&Bundle {
        series: &[SeriesRow::of_keys(9, 1)],
        ..TIDY
    });
    assert!(
        series.contains("the series begins at or past the end"),
        "{series}"
    );
}

#[test]
fn every_rule_has_sentences_of_its_own() {
    let rules: HashSet<String> = Rule::ALL.iter().map(Rule::to_string).collect();
    assert_eq!(rules.len(), 5);
    let mut sentences = HashSet::from([Verdict::Clean.to_string()]);
    for (&rule, what) in Rule::ALL
        .iter()
        .zip(["function", "kind run", "string", "series", "series"])
    {
        let said = broken(rule, 17).to_string();
        let head = format!("rule {} is broken at 17: ", rule.number());
        assert!(
            said.starts_with(&head) && said.contains(&format!("{what} 17 ")),
            "{said}"
        );
        sentences.insert(said);
    }
    assert_eq!(sentences.len(), 6);
    assert_eq!(Rule::Strings.number(), 3);
    assert!(Rule::LargeHeaders < Rule::LiteralStrings);
}

/// In C there are layouts that there are not, words that make no series, and a number that is lent.
#[test]
fn in_c_the_place_is_written_for_a_broken_rule_alone() {
    let call = |layout: u32, kinds: &[u32], series: &[u32]| {
        let (mut place, mut none) = (77, [0u8; 1]);
        let none = none.as_mut_ptr().cast_const();
        let code = unsafe {
            sys::hbc_check_bundle(
                none,
                0,
                layout,
                0,
                0,
                kinds.as_ptr(),
                kinds.len(),
                1,
                kinds.as_ptr(),
                0,
                kinds.as_ptr(),
                0,
                none,
                0,
                none,
                0,
                none,
                0,
                series.as_ptr(),
                series.len(),
                &mut place,
            )
        };
        (code, place)
    };
    assert_eq!(call(0, &[1], &[]), (0, 77));
    assert_eq!(call(1, &[1, 0], &[]), (2, 1));
    for layout in [2, 3, 1 << 31, u32::MAX] {
        assert_eq!(call(layout, &[0], &[1, 0, 1]), (12 << 32, 77));
    }
    assert_eq!(call(0, &[0], &[5, 0, 1]), (7 << 32, 77));
    // Two words and no row; three and a series of none, and again two.
    assert_eq!(call(0, &[1], &[1, 5]), (0, 77));
    assert_eq!(call(0, &[1], &[1, 5, 0, 1, 5]), (0, 77));
}

#[test]
fn rows_of_series() {
    let rows = SeriesRow::rows(&[0, 4, 2, u32::MAX, 5, 6, 7, 7]);
    assert_eq!(rows.len(), 2);
    assert_eq!(rows[0], SeriesRow::of_values(4, 2));
    assert!(rows[1].is_of_keys() && (rows[1].offset(), rows[1].count()) == (5, 6));
    assert_eq!(
        format!("{:?}", rows[0]),
        "SeriesRow { of_keys: false, offset: 4, count: 2 }"
    );
    assert_eq!(SeriesRow::default(), SeriesRow::of_values(0, 0));
    assert_eq!(Reason::of(7), Reason::SeriesPastEnd);
}
