//! The clean-bundle profile.

use bisquepond::clean::{check_bundle, Bundle, Rule, SeriesRow, Verdict};
use bisquepond::literal::Objects;
use bisquepond::sys::LIMIT;
use bisquepond::table::Strings;
use bisquepond::Layout;

use super::row;
use crate::clean::{places, Order};
use crate::function::point;
use crate::table::Bench;

const CALL: &str = "check_bundle";

/// Nothing at all.
const NONE: Bundle<'static> = Bundle {
    file: &[],
    layout: Layout::Legacy16,
    start: 0,
    count: 0,
    strings: Strings {
        kinds: &[],
        small: &[],
        overflow: &[],
        storage: &[],
    },
    string_count: 0,
    objects: Objects {
        keys: &[],
        values: &[],
    },
    series: &[],
};

pub fn rows(bench: &Bench) {
    for layout in [Layout::Legacy16, Layout::Modern12] {
        let (own, large) = (layout.header_size(), layout.large_header_size());
        let call = format!("{CALL} {layout}");
        let dense = |order| move |n| headers(layout, n, n * (own + large), large, order, None);
        row(
            bench,
            &call,
            "every header large, rising",
            dense(Order::Rising),
        );
        row(
            bench,
            &call,
            "every header large, falling",
            dense(Order::Falling),
        );
        row(
            bench,
            &call,
            "every header large, in no order",
            dense(Order::Any),
        );
        row(bench, &call, "every header large, at one place", |n| {
            headers(layout, n, n * own + large, 0, Order::Rising, Some(0))
        });
        row(bench, &call, "four of them an entry, a byte apart", |n| {
            headers(
                layout,
                4 * n,
                4 * n * (own + 1) + large,
                1,
                Order::Falling,
                Some(0),
            )
        });
        row(bench, &call, "falling through 2^30 bytes", |n| {
            headers(
                layout,
                n,
                LIMIT,
                (LIMIT - n * own) / n,
                Order::Falling,
                None,
            )
        });
        row(bench, &call, "in no order, through 2^30 bytes", |n| {
            headers(layout, n, LIMIT, (LIMIT - n * own) / n, Order::Any, None)
        });
    }
    row(bench, CALL, "kind runs of one string", |n| {
        let kinds = vec![1; n];
        asked(None, move |check| {
            let strings = Strings {
                kinds: &kinds,
                ..NONE.strings
            };
            check(&Bundle {
                strings,
                string_count: n as u32,
                ..NONE
            })
        })
    });
    row(
        bench,
        CALL,
        "strings, one pair for all, the last invalid",
        |n| {
            let (kinds, mut small) = ([n as u32], vec![255 << 24; n]);
            small[n - 1] |= 2;
            asked(Some((Rule::Strings, n - 1)), move |check| {
                let (overflow, storage) = (&[[0, 4], [4, 0]], b"abcd");
                let strings = Strings {
                    kinds: &kinds,
                    small: &small,
                    overflow,
                    storage,
                };
                check(&Bundle {
                    strings,
                    string_count: n as u32,
                    ..NONE
                })
            })
        },
    );
    row(bench, CALL, "tags of length 0 before one value", |n| {
        let mut values = vec![0; n];
        values[n - 1] = 1;
        series(
            values,
            vec![SeriesRow::of_values(0, 1)],
            Some((Rule::EmptyTags, 0)),
        )
    });
    row(bench, CALL, "string numbers in runs of one", |n| {
        let values = [0x61, 0].repeat(n);
        series(values, vec![SeriesRow::of_values(0, n as u32)], None)
    });
    row(bench, CALL, "series of one value each", |n| {
        let values = [0x61, 0].repeat(n);
        let rows = (0..n).map(|i| SeriesRow::of_values(2 * i as u32, 1));
        series(values, rows.collect(), None)
    });
}

/// What must be found, and the call that finds it, to be made again and again.
fn asked(
    told: Option<(Rule, usize)>,
    made: impl Fn(&dyn Fn(&Bundle<'_>) -> Verdict) -> Verdict,
) -> (u64, impl FnMut() -> u64) {
    let code = |found: Option<(Rule, usize)>| {
        found.map_or(0, |(rule, place)| {
            u64::from(rule.number()) << 32 | place as u64
        })
    };
    let call = move || {
        let verdict = made(&|bundle| check_bundle(bundle).expect("what the readers accept"));
        match verdict {
            Verdict::Clean => 0,
            Verdict::Broken { rule, place } => code(Some((rule, place as usize))),
        }
    };
    (code(told), call)
}

/// So many functions with their large headers behind the table, so far apart; the lowest that breaks the rule.
fn headers(
    layout: Layout,
    count: usize,
    len: usize,
    apart: usize,
    order: Order,
    lowest: Option<usize>,
) -> (u64, impl FnMut() -> u64) {
    let own = layout.header_size();
    // The last of them ends with the file.
    let mut file = vec![0; len.max(count * own + layout.large_header_size())];
    let last = file.len() - layout.large_header_size();
    for (i, place) in places(count * own, count, apart, order)
        .into_iter()
        .enumerate()
    {
        point(&mut file[i * own..][..own], layout.into(), place.min(last));
    }
    let told = lowest.map(|id| (Rule::LargeHeaders, id));
    asked(told, move |check| {
        check(&Bundle {
            file: &file,
            layout,
            count: count as u32,
            ..NONE
        })
    })
}

/// Series of the values, in a file of one string.
fn series(
    values: Vec<u8>,
    series: Vec<SeriesRow>,
    told: Option<(Rule, usize)>,
) -> (u64, impl FnMut() -> u64) {
    asked(told, move |check| {
        let strings = Strings {
            kinds: &[1],
            ..NONE.strings
        };
        let objects = Objects {
            values: &values,
            ..NONE.objects
        };
        check(&Bundle {
            strings,
            string_count: 1,
            objects,
            series: &series,
            ..NONE
        })
    })
}
