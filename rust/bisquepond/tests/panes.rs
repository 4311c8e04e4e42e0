//! Several edits that are all in the file when their refreshes come, one for each span: in any order the same rows, totals
//! and answers. What a refused one leaves, and what a table of its own makes of it.

use std::ops::Range;

use bisquepond::function::{self, FunctionRow, FunctionTable, Totals};
use bisquepond::{Layout, Reason};

const LAYOUTS: [Layout; 2] = [Layout::Legacy16, Layout::Modern12];
const OVERFLOW: u8 = 0x20;
const START: usize = 3;
const PLACE: usize = 150;
const LEN: usize = 200;

/// Three functions of sizes 10, 60,000 and 30, of which the second is read from a large header far from the table.
fn three(layout: Layout) -> Vec<u8> {
    let mut file = vec![0; LEN];
    let (_, [a, b, c]) = bytes(layout);
    (file[a], file[c]) = (10, 30);
    file[b..b + 4].copy_from_slice(&60_000u32.to_le_bytes());
    lead(&mut file, layout, 1, PLACE);
    file
}

/// Where each header begins, and the table ends; and where the sizes of the three functions begin.
fn bytes(layout: Layout) -> ([usize; 4], [usize; 3]) {
    let headers = [0, 1, 2, 3].map(|id| START + id * layout.header_size());
    let in_large = match layout {
        Layout::Legacy16 => 8,
        Layout::Modern12 => 12,
    };
    let sizes = [headers[0] + 4, PLACE + in_large, headers[2] + 4];
    (headers, sizes)
}

/// Gives a function a large header, at a place below 256.
fn lead(file: &mut [u8], layout: Layout, id: usize, place: usize) {
    let ([at, ..], own) = (bytes(layout).0, layout.header_size());
    (file[at + id * own], file[at + (id + 1) * own - 1]) = (place as u8, OVERFLOW);
}

/// The file with every size one more whose first byte lies in one of the spans.
fn edited(layout: Layout, spans: &[Range<usize>]) -> Vec<u8> {
    let mut file = three(layout);
    let (_, sizes) = bytes(layout);
    for at in sizes {
        file[at] += u8::from(spans.iter().any(|span| span.contains(&at)));
    }
    file
}

fn read(file: &[u8], layout: Layout) -> FunctionTable {
    function::read_functions(file, layout, START, 3).unwrap()
}

/// The table after a refresh by each span, one after another, and what each read again.
fn after(
    file: &[u8],
    table: &FunctionTable,
    spans: &[Range<usize>],
) -> (FunctionTable, Vec<Vec<u32>>) {
    let mut table = table.clone();
    let again = spans
        .iter()
        .map(|span| table.refresh(file, span.clone()).unwrap().collect());
    let again = again.collect();
    (table, again)
}

/// Two spans, and which functions each of them reads again.
type Pair = ([Range<usize>; 2], [&'static [u32]; 2]);

/// Such of every kind.
fn pairs(layout: Layout) -> Vec<Pair> {
    let ([a, b, c, end], large) = (bytes(layout).0, layout.large_header_size());
    vec![
        // Overlapping, nested, touching, equal, empty.
        ([a..b + 1, b..end], [&[0, 1], &[1, 2]]),
        ([0..LEN, PLACE + 1..LEN], [&[0, 1, 2], &[1]]),
        ([a..b, b..PLACE + large], [&[0], &[1, 2]]),
        ([PLACE - 1..PLACE, PLACE..LEN], [&[], &[1]]),
        ([PLACE..LEN, PLACE..LEN], [&[1], &[1]]),
        ([b + 1..b + 1, a..a + 5], [&[], &[0]]),
        // Apart: function 1 by its header and by its large header, and two functions.
        ([b..b + 1, PLACE + large - 25..PLACE + large], [&[1], &[1]]),
        ([a..a + 5, c..end], [&[0], &[2]]),
    ]
}

#[test]
fn either_order() {
    for layout in LAYOUTS {
        let before = read(&three(layout), layout);
        for ([one, two], again) in pairs(layout) {
            let file = edited(layout, &[one.clone(), two.clone()]);
            let (table, first) = after(&file, &before, &[one.clone(), two.clone()]);
            let (other, second) = after(&file, &before, &[two.clone(), one.clone()]);
            // What each reads again does not depend on the other; who meets both is read again by both.
            assert_eq!(first, again, "{one:?} {two:?}");
            assert_eq!((&first[0], &first[1]), (&second[1], &second[0]));
            let fresh = read(&file, layout);
            for table in [&table, &other] {
                assert_eq!((table, table.totals()), (&fresh, fresh.totals()));
            }
            // Once more, by either: the same answer, and no change.
            let (same, once_more) = after(&file, &table, &[one.clone(), one, two]);
            assert_eq!(once_more, [&first[0], &first[0], &first[1]].map(Vec::clone));
            assert_eq!((&same, same.totals()), (&table, table.totals()));
        }
    }
}

/// Two spans with no byte between them are as good as one.
#[test]
fn joined_spans() {
    for layout in LAYOUTS {
        let before = read(&three(layout), layout);
        for ([one, two], again) in pairs(layout) {
            if one.end.min(two.end) < one.start.max(two.start) {
                continue;
            }
            let file = edited(layout, &[one.clone(), two.clone()]);
            let both = one.start.min(two.start)..one.end.max(two.end);
            let (table, ids) = after(&file, &before, &[both]);
            let mut either = again.concat();
            either.sort_unstable();
            either.dedup();
            assert_eq!(ids, [either]);
            assert_eq!(
                (&table, table.totals()),
                (&after(&file, &before, &[one, two]).0, Totals::of(&table))
            );
        }
    }
}

/// All orders of these.
fn orders(of: &[Range<usize>]) -> Vec<Vec<Range<usize>>> {
    if of.is_empty() {
        return vec![vec![]];
    }
    let first = |i: usize| {
        let rest = [&of[..i], &of[i + 1..]].concat();
        let behind = |order: Vec<_>| [vec![of[i].clone()], order].concat();
        orders(&rest).into_iter().map(behind).collect::<Vec<_>>()
    };
    (0..of.len()).flat_map(first).collect()
}

#[test]
fn four_panes_in_any_order() {
    for layout in LAYOUTS {
        let before = read(&three(layout), layout);
        let ([a, b, c, end], _) = bytes(layout);
        let spans = [a..b + 2, b + 1..end, c..c + 5, PLACE..LEN];
        let file = edited(layout, &spans);
        let fresh = read(&file, layout);
        let all = orders(&spans);
        assert_eq!(all.len(), 24);
        for order in all {
            let (table, again) = after(&file, &before, &order);
            assert_eq!((&table, table.totals()), (&fresh, fresh.totals()));
            assert_eq!(again.iter().map(Vec::len).sum::<usize>(), 2 + 2 + 1 + 1);
        }
    }
}

/// What each of two answers, and sizes and totals in the end.
type Lent = (Vec<Result<u32, (Reason, u32)>>, [u32; 3], Totals);

/// Refreshes lent rows by each span, in this order.
fn lent(file: &[u8], table: &FunctionTable, spans: [&Range<usize>; 2]) -> Lent {
    let (mut rows, mut totals): (Vec<FunctionRow>, _) = (table.to_vec(), table.totals());
    let refresh = |span: &Range<usize>| {
        let layout = table.layout();
        let again = function::refresh_functions(
            file,
            layout,
            START,
            3,
            span.clone(),
            &mut rows,
            &mut totals,
        );
        again.map_err(|why| (why.reason(), why.place))
    };
    let answers = spans.map(refresh).to_vec();
    assert_eq!(totals, Totals::of(&rows));
    (answers, [0, 1, 2].map(|id| rows[id].size()), totals)
}

/// Of two, one refused: only the other's effect stands, before it or after it. Both refused: none.
#[test]
fn a_refused_one_leaves_the_other() {
    for layout in LAYOUTS {
        let before = read(&three(layout), layout);
        let ([a, b, c, end], _) = bytes(layout);
        let (head, middle, tail, all) = (a..b, b..c, c..end, 0..LEN);
        let mut file = edited(layout, &[all]);
        lead(&mut file, layout, 2, LEN + 1);
        let past = Err((Reason::PastEnd, 2));
        for (good, read) in [(&head, [11, 60_000, 30]), (&middle, [10, 60_001, 30])] {
            for bad in [&tail, &(good.start..end)] {
                assert_eq!(lent(&file, &before, [bad, good]).0, [past, Ok(1)]);
                assert_eq!(lent(&file, &before, [good, bad]).0, [Ok(1), past]);
                for order in [[bad, good], [good, bad]] {
                    assert_eq!(lent(&file, &before, order).1, read);
                }
            }
        }
        // Both: the large header of function 0 is cut. Each is refused for its own, and nothing changes.
        lead(&mut file, layout, 0, LEN - 1);
        let cut = Err((Reason::Cut, 0));
        let stays = ([10, 60_000, 30], before.totals());
        for (order, answers) in [([&head, &tail], [cut, past]), ([&tail, &head], [past, cut])] {
            let (given, sizes, totals) = lent(&file, &before, order);
            assert_eq!((given, (sizes, totals)), (answers.to_vec(), stays));
        }
        // A span that is none is refused too, and the other stands.
        let none = LEN..LEN + 1;
        let bad = Err((Reason::BadSpan, 0));
        assert_eq!(lent(&file, &before, [&none, &middle]).0, [bad, Ok(1)]);
        assert_eq!(lent(&file, &before, [&middle, &none]).1, [10, 60_001, 30]);
    }
}

/// Refreshes lent rows by one span.
fn lend(
    file: &[u8],
    layout: Layout,
    span: &Range<usize>,
    (rows, totals): &mut (Vec<FunctionRow>, Totals),
) -> bisquepond::Result<u32> {
    function::refresh_functions(file, layout, START, 3, span.clone(), rows, totals)
}

/// What was refused is put right after the other came: its own span is enough, and the end is a fresh read.
#[test]
fn put_right_after_the_other() {
    for layout in LAYOUTS {
        let table = read(&three(layout), layout);
        let ([a, b, c, end], _) = bytes(layout);
        let (good, bad) = (a..b, c..end);
        let mut file = edited(layout, std::slice::from_ref(&good));
        lead(&mut file, layout, 2, LEN + 1);
        let mut lent = (table.to_vec(), table.totals());
        assert!(lend(&file, layout, &bad, &mut lent).is_err());
        assert_eq!(lend(&file, layout, &good, &mut lent), Ok(1));
        // Not as it was before: at the place of function 1 now.
        lead(&mut file, layout, 2, PLACE);
        assert_eq!(lend(&file, layout, &bad, &mut lent), Ok(1));
        let fresh = read(&file, layout);
        assert_eq!(lent, (fresh.to_vec(), fresh.totals()));
        assert_eq!(lent.1.large(), 2);
    }
}

/// Undone after the other came it is to be refreshed too: the other read its bytes.
#[test]
fn undone_after_the_other() {
    for layout in LAYOUTS {
        let (was, [_, size, _]) = (three(layout), bytes(layout).1);
        let table = read(&was, layout);
        // The first leads function 0 past the end, and changes the offset in the large header of function 1.
        let (first, second) = (START..PLACE + 1, size..size + 1);
        let mut file = edited(layout, std::slice::from_ref(&second));
        lead(&mut file, layout, 0, LEN + 1);
        file[PLACE] = 99;
        let mut lent = (table.to_vec(), table.totals());
        assert!(lend(&file, layout, &first, &mut lent).is_err());
        assert_eq!(lend(&file, layout, &second, &mut lent), Ok(1));
        file[first.clone()].copy_from_slice(&was[first.clone()]);
        let fresh = read(&file, layout);
        assert_eq!((lent.0[1].offset(), fresh[1].offset()), (99, 0));
        assert_eq!(lend(&file, layout, &first, &mut lent), Ok(3));
        assert_eq!(lent, (fresh.to_vec(), fresh.totals()));
    }
}

/// A table of its own remembers a refused span and joins it to the next: the one after it is refused as well, the one before
/// it stands. When the edit is undone both orders end with a fresh read.
#[test]
fn a_table_remembers_a_refused_one() {
    for layout in LAYOUTS {
        let ([a, b, c, end], _) = bytes(layout);
        let (good, bad) = (a..b, c..end);
        let mut file = edited(layout, std::slice::from_ref(&good));
        lead(&mut file, layout, 2, LEN + 1);
        let [mut first, mut second] = [(); 2].map(|()| read(&three(layout), layout));
        let refused = |table: &mut FunctionTable, file: &[u8], span: &Range<usize>| {
            let why = table.refresh(file, span.clone()).unwrap_err();
            assert_eq!((why.reason(), why.place), (Reason::PastEnd, 2));
        };
        refused(&mut first, &file, &bad);
        refused(&mut first, &file, &good);
        assert_eq!((first[0].size(), first.pending()), (10, Some(a..end)));
        assert!(second.refresh(&file, good).unwrap().eq([0]));
        refused(&mut second, &file, &bad);
        assert_eq!((second[0].size(), second.pending()), (11, Some(c..end)));

        // Undone, the first takes in all that it missed, the other what it was refused for.
        let was = three(layout);
        file[bad.clone()].copy_from_slice(&was[bad.clone()]);
        assert!(first.refresh(&file, bad.clone()).unwrap().eq([0, 1, 2]));
        assert!(second.refresh(&file, bad).unwrap().eq([2]));
        let fresh = read(&file, layout);
        for table in [first, second] {
            assert_eq!(
                (&table, table.totals(), table.pending()),
                (&fresh, fresh.totals(), None)
            );
        }
    }
}

/// Another pane may put right what was refused: its refresh takes in both edits.
#[test]
fn another_pane_puts_it_right() {
    for layout in LAYOUTS {
        let (([_, b, c, _], own), mut file) =
            ((bytes(layout).0, layout.header_size()), three(layout));
        let mut table = read(&file, layout);
        // Function 0 leads past the end, and function 1 is inline.
        lead(&mut file, layout, 0, LEN + 1);
        file[b + own - 1] = 0;
        assert!(table.refresh(&file, START..c).is_err());
        file[START] = PLACE as u8;
        assert!(table.refresh(&file, START..=START).unwrap().eq([0, 1]));
        assert_eq!(table, read(&file, layout));
        let places = [0, 1].map(|id: usize| table[id].large_place());
        assert_eq!(
            (places, table.totals().large()),
            ([Some(PLACE as u32), None], 1)
        );
    }
}
