//! The groups of two edits that are both in the file when their refreshes come, in either order.

use std::collections::BTreeSet;

use harness::Random;

use super::super::case::panes::{refused, Outcomes, Panes, Span};
use super::super::case::totals::{Totals, MOST};
use super::super::case::write::{header, large_header, leading};
use super::super::case::{fresh, Answer, Case, Layout, INLINE, LAYOUTS, PLACE, ROW, SIZE};
use super::{any_place, any_table, Table};
use crate::case::{code, Compared, Difference, Refusal};
use crate::inputs::any_words as words;
use crate::run::Run;

pub fn compare(run: &mut Run) -> Compared {
    run.group("panes: worked cases", worked)?;
    run.group("panes: totals that are not true", untrue)?;
    run.group("panes: every pair of spans over small files", small)?;
    run.group("panes: random pairs", |run| {
        let mut random = run.random(43);
        let mut seen = Seen::default();
        (0..500_000).try_for_each(|_| any(run, &mut random, &mut seen))?;
        seen.enough()
    })
}

/// One pair: each of its calls is a case.
fn pair(run: &mut Run, panes: &Panes) -> Result<Outcomes, Difference> {
    let all = panes.compare()?;
    // Four in each order, and the one over both spans.
    (0..8 + usize::from(all.joined.is_some())).for_each(|_| run.equal());
    Ok(all)
}

/// A function of this size, inline or with a large header at a place, which need not be in the file.
type Kind = (u32, Option<usize>);

fn file_of(layout: Layout, (start, len): (usize, usize), kinds: &[Kind]) -> Table {
    let mut table = Table::new(layout, vec![0; len], start, kinds.len() as u32);
    let row = |size| std::array::from_fn::<_, ROW, _>(|word| if word == SIZE { size } else { 0 });
    for &(size, large) in kinds {
        let there = large.and_then(|place| table.file.get_mut(place..)?.get_mut(..layout.large()));
        if let Some(bytes) = there {
            bytes.copy_from_slice(&large_header(layout, &row(size)));
        }
    }
    for (id, &(size, large)) in kinds.iter().enumerate() {
        let inline = || header(layout, &row(size));
        let bytes = large.map_or_else(inline, |place| leading(layout, place as u128));
        table.header(id as u32).copy_from_slice(&bytes);
    }
    table
}

impl Table {
    fn panes<'a>(&'a self, spans: [Span; 2], rows: &'a [u32], read: bool) -> Panes<'a> {
        Panes { call: self.refresh((0, 0), rows), spans, read }
    }

    fn read(&self) -> Result<Vec<u32>, Refusal> {
        fresh(&self.file, self.layout, self.start, self.count).map(|rows| rows.concat())
    }

    /// Whether it is another file outside both spans.
    fn differs_outside(&self, other: &Table, spans: [Span; 2]) -> bool {
        let inside = |at: usize| spans.iter().any(|&(low, high)| (low..high).contains(&at));
        let mut bytes = self.file.iter().zip(&other.file).enumerate();
        bytes.any(|(at, (byte, other))| byte != other && !inside(at))
    }
}

/// What both answer, and the sizes of the three functions in the end, written out.
type Told = ([Span; 2], [Result<u32, Refusal>; 2], [u32; 3]);

/// Pairs whose answers are written out, over rows that were read from `was`.
fn told(run: &mut Run, was: &Table, now: &Table, pairs: &[Told]) -> Compared {
    let rows = was.read().expect("a good file");
    let behind = [&rows[..], &[7; ROW + 1]].concat();
    for &(spans, answers, sizes) in pairs {
        for rows in [&rows, &behind] {
            let read = !now.differs_outside(was, spans);
            let all = pair(run, &now.panes(spans, rows, read))?;
            let (end, given) = (&all.second[0], all.alone.each_ref().map(|one| one.code));
            assert_eq!(given, answers.map(code), "{spans:?}");
            assert_eq!([0, 1, 2].map(|id| end.table[id * ROW + SIZE]), sizes, "{spans:?}");
            assert_eq!(end.totals, [1, sizes.iter().map(|&size| u64::from(size)).sum()]);
        }
    }
    Ok(())
}

/// Where the headers and large headers of the worked files stand: three functions, of which one is read from a large header
/// far from the table.
struct Places {
    layout: Layout,
    /// The first byte of each header, and the end of the table.
    headers: [usize; 4],
    /// The first byte of the large header, and its last.
    large: [usize; 2],
    len: usize,
}

impl Places {
    fn new(layout: Layout) -> Self {
        let headers = [0, 1, 2, 3].map(|id| 5 + id * layout.own());
        Places { layout, headers, large: [200, 199 + layout.large()], len: 300 }
    }

    fn file(&self, kinds: [Kind; 3]) -> Table {
        file_of(self.layout, (self.headers[0], self.len), &kinds)
    }

    /// As the rows are read.
    fn was(&self) -> Table {
        self.file([(1, None), (60_000, Some(self.large[0])), (3, None)])
    }

    /// Both are accepted, or not for what is in the file.
    fn accepted(&self, run: &mut Run) -> Compared {
        let Places { headers: [a, b, c, end], large: [first, last], len, .. } = *self;
        let (all, bad) = ((0, len), Err((10, 0)));
        let now = self.file([(10, None), (70_000, Some(first)), (30, None)]);
        let pairs = [
            // Overlapping, nested, touching.
            ([(a + 1, b + 1), (b, c)], [Ok(2), Ok(1)], [10, 70_000, 3]),
            ([(a, c), (a + 4, a + 5)], [Ok(2), Ok(1)], [10, 70_000, 3]),
            ([all, (first + 3, first + 4)], [Ok(3), Ok(1)], [10, 70_000, 30]),
            ([(a, b), (b, c + 1)], [Ok(1), Ok(2)], [10, 70_000, 30]),
            ([(first - 9, first), (first, first + 1)], [Ok(0), Ok(1)], [1, 70_000, 3]),
            ([(last, last + 1), (last + 1, len)], [Ok(1), Ok(0)], [1, 70_000, 3]),
            // Empty, equal.
            ([(b + 3, b + 3), (first + 8, first + 9)], [Ok(0), Ok(1)], [1, 70_000, 3]),
            ([(0, 0), (len, len)], [Ok(0), Ok(0)], [1, 60_000, 3]),
            ([(first, last), (first, last)], [Ok(1), Ok(1)], [1, 70_000, 3]),
            ([all, all], [Ok(3), Ok(3)], [10, 70_000, 30]),
            // Apart: one function, by its header and by its large header; two functions.
            ([(b, b + 1), (last, last + 1)], [Ok(1), Ok(1)], [1, 70_000, 3]),
            ([(a, a + 1), (end - 1, end)], [Ok(1), Ok(1)], [10, 60_000, 30]),
            // Reversed, past the end.
            ([(5, 4), (a, b)], [bad, Ok(1)], [10, 60_000, 3]),
            ([(last, last + 1), (a, len + 1)], [Ok(1), bad], [1, 70_000, 3]),
        ];
        told(run, &self.was(), &now, &pairs)
    }

    /// The large header of function 1 past the end.
    fn past(&self, run: &mut Run) -> Compared {
        let Places { headers: [a, b, c, _], large: [first, _], len, .. } = *self;
        let now = self.file([(10, None), (0, Some(len + 1)), (30, None)]);
        let past = Err((2, 1));
        let pairs = [
            ([(b, c), (a, a + 1)], [past, Ok(1)], [10, 60_000, 3]),
            ([(c, c + 1), (a, c)], [Ok(1), past], [1, 60_000, 30]),
            ([(a, c + 1), (a + 4, a + 5)], [past, Ok(1)], [10, 60_000, 3]),
            ([(a, b + 1), (b + 2, c + 1)], [past, past], [1, 60_000, 3]),
            ([(first, first + 1), (b, b + 1)], [Ok(0), past], [1, 60_000, 3]),
            ([(b, c), (b, c)], [past, past], [1, 60_000, 3]),
            ([(b, b), (b, b + 1)], [Ok(0), past], [1, 60_000, 3]),
            ([(0, len), (len, len + 1)], [past, Err((10, 0))], [1, 60_000, 3]),
        ];
        told(run, &self.was(), &now, &pairs)
    }

    /// That of function 0 cut by a byte, and that of function 2 past the end: each is refused at its own.
    fn both(&self, run: &mut Run) -> Compared {
        let Places { headers: [a, b, c, end], large: [first, last], len, layout } = *self;
        let behind = len - layout.large() + 1;
        let now = self.file([(0, Some(behind)), (70_000, Some(first)), (0, Some(len + 1))]);
        let (cut, past) = (Err((3, 0)), Err((2, 2)));
        let pairs = [
            ([(c, c + 1), (a, a + 1)], [past, cut], [1, 60_000, 3]),
            ([(0, b), (b, end)], [cut, past], [1, 60_000, 3]),
            ([(0, len), (c, c + 1)], [cut, past], [1, 60_000, 3]),
            ([(len - 1, len), (b, b + 1)], [cut, Ok(1)], [1, 70_000, 3]),
            ([(first, last), (c, end)], [Ok(1), past], [1, 70_000, 3]),
        ];
        told(run, &self.was(), &now, &pairs)
    }
}

fn worked(run: &mut Run) -> Compared {
    for layout in LAYOUTS {
        let places = Places::new(layout);
        places.accepted(run)?;
        places.past(run)?;
        places.both(run)?;
    }
    Ok(())
}

/// Refreshes one after another with totals as they are lent, each with its answer and the totals after it, written out.
fn steps(
    run: &mut Run,
    [was, now]: [&Table; 2],
    mut totals: Totals,
    steps: &[(Span, Result<u32, Refusal>, Totals)],
) -> Compared {
    let mut rows = was.read().expect("a good file");
    for &(span, answer, after) in steps {
        let refresh = Case { totals: Some(totals), ..now.refresh(span, &rows) };
        let given = run.compare(&refresh)?;
        assert_eq!((given.code, given.totals), (code(answer), after));
        rows = given.table[..rows.len()].to_vec();
        totals = given.totals;
    }
    Ok(())
}

/// What is so of true totals alone: of totals that are too low or too high by 1 the one order is refused, and the other is
/// not; and one done twice is refused where it was accepted once. Two functions are needed for it.
fn untrue(run: &mut Run) -> Compared {
    for layout in LAYOUTS {
        let own = layout.own();
        let len = 2 * own + 2 * layout.large();
        let (a, b, both) = ((0, 1), (own, own + 1), (0, 2 * own));
        let file = |kinds: [Kind; 2]| file_of(layout, (0, len), &kinds);
        let sizes = |[one, two]: [u32; 2]| file([(one, None), (two, None)]);
        let refused = Err((16, 1));
        // Function 0 from size 0 to 1, function 1 from 1 to 2: 1 is true, and 0 is lent.
        let files = [&sizes([0, 1]), &sizes([1, 2])];
        steps(run, files, [0, 0], &[(a, Ok(1), [0, 1]), (b, Ok(1), [0, 2])])?;
        steps(run, files, [0, 0], &[(b, refused, [0, 0]), (a, Ok(1), [0, 1])])?;
        steps(run, files, [0, 1], &[(b, Ok(1), [0, 2]), (a, Ok(1), [0, 3])])?;
        // From 1 to 0, and from 0 to 1, with the greatest total.
        let files = [&sizes([1, 0]), &sizes([0, 1])];
        steps(run, files, [0, MOST], &[(a, Ok(1), [0, MOST - 1]), (b, Ok(1), [0, MOST])])?;
        steps(run, files, [0, MOST], &[(b, refused, [0, MOST]), (a, Ok(1), [0, MOST - 1])])?;
        // Function 0 gets a large header, function 1 has one, and none is lent.
        let (one, two) = (Some(2 * own), Some(2 * own + layout.large()));
        let files = [&file([(0, None), (0, two)]), &file([(0, one), (0, two)])];
        steps(run, files, [0, 0], &[(a, Ok(1), [1, 0]), (b, Ok(1), [1, 0])])?;
        steps(run, files, [0, 0], &[(b, refused, [0, 0]), (a, Ok(1), [1, 0])])?;
        // Twice: the size of function 1 goes to function 0, and 0 is lent where 1 is true.
        let files = [&sizes([0, 1]), &sizes([1, 0])];
        steps(run, files, [0, 0], &[(both, Ok(2), [0, 0]), (both, Err((16, 0)), [0, 0])])?;
        steps(run, files, [0, 1], &[(both, Ok(2), [0, 1]), (both, Ok(2), [0, 1])])?;
    }
    Ok(())
}

/// Every span between places where something begins or ends, and a few that are reversed or past the end.
fn spans_of(places: &BTreeSet<usize>, len: usize) -> Vec<Span> {
    let from = |&low: &usize| places.range(low..).map(move |&high| (low, high));
    let good = places.iter().flat_map(from);
    good.chain([(1, 0), (len, 0), (len, len + 1), (0, len + 1), (len + 1, len + 1)]).collect()
}

/// The file with the bytes of another in both spans: as it was before both edits.
fn before(now: &Table, was: &Table, spans: [Span; 2]) -> Table {
    let mut before = now.clone();
    for (low, high) in spans {
        let span = low.min(now.file.len())..high.min(now.file.len());
        if span.start <= span.end {
            before.file[span.clone()].copy_from_slice(&was.file[span]);
        }
    }
    before
}

/// Two functions as they were and as they are, with a large header far from them: edited in it and beside it; a flag set, and
/// two cleared; a large header that moved, one that both have, and one over the table; and the first, the second and both
/// that cannot be read.
fn kinds(place: usize, len: usize) -> [[[Kind; 2]; 2]; 9] {
    let (far, cut, past) = (Some(place), Some(place + 5), Some(len + 1));
    let was = [(1, None), (60_000, far)];
    let now = [(10, None), (70_000, far)];
    [
        [was, now],
        [[(1, None), (2, None)], now],
        [[(1, far), (2, far)], [(10, None), (20, None)]],
        [[(1, None), (60_000, Some(place - 9))], now],
        [was, [(10, far), (70_000, far)]],
        [was, [(10, None), (20, Some(0))]],
        [was, [(0, cut), (70_000, far)]],
        [was, [(10, None), (0, past)]],
        [was, [(0, cut), (0, past)]],
    ]
}

/// All pairs of spans that begin and end at a header's or the large header's first byte or last, or one beside it.
fn small(run: &mut Run) -> Compared {
    let mut random = run.random(42);
    for layout in LAYOUTS {
        let (own, large, place) = (layout.own(), layout.large(), 60);
        let len = place + large + 4;
        let ends = |(from, size): Span| [from - 1, from, from + 1, from + size - 1, from + size];
        let grounds = [(2, own), (2 + own, own), (place, large)];
        let places = grounds.into_iter().flat_map(ends).chain([0, len]).collect();
        let spans = spans_of(&places, len);
        let file = |kinds: [Kind; 2]| file_of(layout, (2, len), &kinds);
        let files = kinds(place, len).map(|both| both.map(file));
        for (i, &first) in spans.iter().enumerate() {
            for &second in &spans[i..] {
                // One file after another: what a call kept of the last one would tell.
                for both in &files {
                    of_small(run, &mut random, both, [first, second])?;
                }
            }
        }
    }
    Ok(())
}

/// One pair over rows that were read before both edits; or over any, with a word behind them.
fn of_small(
    run: &mut Run,
    random: &mut Random,
    [was, now]: &[Table; 2],
    spans: [Span; 2],
) -> Compared {
    let read = before(now, was, spans).read().ok().filter(|_| random.below(4) > 0);
    let is_read = read.is_some();
    let rows = read.unwrap_or_else(|| words(random, 2 * ROW + 1));
    pair(run, &now.panes(spans, &rows, is_read)).map(|_| ())
}

/// How two spans lie.
#[derive(Clone, Copy, PartialEq, Debug)]
enum Relation {
    Apart,
    Touching,
    Overlapping,
    Nested,
    Equal,
    Empty,
    Bad,
}

use Relation::*;

const RELATIONS: [Relation; 7] = [Apart, Touching, Overlapping, Nested, Equal, Empty, Bad];

/// A byte at which a header or a large header begins or ends, or one beside it; or any.
fn edge(random: &mut Random, table: &Table) -> usize {
    let (layout, len) = (table.layout, table.file.len());
    let id = random.below(table.count.max(1) as usize);
    let at = table.start + id * layout.own();
    let (from, size) = match table.place(id as u32) {
        Some(place) if place < len as u64 && random.below(2) == 0 => {
            (place as usize, layout.large())
        }
        _ => (at, layout.own()),
    };
    let within = from + random.below(size);
    let ends = [from.saturating_sub(1), from, from + 1, from + size - 1, from + size, within];
    match random.below(8) {
        0 => random.below(len + 1),
        1 => random.pick(&[0, len]),
        _ => random.pick(&ends).min(len),
    }
}

/// Two spans that lie so, over a file of four bytes at least.
fn related(random: &mut Random, table: &Table, relation: Relation) -> [Span; 2] {
    let (mut edges, len) = (BTreeSet::new(), table.file.len());
    while edges.len() < 4 {
        edges.insert(edge(random, table));
    }
    let edges: Vec<usize> = edges.into_iter().collect();
    let [a, b, c, d] = edges[..] else { unreachable!("four of them") };
    let [first, second] = match relation {
        Apart => [(a, b), (c, d)],
        Touching => [(a, b), (b, c)],
        Overlapping => [(a, c), (b, d)],
        Nested => random.pick(&[[(a, d), (b, c)], [(a, c), (a, b)], [(b, d), (c, d)]]),
        Equal => [random.pick(&[(a, b), (b, c), (a, d)]); 2],
        Empty => [(b, c), random.pick(&[(a, a), (b, b), (c, c), (d, d)])],
        Bad => [(b, c), random.pick(&[(c, b), (d, a), (a, len + 1), (len + 1, len + 1)])],
    };
    match random.below(2) {
        0 => [first, second],
        _ => [second, first],
    }
}

/// An edit within a span: any bytes, and of the headers that it holds most lead somewhere in the file, or nowhere.
fn edit(random: &mut Random, table: &mut Table, (low, high): Span) {
    let (own, start) = (table.layout.own(), table.start);
    if low > high || high > table.file.len() || random.below(8) == 0 {
        return;
    }
    let chance = random.pick(&[1, 4, 16]);
    for byte in &mut table.file[low..high] {
        if random.below(chance) == 0 {
            *byte = random.byte();
        }
    }
    for id in 0..table.count {
        let at = start + id as usize * own;
        let whole = low <= at && at + own <= high;
        match random.below(16) {
            // Any flag, and any place.
            0 => {}
            1..8 if whole => {
                let place = any_place(random, table);
                table.point(random, id, place);
            }
            _ if (low..high).contains(&(at + own - 1)) => table.header(id)[own - 1] &= !0x20,
            _ => {}
        }
    }
}

/// Lets a function whose header a span holds lead to where no large header can be.
fn break_one(random: &mut Random, table: &mut Table, (low, high): Span) {
    let own = table.layout.own();
    let at = |id: &u32| table.start + *id as usize * own;
    let within = |id: &u32| low <= at(id) && at(id) + own <= high && high <= table.file.len();
    let ids: Vec<u32> = (0..table.count).filter(within).collect();
    if !ids.is_empty() {
        let (id, len) = (random.pick(&ids), table.file.len());
        let last = len.saturating_sub(table.layout.large());
        let place = random.pick(&[last + 1, len, len + 1, len + 99]);
        table.point(random, id, place as u64);
    }
}

/// Two edits of one file, whose spans lie in any of the ways. Lent are the rows that were read before both, or any.
pub fn any(run: &mut Run, random: &mut Random, seen: &mut Seen) -> Compared {
    let was = any_table(random, None);
    if was.file.len() < 4 {
        return Ok(());
    }
    let relation = random.pick(&RELATIONS);
    let spans = related(random, &was, relation);
    let mut now = was.clone();
    spans.into_iter().for_each(|span| edit(random, &mut now, span));
    if random.below(6) == 0 {
        spans.into_iter().for_each(|span| break_one(random, &mut now, span));
    }
    let over = random.pick(&[0, 0, 1, ROW, 2 * ROW + 3]);
    let read = was.read().ok().filter(|_| random.below(3) > 0);
    let (is_read, all) = (read.is_some(), was.count as usize * ROW);
    let mut rows = read.unwrap_or_else(|| words(random, all));
    for row in rows.chunks_exact_mut(ROW).filter(|_| !is_read) {
        // As they may be: half of them inline.
        row[PLACE] |= random.pick(&[0, INLINE]);
    }
    rows.extend(words(random, over));
    let panes = now.panes(spans, &rows, is_read);
    let all = pair(run, &panes)?;
    seen.one(&panes, relation, &all);
    Ok(())
}

/// How many pairs were seen of each kind.
#[derive(Default, Debug)]
pub struct Seen {
    relations: [u64; 7],
    /// Of spans that lie in the file: neither is refused, the first is, the second is, both are.
    refused: [u64; 4],
    /// Of these, such as were held against a fresh read: it is accepted, or refused.
    fresh: [u64; 2],
    /// Both are refused, for different functions.
    places: u64,
    /// A function meets both spans, or one by its large header alone.
    shared: u64,
    far: u64,
    /// A row changed; and each of the two changes what the other does not.
    changed: u64,
    each: u64,
}

impl Seen {
    fn one(&mut self, panes: &Panes, relation: Relation, all: &Outcomes) {
        let [first, second] = all.alone.each_ref().map(refused);
        self.relations[relation as usize] += 1;
        if relation != Bad {
            self.refused[usize::from(first) + 2 * usize::from(second)] += 1;
            self.fresh[usize::from(first || second)] += u64::from(panes.read);
            let differ = all.alone[0].code != all.alone[1].code;
            self.places += u64::from(first && second && differ);
        }
        let changes = |from: &Answer, to: &Answer| u64::from(from.table != to.table);
        let [end, _] = &all.second;
        self.changed += changes(&all.lent, end);
        self.each += changes(&all.alone[0], end) & changes(&all.alone[1], end);
        self.shared += u64::from(panes.met()[3] > 0);
        self.far += u64::from(panes.far());
    }

    /// A group that sees too few of one kind tells nothing of it.
    fn enough(&self) -> Compared {
        let Seen { relations, refused, fresh, places, shared, far, changed, each } = self;
        let all: u64 = relations.iter().sum();
        let mut kinds = refused.iter().chain(fresh).chain([places, shared, far, changed, each]);
        let even = relations.iter().all(|&seen| seen > all / 10);
        match even && kinds.all(|&seen| seen > all / 100) {
            true => Ok(()),
            false => Err(format!("too few pairs of one kind: {self:?}").into()),
        }
    }
}
