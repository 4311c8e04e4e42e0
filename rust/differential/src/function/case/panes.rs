//! Two refreshes over one file, in either order. Each of them is compared by itself, as everywhere; and what the request says
//! of the two is judged on the archive's own answers.

use bisquepond::sys::{number, place};

use super::totals::{of, Totals};
use super::{behind, fresh, Answer, Case, Layout, Op, LAYOUTS, ROW};
use crate::case::{bytes_word, code, printed, said, table_word};
use crate::case::{Compare as _, Difference, Words};

pub type Span = (usize, usize);

/// Two spans, the file that both edits are in, and rows that are lent with the totals that are true of them.
pub struct Panes<'a> {
    /// A refresh by no span.
    pub call: Case<'a>,
    pub spans: [Span; 2],
    /// Whether the rows were read from a file that is this one outside both spans.
    pub read: bool,
}

/// What came of each of the two.
pub struct Outcomes {
    /// Before both: as lent.
    pub lent: Answer,
    pub alone: [Answer; 2],
    /// At once again.
    pub twice: [Answer; 2],
    /// After the other.
    pub second: [Answer; 2],
    /// First, and once more after the other.
    pub again: [Answer; 2],
    /// One refresh over both spans, where no byte is between them.
    pub joined: Option<Answer>,
}

/// All that a call leaves: rows, words behind them, totals.
fn left(answer: &Answer) -> (&[u32], Totals) {
    (&answer.table, answer.totals)
}

pub fn refused(answer: &Answer) -> bool {
    number(answer.code) != 0
}

/// Nothing, or what is not so.
fn holds(so: bool, not: &str) -> Result<(), String> {
    match so {
        true => Ok(()),
        false => Err(not.to_string()),
    }
}

impl Outcomes {
    /// Each answers the same first or second, and both orders end alike. One that is refused leaves nothing: both orders end
    /// as the other alone.
    fn orders(&self, count: u32) -> Result<(), String> {
        let Outcomes { lent, alone, second, .. } = self;
        for (one, other) in [(0, 1), (1, 0)] {
            let same = alone[one].code == second[one].code;
            holds(same, "one answers otherwise after the other than before it")?;
            holds(number(alone[one].code) != 16, "true totals were refused")?;
            if refused(&alone[one]) {
                holds(left(&alone[one]) == left(lent), "a refused one left something")?;
                let other = left(&alone[other]);
                let end = second.iter().all(|end| left(end) == other);
                holds(end, "beside a refused one the end is not that of the other alone")?;
            }
        }
        let [end, other] = second;
        holds(left(end) == left(other), "the two orders leave different rows or totals")?;
        holds(end.totals == of(&end.table, count), "the totals are not those of the rows")
    }

    /// What was done once is done: at once, and at the end, the same answer and no change.
    fn once(&self) -> Result<(), String> {
        let Outcomes { alone, twice, second, again, .. } = self;
        for (one, other) in [(0, 1), (1, 0)] {
            holds(twice[one] == alone[one], "one done twice is not that done once")?;
            let (end, again) = (&second[other], &again[one]);
            let same = again.code == alone[one].code && left(again) == left(end);
            holds(same, "one done again after the other changes something")?;
        }
        Ok(())
    }

    /// The refusal of the two at the lower function.
    fn refusal(&self) -> Option<u64> {
        let codes = self.alone.iter().filter(|one| refused(one)).map(|one| one.code);
        codes.min_by_key(|&code| place(code))
    }
}

impl Panes<'_> {
    fn layout(&self) -> Layout {
        LAYOUTS[self.call.layout as usize]
    }

    /// Whether both spans lie in the file.
    fn within(&self) -> bool {
        self.spans.iter().all(|&(low, high)| low <= high && high <= self.call.file.len())
    }

    /// The span of both, where no byte is between them.
    fn joined(&self) -> Option<Span> {
        let [(a, b), (c, d)] = self.spans;
        (self.within() && a.max(c) <= b.min(d)).then_some((a.min(c), b.max(d)))
    }

    /// One refresh, of what another call left.
    fn refresh(&self, span: Span, from: &Answer) -> Result<Answer, Difference> {
        let table = &from.table[..self.call.table.len()];
        let ((low, high), totals) = (span, Some(from.totals));
        Case { low, high, table, totals, ..self.call }.compare()
    }

    fn outcomes(&self) -> Result<Outcomes, Difference> {
        let [first, other] = self.spans;
        let totals = of(self.call.table, self.call.count);
        let lent = Answer { code: 0, table: behind(self.call.table), totals };
        let order = |one, other| {
            let alone = self.refresh(one, &lent)?;
            let twice = self.refresh(one, &alone)?;
            let second = self.refresh(other, &alone)?;
            let again = self.refresh(one, &second)?;
            Ok::<_, Difference>((alone, twice, second, again))
        };
        let one = order(first, other)?;
        let two = order(other, first)?;
        let joined = self.joined().map(|span| self.refresh(span, &lent)).transpose()?;
        Ok(Outcomes {
            lent,
            alone: [one.0, two.0],
            twice: [one.1, two.1],
            second: [two.2, one.2],
            again: [one.3, two.3],
            joined,
        })
    }

    /// Which of the two spans function `id` meets.
    fn meets(&self, id: u32) -> [bool; 2] {
        let Case { file, start, .. } = self.call;
        self.spans.map(|(low, high)| self.layout().meets(file, start, id, low, high))
    }

    /// How many functions meet the one, the other, either and both.
    pub fn met(&self) -> [u64; 4] {
        let mut met = [0; 4];
        for id in 0..self.call.count {
            let [one, other] = self.meets(id);
            for (met, so) in met.iter_mut().zip([one, other, one || other, one && other]) {
                *met += u64::from(so);
            }
        }
        met
    }

    /// Whether a function meets one of the spans by its large header alone.
    pub fn far(&self) -> bool {
        let (own, start) = (self.layout().own(), self.call.start);
        let far = |id: u32| {
            let at = start + id as usize * own;
            let beside = self.spans.map(|(low, high)| low.max(at) >= high.min(at + own));
            self.meets(id).into_iter().zip(beside).any(|(met, beside)| met && beside)
        };
        (0..self.call.count).any(far)
    }

    /// Each reports the functions that meet its span: those that meet both are in both numbers.
    fn counts(&self, all: &Outcomes) -> Result<(), String> {
        let [one, other, either, both] = self.met();
        let [first, second] = &all.alone;
        holds(refused(first) || first.code == one, "the first reports another number")?;
        holds(refused(second) || second.code == other, "the second reports another number")?;
        let sum = first.code.wrapping_add(second.code);
        let all = all.refusal().is_some() || sum == either + both;
        holds(all, "the numbers are not those that meet either, and both once more")
    }

    /// What meets none of the two is as it was, and so is what stands behind the rows.
    fn others(&self, all: &Outcomes) -> Result<(), String> {
        let [lent, end] = [&all.lent, &all.second[0]].map(|answer| answer.table.chunks(ROW));
        let other =
            |id: usize| id >= self.call.count as usize || self.meets(id as u32) == [false; 2];
        let mut rows = lent.zip(end).enumerate();
        let kept = rows.all(|(id, (lent, end))| lent == end || !other(id));
        holds(kept, "a row that meets none of the two was written, or a word behind the rows")
    }

    /// Of a table that was read before both edits: it is the fresh read's in the end, or that is refused as one of the two.
    fn fresh(&self, all: &Outcomes) -> Result<(), String> {
        let Case { file, start, count, .. } = self.call;
        match (fresh(file, self.layout(), start, count), all.refusal()) {
            (Ok(rows), None) => {
                let (rows, end) = (rows.as_flattened(), &all.second[0]);
                let same = end.table.starts_with(rows) && end.totals == of(rows, count);
                holds(same, "the end is not a fresh read")
            }
            (Err(why), Some(refusal)) => {
                holds(code(Err(why)) == refusal, "a fresh read is refused otherwise")
            }
            (Ok(_), Some(_)) => Err("one is refused, and a fresh read is not".to_string()),
            (Err(_), None) => Err("a fresh read is refused, and none of the two".to_string()),
        }
    }

    /// One refresh over both spans is both: as many functions as meet either, the same end, and refused as one of the two.
    fn both_in_one(&self, all: &Outcomes) -> Result<(), String> {
        let Some(joined) = &all.joined else {
            return Ok(());
        };
        match all.refusal() {
            None => {
                let [_, _, either, _] = self.met();
                holds(joined.code == either, "over both spans another number is reported")?;
                holds(left(joined) == left(&all.second[0]), "over both spans the end is another")
            }
            Some(refusal) => {
                holds(joined.code == refusal, "over both spans the answer is another")?;
                holds(
                    left(joined) == left(&all.lent),
                    "over both spans a refused one left something",
                )
            }
        }
    }

    fn judge(&self, all: &Outcomes) -> Result<(), String> {
        all.orders(self.call.count)?;
        all.once()?;
        self.counts(all)?;
        self.others(all)?;
        self.both_in_one(all)?;
        match self.read && self.within() {
            true => self.fresh(all),
            false => Ok(()),
        }
    }

    /// What is not so, what was called, and what came of it.
    fn difference(&self, not: &str, all: &Outcomes) -> Difference {
        let Case { file, start, count, table, .. } = self.call;
        let ([(a, b), (c, d)], len, words) = (self.spans, file.len(), table.len());
        let (layout, rows) = (self.layout(), if self.read { "read before" } else { "any rows" });
        let told = |one: &Answer| format!("{}, totals {:?}", said(one.code, "rows"), one.totals);
        let both = |[one, other]: &[Answer; 2]| format!("{}; {}", told(one), told(other));
        let mut lines = vec![
            format!("not so    {not}"),
            format!("panes     {layout:?}, start {start}, count {count}, spans {a} to {b} and {c} to {d}, {len} bytes of file, {words} words lent, {rows}, totals {:?}", all.lent.totals),
            format!("alone     {}", both(&all.alone)),
            format!("twice     {}", both(&all.twice)),
            format!("second    {}", both(&all.second)),
            format!("again     {}", both(&all.again)),
        ];
        lines.extend(all.joined.as_ref().map(|one| format!("joined    {}", told(one))));
        lines.extend(self.replay().map(|words| format!("replay    --replay {words}")));
        Difference(lines)
    }

    fn replay(&self) -> Option<String> {
        let Case { file, layout, start, count, table, .. } = self.call;
        let ([(a, b), (c, d)], read) = (self.spans, self.read);
        printed(file, &[table], &[]).then(|| {
            let (file, table) = (bytes_word(file), table_word(table));
            format!("function Panes {layout} {start} {count} {a} {b} {c} {d} {read} {file} {table}")
        })
    }

    /// Makes the calls, each of which is compared, and judges what came of the two.
    pub fn compare(&self) -> Result<Outcomes, Difference> {
        let all = self.outcomes()?;
        self.judge(&all).map_err(|not| self.difference(&not, &all))?;
        Ok(all)
    }
}

/// `Panes LAYOUT START COUNT LOW HIGH LOW HIGH READ FILE TABLE`, as a difference prints them.
pub fn replay(words: &mut Words) -> Result<String, Difference> {
    let (layout, start, count) = (words.number()?, words.number()?, words.number()?);
    let spans = [(words.number()?, words.number()?), (words.number()?, words.number()?)];
    let (read, file, table) = (words.number()?, &words.bytes()?, &words.table()?);
    let (op, low, high, totals) = (Op::Refresh, 0, 0, None);
    let call = Case { op, file, layout, start, count, low, high, table, totals };
    if layout as usize >= LAYOUTS.len() || !words.0.as_slice().is_empty() {
        return Err("no such layout, or more words than two refreshes take".to_string().into());
    }
    let all = Panes { call, spans, read }.compare()?;
    let [first, second] = all.alone.map(|one| said(one.code, "rows"));
    Ok(format!("as expected: {first}; {second}"))
}
