//! That random cases bring calls with lists of every sort, and what is drawn, filled and refused beside them.
use crate::case::{Case, Job, Size};
use crate::rule::{no_sheet, Rules, Sheet};
use crate::run::{Outcome, Room};
use crate::tallied::{Call, Held, Tallied};
use crate::tally::{afresh, draw, Tallier};
use std::collections::BTreeMap;

/// What may be true of a case, and whether it is of this one.
type Sorts = Vec<(String, bool)>;

fn named<const N: usize>(sorts: [(&str, bool); N]) -> Sorts {
    sorts.map(|(what, is)| (what.to_string(), is)).to_vec()
}

/// A case: what is lent, what is left, and what the same leaves without a list; of a count afresh, what is left.
struct Tried {
    name: String,
    tallied: Tallied,
    size: Size,
    before: Outcome,
    after: Outcome,
    own: Outcome,
    /// The tally of the sheet before; none where it is refused.
    right: Option<Vec<u32>>,
}

impl Tried {
    fn at_random(seed: u64) -> Tried {
        let (case, rules) = (Case::tallied(seed), Rules::document());
        let lent = || Outcome::before(case.held, &case.job);
        let (mut before, mut after, mut own) = (lent(), lent(), lent());
        after.by_rules(&rules, &case.job);
        own.by_rules(&rules, case.job.without_list().unwrap_or(&case.job));
        let Job::Tallied(tallied) = &case.job else { unreachable!() };
        let size = tallied.size().expect("a sheet");
        let sheet = Sheet { shape: size.shape(), bytes: &mut before.sheet };
        let right = no_sheet(&sheet).is_none().then(|| rules.counts(&sheet));
        Tried { name: case.job.name().into_owned(), tallied: tallied.clone(), size, before, after, own, right }
    }

    fn kept(&self) -> Option<&Job> {
        match &self.tallied.call {
            Call::Kept(job) => Some(job),
            Call::Afresh(_) => None,
        }
    }

    /// Whether the count of a row is this after a call that was done, beside what it was.
    fn moved(&self, so: fn(&u32, &u32) -> bool) -> bool {
        self.after.number == 0 && self.before.rows.iter().zip(&self.after.rows).any(|(before, after)| so(before, after))
    }

    /// The bytes of each row.
    fn rows(&self) -> impl Iterator<Item = (&[u8], &[u8])> {
        let rows = self.before.sheet.chunks(self.size.pitch.max(1) as usize);
        rows.map(|row| row.split_at(row.len().min(self.size.width as usize)))
    }
}

/// How each export ends; no count afresh is refused with 20.
fn ends(tried: &Tried) -> Sorts {
    let Tried { name, after, .. } = tried;
    let all = [("0", after.number == 0), ("19", after.number == 19), ("20", after.number == 20)];
    let moves = [("a count rises", tried.moved(|a, b| a < b)), ("a count falls", tried.moved(|a, b| a > b))];
    let kept = tried.kept().is_some();
    let of = all.into_iter().filter(|(end, _)| kept || *end != "20").chain(moves);
    of.map(|(what, is)| (format!("{name}: {what}"), is)).collect()
}

/// In which places a list of the sheet's height is wrong.
fn places(tried: &Tried) -> Sorts {
    let (list, right) = (&tried.before.rows, tried.right.as_deref().unwrap_or_default());
    let fits = tried.kept().is_some() && tried.right.is_some() && list.len() == right.len();
    let wrong: Vec<usize> = (0..right.len()).filter(|&y| fits && list[y] != right[y]).collect();
    let one = |so: &dyn Fn(usize) -> bool| wrong.len() == 1 && right.len() > 1 && so(wrong[0]);
    let sum = |numbers: &[u32]| numbers.iter().fold(0, |sum: u32, number| sum.wrapping_add(*number));
    let [_, top, _, rows] = tried.own.rectangle.map(|number| number as usize);
    let drawn = tried.own.number == 0 && !matches!(tried.kept(), Some(Job::Fill(..)));
    named([
        ("one place is wrong", one(&|_| true)),
        ("one place is one too great", one(&|y| list[y] == right[y] + 1)),
        ("one place is one too small", one(&|y| list[y] == right[y].wrapping_sub(1))),
        ("one place is wrong by 16 bits or more", one(&|y| list[y].wrapping_sub(right[y]) % 65_536 == 0)),
        ("the first row is wrong", one(&|y| y == 0)),
        ("the last row is wrong", one(&|y| y + 1 == right.len())),
        ("a blank row is wrong", one(&|y| right[y] == 0)),
        ("a row is wrong that the drawing sets a cell of", drawn && one(&|y| (top..top + rows).contains(&y))),
        ("a row is wrong beside the rectangle", drawn && rows > 0 && one(&|y| !(top..top + rows).contains(&y))),
        ("a list is wrong where no cell is set", drawn && rows == 0 && !wrong.is_empty()),
        ("the sum alone is right", wrong.len() > 1 && sum(list) == sum(right)),
        ("every row is wrong", right.len() > 3 && wrong.len() == right.len()),
    ])
}

/// What is said of a list's length and what it holds then.
fn lengths(tried: &Tried) -> Sorts {
    let (list, height) = (&tried.before.rows, tried.size.height as usize);
    let right = tried.right.as_deref().unwrap_or_default();
    let front = tried.right.is_some() && list.iter().zip(right).all(|(held, count)| held == count);
    let afresh = tried.kept().is_none();
    let sorts = [
        ("one shorter", front && list.len() + 1 == height && height > 1),
        ("one longer", front && list.len() == height + 1),
        ("empty", front && list.is_empty()),
        ("longer by many and right at the front", front && list.len() > height + 8),
        ("of another length and wrong", tried.right.is_some() && !front && list.len() != height),
    ];
    let to = if afresh { "a count afresh" } else { "a drawing" };
    let mut sorts: Sorts = sorts.map(|(what, is)| (format!("a list for {to} is {what}"), is)).to_vec();
    if afresh {
        let noise = matches!(tried.tallied.list.held, Held::Noise) && tried.after.number == 0;
        sorts.extend(named([("a count afresh onto noise", noise), ("a count afresh onto a right list", front)]));
    }
    sorts
}

/// In which order refusals come: each number of a drawing beside a right list, and behind a list that is refused.
fn orders(tried: &Tried) -> Sorts {
    let (number, own) = (tried.after.number, tried.own.number);
    let other_length = tried.before.rows.len() != tried.size.height as usize;
    let mut sorts = named([
        ("1 with a list of another length", number == 1 && other_length),
        ("1 with a list of that height", number == 1 && !other_length),
        ("15 with a list of another length", number == 15 && other_length),
        ("15 with a list of that height", number == 15 && !other_length),
    ]);
    if tried.kept().is_some() {
        for refused in [2, 3, 4, 6, 7, 8, 9, 10, 16, 17, 18] {
            sorts.push((format!("{refused} beside a right list"), number == refused));
            sorts.push((format!("{refused} behind 19"), number == 19 && own == refused));
            sorts.push((format!("{refused} behind 20"), number == 20 && own == refused));
        }
    }
    sorts
}

/// What a call that is done finds on its sheet, and sets.
fn sheets(tried: &Tried) -> Sorts {
    let Tried { before, after, size, .. } = tried;
    let done = after.number == 0;
    let row = |so: &dyn Fn(&[u8], &[u8]) -> bool| done && tried.rows().any(|(cells, padding)| so(cells, padding));
    let blank = |bytes: &[u8]| bytes.iter().all(|&byte| byte == 0);
    let same = before.sheet == after.sheet;
    let set = done && after.rectangle[2] > 0 && tried.kept().is_some();
    let (fill, shut) = match tried.kept() {
        Some(Job::Fill(_, fill, ..)) => (Some(fill), after.value == 0),
        _ => (None, false),
    };
    named([
        ("noise beside blank cells", row(&|cells, padding| blank(cells) && !blank(padding))),
        ("blank padding beside cells", row(&|cells, padding| !blank(cells) && !padding.is_empty() && blank(padding))),
        ("a row without a 0", row(&|cells, _| cells.len() > 1 && !cells.contains(&0))),
        ("a count above 255", done && before.rows.iter().chain(&after.rows).any(|&count| count > 255)),
        ("a sheet of one row", done && size.height == 1),
        ("a sheet of more than 255 rows", done && size.height > 255),
        ("only cells that had the ink are set", set && fill.is_none() && same),
        ("cells change and no count does", done && !same && before.rows == after.rows),
        ("some rows' counts rise and others' fall", tried.moved(|a, b| a < b) && tried.moved(|a, b| a > b)),
        ("a fill with a shut start", done && fill.is_some() && shut),
        ("a fill of equal inks", done && fill.is_some_and(|fill| fill.boundary == fill.territory) && !shut),
        ("a fill of ink 0 over others", fill.is_some_and(|fill| fill.territory == 0) && tried.moved(|a, b| a > b)),
        ("a fill against ink 0", done && fill.is_some_and(|fill| fill.boundary == 0) && !same),
        ("a file of several records", done && matches!(tried.kept(), Some(Job::File(..))) && after.value > 1 && !same),
    ])
}

/// By rules that spoil every place every list differs, of calls that are done or refused, and nothing else does.
#[test]
fn every_list_is_compared() {
    fn spoilt(list: &mut [u32]) {
        list.iter_mut().for_each(|place| *place = !*place);
    }
    let right = Rules::document();
    let tallier = Tallier {
        draw: |rules, lent, job| {
            let reply = draw(rules, lent, job);
            spoilt(lent.list);
            reply
        },
        afresh: |rules, sheet, list| {
            let number = afresh(rules, sheet, list);
            spoilt(list);
            number
        },
        ..right.tallier
    };
    let mut room = Room::default();
    for seed in 0..1000 {
        let case = Case::tallied(seed);
        let Job::Tallied(tallied) = &case.job else { unreachable!() };
        assert!(room.compare(&right, &case).is_ok(), "{case}");
        assert_eq!(room.compare(&Rules { tallier, ..right }, &case).is_err(), tallied.list.places > 0, "{case}");
    }
}

#[test]
fn lists_of_every_sort_come_at_random() {
    let mut seen: BTreeMap<String, u32> = BTreeMap::new();
    let (cases, mut done) = (20_000, 0);
    for seed in 0..cases {
        let tried = Tried::at_random(seed);
        done += u64::from(tried.after.number == 0);
        for (what, is) in [ends(&tried), places(&tried), lengths(&tried), orders(&tried), sheets(&tried)].concat() {
            *seen.entry(what).or_default() += u32::from(is);
        }
    }
    assert!(2 * done >= cases, "only {done} of {cases} calls are done");
    assert_eq!(seen.len(), (10 * 5 + 4) + 12 + (2 * 5 + 2) + (4 + 3 * 11) + 14, "sorts");
    for (what, times) in seen {
        assert!(times >= 10, "{what}: only {times} times");
    }
}
