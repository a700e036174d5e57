//! That every drawing's rectangle is compared, and that random cases bring rectangles of every sort.
use crate::case::{Case, Job};
use crate::repaint::{over, Painted, Rectangle, Repainter, NONE};
use crate::rule::{place, Cell, Figure, Rules, Shape, Sheet};
use crate::run::{Outcome, Room};
use crate::teeth_repaint::reach;
use crate::territory::reached;
use std::cell::RefCell;
use std::collections::{BTreeMap, BTreeSet};
use std::slice::from_ref;

thread_local! {
    /// What was drawn since the last look.
    static DRAWN: RefCell<Vec<(Shape, Vec<Painted>)>> = const { RefCell::new(Vec::new()) };
}

fn noted(_: &Rules, shape: Shape, painted: &[Painted]) -> Option<Rectangle> {
    DRAWN.with_borrow_mut(|drawn| drawn.push((shape, painted.to_vec())));
    None
}

/// What may be true of a drawing, and whether it is of this one.
type Sorts = Vec<(&'static str, bool)>;

/// At which side of the sheet a figure is that has rows or columns in common with it.
fn beside(shape: Shape, one: &Painted) -> Sorts {
    let [[left, right], [top, bottom]] = reach(&Rules::document(), &one.figure);
    let (columns, rows) = (left < shape.width && right >= 0, top < shape.height && bottom >= 0);
    vec![
        ("off the sheet at its left", rows && right < 0),
        ("off the sheet at its right", rows && left >= shape.width),
        ("off the sheet above", columns && bottom < 0),
        ("off the sheet below", columns && top >= shape.height),
    ]
}

/// How many parts the cells that were set have, where neighbours touch by a side or a corner; of large sheets none.
fn parts(shape: Shape, one: &Painted) -> usize {
    let steps: Vec<Cell> = (-1..=1).flat_map(|x| [(x, -1), (x, 0), (x, 1)]).collect();
    let mut bytes = vec![0; (shape.pitch * shape.height) as usize];
    one.set.iter().for_each(|&(place, _)| bytes[place] = 1);
    let mut parts = 0;
    while let Some(start) = bytes.iter().position(|&mark| mark == 1).filter(|_| bytes.len() < 10_000) {
        let start = (start as i64 % shape.pitch, start as i64 / shape.pitch);
        for cell in reached(&Sheet { shape, bytes: &mut bytes }, &[start], &steps, |mark| mark == 1) {
            bytes[place(shape, cell).expect("a cell of the sheet")] = 0;
        }
        parts += 1;
    }
    parts
}

/// Sizes of a rectangle on a sheet of more than one row and column, and whether what was set had been so.
fn sizes(shape: Shape, painted: &[Painted]) -> Sorts {
    let [_, _, width, height] = over(shape, painted);
    let large = shape.width > 1 && shape.height > 1;
    let had_ink = |one: &Painted| one.set.iter().all(|&(_, before)| before == one.ink);
    vec![
        ("one cell", large && (width, height) == (1, 1)),
        ("one row", large && width > 1 && height == 1),
        ("one column", large && width == 1 && height > 1),
        ("only cells that had the ink", width > 0 && painted.iter().all(had_ink)),
    ]
}

fn of_figure(shape: Shape, one: &Painted) -> Sorts {
    let ring = matches!(one.figure, Figure::Circle(..) | Figure::Ellipse(..));
    let parts = if ring { parts(shape, one) } else { 0 };
    let arcs = vec![("two arcs", parts == 2), ("four arcs", parts == 4)];
    [beside(shape, one), arcs, sizes(shape, from_ref(one))].concat()
}

/// The quarter of the sheet that a rectangle is in, told by whether it is the right one and the lower one.
fn quarter(shape: Shape, [x, y, width, height]: Rectangle) -> Option<[bool; 2]> {
    let half = |first: u32, count: u32, side: i64| match (2 * i64::from(first), 2 * i64::from(first + count)) {
        (_, end) if end <= side => Some(false),
        (first, _) if first >= side => Some(true),
        _ => None,
    };
    Some([half(x, width, shape.width)?, half(y, height, shape.height)?])
}

/// In opposite corners a file is each of whose records is in one of two opposite quarters, or off the sheet.
fn of_file(shape: Shape, painted: &[Painted]) -> Sorts {
    let each: Vec<Rectangle> = painted.iter().map(|one| over(shape, from_ref(one))).collect();
    let on_sheet: Vec<Rectangle> = each.iter().copied().filter(|&rectangle| rectangle != NONE).collect();
    let quarters: Option<BTreeSet<[bool; 2]>> = on_sheet.iter().map(|&rectangle| quarter(shape, rectangle)).collect();
    let quarters = Vec::from_iter(quarters.unwrap_or_default());
    let opposite = matches!(quarters[..], [one, other] if one == other.map(|half| !half));
    let all_off = !each.is_empty() && on_sheet.is_empty();
    let some_off = on_sheet.len() < each.len() && !on_sheet.is_empty();
    let files = vec![("opposite corners", opposite), ("all off the sheet", all_off), ("some off the sheet", some_off)];
    [files, sizes(shape, painted)].concat()
}

/// By rules that always tell a wrong rectangle every drawing differs, done or refused, and nothing else does.
#[test]
fn every_drawing_is_compared_in_its_rectangle() {
    const WRONG: Option<Rectangle> = Some([u32::MAX; 4]);
    let right = Rules::document();
    let repainter = Repainter { told: |_, _, _| WRONG, refused: WRONG, refused_file: WRONG };
    let mut room = Room::default();
    for seed in 0..1000 {
        let others = [Case::rescue, Case::fill, Case::write, Case::tallied, Case::pictured];
        for make in [Case::figure, Case::file, Case::damaged].into_iter().chain(others) {
            let case = make(seed);
            let (number, _) = room.compare(&right, &case).unwrap();
            let draws = match case.job.without_list().unwrap_or(&case.job) {
                Job::Cells(..) | Job::Metres(..) | Job::File(..) => true,
                // a refused rescue leaves nothing to draw
                Job::Rescue(_) => number == 0,
                _ => false,
            };
            assert_eq!(room.compare(&Rules { repainter, ..right }, &case).is_err(), draws, "{case}");
        }
    }
}

#[test]
fn rectangles_of_every_sort_come_at_random() {
    let right = Rules::document();
    let rules = Rules { repainter: Repainter { told: noted, ..right.repainter }, ..right };
    let mut seen: BTreeMap<(&str, &str), u32> = BTreeMap::new();
    for seed in 0..20_000 {
        for case in [Case::figure(seed), Case::file(seed)] {
            Outcome::before(case.held, &case.job).by_rules(&rules, &case.job);
            for (shape, painted) in DRAWN.take() {
                let (given, sorts) = match case.job {
                    Job::Cells(..) => ("cells", of_figure(shape, &painted[0])),
                    Job::Metres(..) => ("metres", of_figure(shape, &painted[0])),
                    _ => ("a file", of_file(shape, &painted)),
                };
                for (what, is) in sorts {
                    *seen.entry((given, what)).or_default() += u32::from(is);
                }
            }
        }
    }
    assert_eq!(seen.len(), 10 + 10 + 7, "sorts in cells, in metres and in files");
    for ((given, what), times) in seen {
        assert!(times >= 40, "{what} in {given}: only {times} times");
    }
}
