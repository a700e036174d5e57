//! Drawings and fills that keep a tally wrongly on purpose, or refuse out of order.
use crate::case::Job;
use crate::native::Cells;
use crate::repaint::NONE;
use crate::rule::{place, Figure, Reply, Rules, Sheet};
use crate::run::widened;
use crate::tally::{draw, no_list, Beside, Tallier};
use crate::teeth_tally::with_padding;
use std::ops::Range;

/// Each with what is wrong in it.
pub fn wrong_keepers() -> Vec<(&'static str, Tallier)> {
    [wrong_rows(), wrong_forms(), wrong_orders(), wrong_refusals()].concat()
}

fn wrong_rows() -> Vec<(&'static str, Tallier)> {
    let right = Tallier::document();
    vec![
        ("rows are counted before the drawing", Tallier { keep: |_, _, _, _, _| (), ..right }),
        ("of the rectangle only the first row is counted", Tallier { keep: first_row, ..right }),
        ("of the rectangle only the last row is counted", Tallier { keep: last_row, ..right }),
        ("of the rectangle the last row is not counted", Tallier { keep: row_short, ..right }),
        ("after a drawing the padding is counted too", Tallier { keep: padded, ..right }),
        ("cells that equal the ink are counted", Tallier { keep: equal_to_ink, ..right }),
        ("a cell that is set is counted once more", Tallier { keep: once_more, ..right }),
        ("a row's count never falls", Tallier { keep: only_grows, ..right }),
        ("a row's count never rises", Tallier { keep: only_falls, ..right }),
        ("a done drawing changes the count of a row that it left", Tallier { keep: row_beside, ..right }),
        ("rows are not counted where a figure of ink 0 is drawn", Tallier { keep: figure_of_0, ..right }),
        ("rows are not counted where a fill sets ink 0", Tallier { keep: fill_of_0, ..right }),
    ]
}

fn wrong_forms() -> Vec<(&'static str, Tallier)> {
    let right = Tallier::document();
    vec![
        ("a line's rows are not counted", Tallier { keep: no_line, ..right }),
        ("a ring's rows are not counted", Tallier { keep: no_ring, ..right }),
        ("a curve's rows are not counted", Tallier { keep: no_curve, ..right }),
        ("a cubic's rows are not counted", Tallier { keep: no_cubic, ..right }),
        ("the rows of a figure in metres are not counted", Tallier { keep: no_metres, ..right }),
        ("a file's rows are not counted", Tallier { keep: no_file, ..right }),
        ("of a file only the first record's rows are counted", Tallier { keep: first_record, ..right }),
        ("of a file only the last record's rows are counted", Tallier { keep: last_record, ..right }),
        ("a fill's rows are not counted", Tallier { keep: no_fill, ..right }),
        ("of a fill only the start's row is counted", Tallier { keep: start_row, ..right }),
    ]
}

fn wrong_orders() -> Vec<(&'static str, Tallier)> {
    let right = Tallier::document();
    vec![
        ("19 is told before 1", Tallier { draw: before_sizes, ..right }),
        ("19 is told before 15", Tallier { draw: before_slice, ..right }),
        ("20 is told before 15", Tallier { draw: counted_first, ..right }),
        ("19 is told after a drawing's own refusals", Tallier { draw: length_late, ..right }),
        ("20 is told after a drawing's own refusals", Tallier { draw: wrong_late, ..right }),
        ("20 is told of the rectangle's rows alone", Tallier { draw: rectangle_alone, ..right }),
        ("20 is not told where no cell is set", Tallier { draw: nothing_set, ..right }),
    ]
}

fn wrong_refusals() -> Vec<(&'static str, Tallier)> {
    let right = Tallier::document();
    vec![
        ("a wrong list is put right and drawn beside", Tallier { draw: mended, ..right }),
        ("a wrong list is refused and put right", Tallier { draw: refused_and_mended, ..right }),
        ("a list of another length is cleared", Tallier { draw: cleared, ..right }),
        ("a drawing that is refused for itself clears the list", Tallier { draw: own_clears, ..right }),
        ("what is refused with 20 is drawn", Tallier { draw: drawn_all_the_same, ..right }),
        ("20 clears the box", Tallier { draw: box_cleared, ..right }),
        ("20 tells 0 cells", Tallier { draw: no_cells, ..right }),
        ("20 touches the work slice", Tallier { draw: work_cleared, ..right }),
        ("a file leaves its value with 19 and 20", Tallier { draw: no_offset, ..right }),
        ("a file tells its own offset with 19 and 20", Tallier { draw: own_offset, ..right }),
    ]
}

/// The rows of the rectangle; all where none is told.
fn rows(sheet: &Sheet, reply: &Reply) -> Range<usize> {
    match reply.rectangle {
        Some([_, y, _, height]) => y as usize..(y + height) as usize,
        None => 0..sheet.shape.height as usize,
    }
}

fn recount(rules: &Rules, sheet: &Sheet, list: &mut [u32], rows: impl IntoIterator<Item = usize>) {
    rows.into_iter().for_each(|y| list[y] = (rules.tallier.count)(sheet, y as i64));
}

fn first_row(rules: &Rules, sheet: &Sheet, _: &Job, reply: &Reply, list: &mut [u32]) {
    recount(rules, sheet, list, rows(sheet, reply).take(1));
}

fn last_row(rules: &Rules, sheet: &Sheet, _: &Job, reply: &Reply, list: &mut [u32]) {
    recount(rules, sheet, list, rows(sheet, reply).last());
}

fn row_short(rules: &Rules, sheet: &Sheet, _: &Job, reply: &Reply, list: &mut [u32]) {
    recount(rules, sheet, list, rows(sheet, reply).rev().skip(1));
}

fn padded(_: &Rules, sheet: &Sheet, _: &Job, reply: &Reply, list: &mut [u32]) {
    rows(sheet, reply).for_each(|y| list[y] = with_padding(sheet, y as i64));
}

fn equal_to_ink(rules: &Rules, sheet: &Sheet, job: &Job, reply: &Reply, list: &mut [u32]) {
    let (Job::Cells(_, ink, _) | Job::Metres(_, ink, ..)) = job else {
        return rules.recount(sheet, list);
    };
    for y in rows(sheet, reply) {
        let cells = (0..sheet.shape.width).filter_map(|x| place(sheet.shape, (x, y as i64)));
        list[y] = cells.filter(|&place| sheet.bytes[place] == *ink).count() as u32;
    }
}

fn once_more(rules: &Rules, sheet: &Sheet, job: &Job, _: &Reply, list: &mut [u32]) {
    match job {
        Job::Cells(_, 1.., figure @ Cells::Line(_)) => {
            let places = rules.places(sheet.shape, &widened(figure)).into_iter();
            places.for_each(|place| list[place / sheet.shape.pitch as usize] += 1);
        }
        _ => rules.recount(sheet, list),
    }
}

/// Each place becomes what is told of it and its row's count.
fn each(rules: &Rules, sheet: &Sheet, list: &mut [u32], told: fn(u32, u32) -> u32) {
    list.iter_mut().zip(rules.counts(sheet)).for_each(|(place, count)| *place = told(*place, count));
}

fn only_grows(rules: &Rules, sheet: &Sheet, _: &Job, _: &Reply, list: &mut [u32]) {
    each(rules, sheet, list, u32::max);
}

fn only_falls(rules: &Rules, sheet: &Sheet, _: &Job, _: &Reply, list: &mut [u32]) {
    each(rules, sheet, list, u32::min);
}

fn row_beside(rules: &Rules, sheet: &Sheet, _: &Job, reply: &Reply, list: &mut [u32]) {
    rules.recount(sheet, list);
    if let Some(place) = list.get_mut(rows(sheet, reply).end) {
        *place += 1;
    }
}

/// Counts the rows again, but where this is so.
fn unless(left: bool, rules: &Rules, sheet: &Sheet, list: &mut [u32]) {
    if !left {
        rules.recount(sheet, list);
    }
}

fn figure_of_0(rules: &Rules, sheet: &Sheet, job: &Job, _: &Reply, list: &mut [u32]) {
    unless(matches!(job, Job::Cells(_, 0, _) | Job::Metres(_, 0, ..)), rules, sheet, list);
}

fn fill_of_0(rules: &Rules, sheet: &Sheet, job: &Job, _: &Reply, list: &mut [u32]) {
    unless(matches!(job, Job::Fill(_, fill, ..) if fill.territory == 0), rules, sheet, list);
}

fn no_line(rules: &Rules, sheet: &Sheet, job: &Job, _: &Reply, list: &mut [u32]) {
    unless(matches!(job, Job::Cells(.., Cells::Line(_))), rules, sheet, list);
}

fn no_ring(rules: &Rules, sheet: &Sheet, job: &Job, _: &Reply, list: &mut [u32]) {
    unless(matches!(job, Job::Cells(.., Cells::Circle(..) | Cells::Ellipse(..))), rules, sheet, list);
}

fn no_curve(rules: &Rules, sheet: &Sheet, job: &Job, _: &Reply, list: &mut [u32]) {
    unless(matches!(job, Job::Cells(.., Cells::Curve(..))), rules, sheet, list);
}

fn no_cubic(rules: &Rules, sheet: &Sheet, job: &Job, _: &Reply, list: &mut [u32]) {
    unless(matches!(job, Job::Cells(.., Cells::Cubic(..))), rules, sheet, list);
}

fn no_metres(rules: &Rules, sheet: &Sheet, job: &Job, _: &Reply, list: &mut [u32]) {
    unless(matches!(job, Job::Metres(..)), rules, sheet, list);
}

fn no_file(rules: &Rules, sheet: &Sheet, job: &Job, _: &Reply, list: &mut [u32]) {
    unless(matches!(job, Job::File(..)), rules, sheet, list);
}

fn no_fill(rules: &Rules, sheet: &Sheet, job: &Job, _: &Reply, list: &mut [u32]) {
    unless(matches!(job, Job::Fill(..)), rules, sheet, list);
}

fn start_row(rules: &Rules, sheet: &Sheet, job: &Job, _: &Reply, list: &mut [u32]) {
    match job {
        Job::Fill(_, fill, ..) => recount(rules, sheet, list, [fill.start[1] as usize]),
        _ => rules.recount(sheet, list),
    }
}

/// Of a file, counts the rows of the record that is chosen.
fn of_record(rules: &Rules, sheet: &Sheet, job: &Job, list: &mut [u32], chosen: fn(&[Figure]) -> Option<&Figure>) {
    let Job::File(_, file) = job else {
        return rules.recount(sheet, list);
    };
    let mut figures = Vec::new();
    rules.read(file, |_, figure| figures.push(figure)).expect("a file that was drawn");
    let places = chosen(&figures).map_or(Vec::new(), |figure| rules.places(sheet.shape, figure));
    recount(rules, sheet, list, places.into_iter().map(|place| place / sheet.shape.pitch as usize));
}

fn first_record(rules: &Rules, sheet: &Sheet, job: &Job, _: &Reply, list: &mut [u32]) {
    of_record(rules, sheet, job, list, |figures| figures.first());
}

fn last_record(rules: &Rules, sheet: &Sheet, job: &Job, _: &Reply, list: &mut [u32]) {
    of_record(rules, sheet, job, list, |figures| figures.last());
}

/// Whether the list has another length than the sheet has rows.
fn other_length(lent: &Beside) -> bool {
    lent.list.len() as i64 != lent.sheet.shape.height
}

fn before_sizes(rules: &Rules, lent: &mut Beside, job: &Job) -> Reply {
    match (rules.no_sheet)(&lent.sheet) {
        Some(1) if other_length(lent) => rules.refused_beside(job, 19),
        _ => draw(rules, lent, job),
    }
}

fn before_slice(rules: &Rules, lent: &mut Beside, job: &Job) -> Reply {
    match (rules.no_sheet)(&lent.sheet) {
        Some(15) if other_length(lent) => rules.refused_beside(job, 19),
        _ => draw(rules, lent, job),
    }
}

/// Bytes that a slice lacks are counted as 0.
fn counted_first(rules: &Rules, lent: &mut Beside, job: &Job) -> Reply {
    let shape = lent.sheet.shape;
    if (rules.no_sheet)(&lent.sheet) == Some(15) {
        let mut bytes = lent.sheet.bytes.to_vec();
        bytes.resize((shape.pitch * shape.height) as usize, 0);
        if no_list(rules, &Sheet { shape, bytes: &mut bytes }, lent.list) == Some(20) {
            return rules.refused_beside(job, 20);
        }
    }
    draw(rules, lent, job)
}

/// What the same replies without a list on a copy of the sheet.
fn on_a_copy(rules: &Rules, lent: &Beside, job: &Job) -> Reply {
    let (mut bytes, mut work) = (lent.sheet.bytes.to_vec(), lent.work.to_vec());
    rules.without_list(&mut Sheet { shape: lent.sheet.shape, bytes: &mut bytes }, &mut work, job)
}

/// The reply, but with this number that of the same without a list where that is refused too.
fn late(rules: &Rules, lent: &mut Beside, job: &Job, number: u32) -> Reply {
    let reply = draw(rules, lent, job);
    let own = on_a_copy(rules, lent, job);
    if reply.number == number && own.number != 0 {
        return own;
    }
    reply
}

fn length_late(rules: &Rules, lent: &mut Beside, job: &Job) -> Reply {
    late(rules, lent, job, 19)
}

fn wrong_late(rules: &Rules, lent: &mut Beside, job: &Job) -> Reply {
    late(rules, lent, job, 20)
}

/// All rows where no cell is set.
fn rectangle_alone(rules: &Rules, lent: &mut Beside, job: &Job) -> Reply {
    let own = on_a_copy(rules, lent, job);
    if own.number == 0 && own.rectangle != Some(NONE) && !other_length(lent) {
        let (counts, rows) = (rules.counts(&lent.sheet), rows(&lent.sheet, &own));
        if lent.list[rows.clone()] == counts[rows] {
            lent.list.copy_from_slice(&counts);
        }
    }
    draw(rules, lent, job)
}

fn nothing_set(rules: &Rules, lent: &mut Beside, job: &Job) -> Reply {
    let reply = draw(rules, lent, job);
    let own = on_a_copy(rules, lent, job);
    if reply.number == 20 && own.rectangle == Some(NONE) {
        return own;
    }
    reply
}

fn mended(rules: &Rules, lent: &mut Beside, job: &Job) -> Reply {
    let reply = draw(rules, lent, job);
    if reply.number != 20 {
        return reply;
    }
    rules.recount(&lent.sheet, lent.list);
    draw(rules, lent, job)
}

fn refused_and_mended(rules: &Rules, lent: &mut Beside, job: &Job) -> Reply {
    let reply = draw(rules, lent, job);
    if reply.number == 20 {
        rules.recount(&lent.sheet, lent.list);
    }
    reply
}

fn cleared(rules: &Rules, lent: &mut Beside, job: &Job) -> Reply {
    let reply = draw(rules, lent, job);
    if reply.number == 19 {
        lent.list.fill(0);
    }
    reply
}

fn own_clears(rules: &Rules, lent: &mut Beside, job: &Job) -> Reply {
    let reply = draw(rules, lent, job);
    if !matches!(reply.number, 0 | 1 | 15 | 19 | 20) {
        lent.list.fill(0);
    }
    reply
}

fn drawn_all_the_same(rules: &Rules, lent: &mut Beside, job: &Job) -> Reply {
    let reply = draw(rules, lent, job);
    if reply.number == 20 {
        rules.without_list(&mut lent.sheet, lent.work, job);
    }
    reply
}

fn box_cleared(rules: &Rules, lent: &mut Beside, job: &Job) -> Reply {
    let reply = draw(rules, lent, job);
    let drawing = !matches!(job, Job::Fill(..));
    Reply { rectangle: if reply.number == 20 && drawing { Some(NONE) } else { reply.rectangle }, ..reply }
}

fn no_cells(rules: &Rules, lent: &mut Beside, job: &Job) -> Reply {
    let reply = draw(rules, lent, job);
    let tells = matches!(job, Job::Fill(..) | Job::Cells(.., Cells::Line(_)));
    Reply { value: if reply.number == 20 && tells { Some(0) } else { reply.value }, ..reply }
}

fn work_cleared(rules: &Rules, lent: &mut Beside, job: &Job) -> Reply {
    let reply = draw(rules, lent, job);
    if reply.number == 20 {
        lent.work.fill(0);
    }
    reply
}

fn no_offset(rules: &Rules, lent: &mut Beside, job: &Job) -> Reply {
    let reply = draw(rules, lent, job);
    Reply { value: reply.value.filter(|_| !matches!(reply.number, 19 | 20)), ..reply }
}

fn own_offset(rules: &Rules, lent: &mut Beside, job: &Job) -> Reply {
    let reply = draw(rules, lent, job);
    let own = on_a_copy(rules, lent, job);
    Reply { value: if matches!(reply.number, 19 | 20) && own.number != 0 { own.value } else { reply.value }, ..reply }
}
