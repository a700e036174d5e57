//! Tallies that are counted, looked at or counted afresh wrongly on purpose.
use crate::rule::{no_sheet, place, Rules, Shape, Sheet};
use crate::tally::{afresh, count, no_list, Tallier};
use crate::teeth_kept::wrong_keepers;

/// Each with what is wrong in it.
pub fn wrong_talliers() -> Vec<(&'static str, Rules)> {
    let wrong = [wrong_counts(), wrong_lists(), wrong_keepers(), wrong_afresh()].concat();
    wrong.into_iter().map(|(what, tallier)| (what, Rules { tallier, ..Rules::document() })).collect()
}

fn wrong_counts() -> Vec<(&'static str, Tallier)> {
    let right = Tallier::document();
    vec![
        ("padding is counted", Tallier { count: with_padding, ..right }),
        ("rows are counted a width apart", Tallier { count: unpadded, ..right }),
        ("only cells of ink 1 are counted", Tallier { count: ones, ..right }),
        ("a cell of ink 128 or more is not counted", Tallier { count: signed, ..right }),
        ("a row's first cell is not counted", Tallier { count: without_first, ..right }),
        ("a row's last cell is not counted", Tallier { count: without_last, ..right }),
        ("a row's count has 8 bits", Tallier { count: |sheet, y| count(sheet, y) % 256, ..right }),
    ]
}

fn wrong_lists() -> Vec<(&'static str, Tallier)> {
    let right = Tallier::document();
    vec![
        ("20 is told before 19", Tallier { no_list: twenty_first, ..right }),
        ("19 is told of a shorter list alone", Tallier { no_list: longer_taken, ..right }),
        ("19 is told of a longer list alone", Tallier { no_list: shorter_taken, ..right }),
        ("an empty list is taken for none", Tallier { no_list: empty_taken, ..right }),
        ("a wrong list is not refused", Tallier { no_list: never_wrong, ..right }),
        ("20 is told of the first row alone", Tallier { no_list: first_alone, ..right }),
        ("20 is told of the last row alone", Tallier { no_list: last_alone, ..right }),
        ("20 is told of every row but the last", Tallier { no_list: last_free, ..right }),
        ("20 is told of rows alone that have a nonzero cell", Tallier { no_list: blank_free, ..right }),
        ("20 is told by the sum of the rows", Tallier { no_list: by_sum, ..right }),
        ("20 is told of a count that is too great alone", Tallier { no_list: too_great, ..right }),
        ("20 is told of a count that is too small alone", Tallier { no_list: too_small, ..right }),
        ("20 is told by 16 bits of each place", Tallier { no_list: few_bits, ..right }),
    ]
}

fn wrong_afresh() -> Vec<(&'static str, Tallier)> {
    let right = Tallier::document();
    vec![
        ("a count afresh adds to what the list held", Tallier { afresh: added, ..right }),
        ("a count afresh refuses a wrong list with 20", Tallier { afresh: wrong_refused, ..right }),
        ("a count afresh leaves the last row", Tallier { afresh: last_left, ..right }),
        ("a count afresh leaves the blank rows", Tallier { afresh: blank_left, ..right }),
        ("a count afresh takes a longer list", Tallier { afresh: longer_counted, ..right }),
        ("a count afresh takes a shorter list", Tallier { afresh: shorter_counted, ..right }),
        ("a count afresh tells 19 before 15", Tallier { afresh: length_first, ..right }),
        ("a count afresh that is refused clears the list", Tallier { afresh: cleared, ..right }),
    ]
}

/// How many cells of a row in these columns have such an ink, where the sheet had this shape.
fn such(sheet: &Sheet, shape: Shape, y: i64, [first, after]: [i64; 2], has: impl Fn(u8) -> bool) -> u32 {
    let cells = (first..after).filter_map(|x| place(shape, (x, y)));
    cells.filter(|&place| has(sheet.bytes[place])).count() as u32
}

pub fn with_padding(sheet: &Sheet, y: i64) -> u32 {
    let pitch = sheet.shape.pitch;
    such(sheet, Shape { width: pitch, ..sheet.shape }, y, [0, pitch], |ink| ink != 0)
}

fn unpadded(sheet: &Sheet, y: i64) -> u32 {
    let width = sheet.shape.width;
    such(sheet, Shape { pitch: width, ..sheet.shape }, y, [0, width], |ink| ink != 0)
}

fn ones(sheet: &Sheet, y: i64) -> u32 {
    such(sheet, sheet.shape, y, [0, sheet.shape.width], |ink| ink == 1)
}

fn signed(sheet: &Sheet, y: i64) -> u32 {
    such(sheet, sheet.shape, y, [0, sheet.shape.width], |ink| ink as i8 > 0)
}

fn without_first(sheet: &Sheet, y: i64) -> u32 {
    such(sheet, sheet.shape, y, [1, sheet.shape.width], |ink| ink != 0)
}

fn without_last(sheet: &Sheet, y: i64) -> u32 {
    such(sheet, sheet.shape, y, [0, sheet.shape.width - 1], |ink| ink != 0)
}

/// 20 where a place differs that the list and the sheet both have a row for, by what is told of both.
fn wrong(rules: &Rules, sheet: &Sheet, list: &[u32], is: impl Fn(u32, u32) -> bool) -> Option<u32> {
    list.iter().zip(rules.counts(sheet)).any(|(&held, count)| is(held, count)).then_some(20)
}

/// 19, then 20 where a place of a row in this range differs.
fn within(rules: &Rules, sheet: &Sheet, list: &[u32], [first, after]: [usize; 2]) -> Option<u32> {
    no_list(rules, sheet, list).filter(|&number| {
        let counts = rules.counts(sheet);
        number == 19 || list[first..after] != counts[first..after]
    })
}

fn twenty_first(rules: &Rules, sheet: &Sheet, list: &[u32]) -> Option<u32> {
    wrong(rules, sheet, list, |held, count| held != count).or_else(|| no_list(rules, sheet, list))
}

fn longer_taken(rules: &Rules, sheet: &Sheet, list: &[u32]) -> Option<u32> {
    no_list(rules, sheet, &list[..list.len().min(sheet.shape.height as usize)])
}

fn shorter_taken(rules: &Rules, sheet: &Sheet, list: &[u32]) -> Option<u32> {
    if list.len() as i64 > sheet.shape.height {
        return Some(19);
    }
    wrong(rules, sheet, list, |held, count| held != count)
}

fn empty_taken(rules: &Rules, sheet: &Sheet, list: &[u32]) -> Option<u32> {
    no_list(rules, sheet, list).filter(|_| !list.is_empty())
}

fn never_wrong(rules: &Rules, sheet: &Sheet, list: &[u32]) -> Option<u32> {
    no_list(rules, sheet, list).filter(|&number| number == 19)
}

fn first_alone(rules: &Rules, sheet: &Sheet, list: &[u32]) -> Option<u32> {
    within(rules, sheet, list, [0, 1])
}

fn last_alone(rules: &Rules, sheet: &Sheet, list: &[u32]) -> Option<u32> {
    within(rules, sheet, list, [list.len().saturating_sub(1), list.len()])
}

fn last_free(rules: &Rules, sheet: &Sheet, list: &[u32]) -> Option<u32> {
    within(rules, sheet, list, [0, list.len().saturating_sub(1)])
}

/// 19, then 20 by what is told of a place and its row's count.
fn by_place(rules: &Rules, sheet: &Sheet, list: &[u32], is: impl Fn(u32, u32) -> bool) -> Option<u32> {
    no_list(rules, sheet, list).filter(|&number| number == 19 || wrong(rules, sheet, list, is).is_some())
}

fn blank_free(rules: &Rules, sheet: &Sheet, list: &[u32]) -> Option<u32> {
    by_place(rules, sheet, list, |held, count| count > 0 && held != count)
}

fn too_great(rules: &Rules, sheet: &Sheet, list: &[u32]) -> Option<u32> {
    by_place(rules, sheet, list, |held, count| held > count)
}

fn too_small(rules: &Rules, sheet: &Sheet, list: &[u32]) -> Option<u32> {
    by_place(rules, sheet, list, |held, count| held < count)
}

fn few_bits(rules: &Rules, sheet: &Sheet, list: &[u32]) -> Option<u32> {
    by_place(rules, sheet, list, |held, count| held % 65_536 != count % 65_536)
}

fn by_sum(rules: &Rules, sheet: &Sheet, list: &[u32]) -> Option<u32> {
    let sum = |numbers: &[u32]| numbers.iter().fold(0, |sum: u32, number| sum.wrapping_add(*number));
    no_list(rules, sheet, list).filter(|&number| number == 19 || sum(list) != sum(&rules.counts(sheet)))
}

fn added(rules: &Rules, sheet: &Sheet, list: &mut [u32]) -> u32 {
    let held = list.to_vec();
    let number = afresh(rules, sheet, list);
    if number == 0 {
        list.iter_mut().zip(held).for_each(|(place, held)| *place = place.wrapping_add(held));
    }
    number
}

fn wrong_refused(rules: &Rules, sheet: &Sheet, list: &mut [u32]) -> u32 {
    let refused = (rules.no_sheet)(sheet).or_else(|| no_list(rules, sheet, list));
    refused.unwrap_or_else(|| afresh(rules, sheet, list))
}

fn last_left(rules: &Rules, sheet: &Sheet, list: &mut [u32]) -> u32 {
    let last = list.last().copied();
    let number = afresh(rules, sheet, list);
    list.iter_mut().next_back().zip(last).into_iter().for_each(|(place, last)| *place = last);
    number
}

fn blank_left(rules: &Rules, sheet: &Sheet, list: &mut [u32]) -> u32 {
    let held = list.to_vec();
    let number = afresh(rules, sheet, list);
    list.iter_mut().zip(held).filter(|(count, _)| **count == 0).for_each(|(place, held)| *place = held);
    number
}

fn longer_counted(rules: &Rules, sheet: &Sheet, list: &mut [u32]) -> u32 {
    let rows = list.len().min(sheet.shape.height as usize);
    afresh(rules, sheet, &mut list[..rows])
}

fn shorter_counted(rules: &Rules, sheet: &Sheet, list: &mut [u32]) -> u32 {
    match afresh(rules, sheet, list) {
        19 if (list.len() as i64) < sheet.shape.height => {
            rules.recount(sheet, list);
            0
        }
        number => number,
    }
}

fn length_first(rules: &Rules, sheet: &Sheet, list: &mut [u32]) -> u32 {
    match no_sheet(sheet) {
        Some(15) if list.len() as i64 != sheet.shape.height => 19,
        _ => afresh(rules, sheet, list),
    }
}

fn cleared(rules: &Rules, sheet: &Sheet, list: &mut [u32]) -> u32 {
    let number = afresh(rules, sheet, list);
    if number != 0 {
        list.fill(0);
    }
    number
}
