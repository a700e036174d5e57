//! The tally of a sheet: how many cells of each row are nonzero, counted cell by cell, and drawings that keep it.
use crate::case::Job;
use crate::rule::{place, Reply, Rules, Sheet};

/// What a drawing or fill is lent that keeps a tally: the sheet, the list beside it, and a fill's work slice.
pub struct Beside<'a> {
    pub sheet: Sheet<'a>,
    pub list: &'a mut [u32],
    pub work: &'a mut [u32],
}

/// The rules of a tally, each replaceable as those of drawing are.
#[derive(Clone, Copy)]
pub struct Tallier {
    /// How many cells of this row are nonzero.
    pub count: fn(&Sheet, i64) -> u32,
    /// The number 19 or 20 that refuses a list beside a sheet that is not refused.
    pub no_list: fn(&Rules, &Sheet, &[u32]) -> Option<u32>,
    /// Puts the list right after a drawing or fill that was done and replied so.
    pub keep: fn(&Rules, &Sheet, &Job, &Reply, &mut [u32]),
    /// Draws or fills, and keeps the list.
    pub draw: fn(&Rules, &mut Beside, &Job) -> Reply,
    /// Counts a sheet afresh: the reply.
    pub afresh: fn(&Rules, &Sheet, &mut [u32]) -> u32,
}

impl Tallier {
    pub fn document() -> Tallier {
        Tallier { count, no_list, keep: |rules, sheet, _, _, list| rules.recount(sheet, list), draw, afresh }
    }
}

impl Rules {
    /// The tally of a sheet that is not refused.
    pub fn counts(&self, sheet: &Sheet) -> Vec<u32> {
        (0..sheet.shape.height).map(|y| (self.tallier.count)(sheet, y)).collect()
    }

    /// Puts the tally in the list.
    pub fn recount(&self, sheet: &Sheet, list: &mut [u32]) {
        list.iter_mut().zip(self.counts(sheet)).for_each(|(place, count)| *place = count);
    }

    /// The reply to a drawing or fill that is refused for its sheet or its list; a file tells offset 0 with it.
    pub fn refused_beside(&self, job: &Job, number: u32) -> Reply {
        match job {
            Job::File(..) => self.refused_file(number, 0),
            Job::Fill(..) => Reply::refused(number),
            _ => self.refused(number),
        }
    }
}

/// The cells alone, and not the padding.
pub fn count(sheet: &Sheet, y: i64) -> u32 {
    let cells = (0..sheet.shape.width).filter_map(|x| place(sheet.shape, (x, y)));
    cells.filter(|&place| sheet.bytes[place] != 0).count() as u32
}

/// 19 for the list's length, then 20 for what it holds.
pub fn no_list(rules: &Rules, sheet: &Sheet, list: &[u32]) -> Option<u32> {
    if list.len() as i64 != sheet.shape.height {
        return Some(19);
    }
    (list != rules.counts(sheet)).then_some(20)
}

/// 1, 15, 19, 20, then all as without a list; when it is done, every row is counted again.
pub fn draw(rules: &Rules, lent: &mut Beside, job: &Job) -> Reply {
    let no_sheet = (rules.no_sheet)(&lent.sheet);
    if let Some(number) = no_sheet.or_else(|| (rules.tallier.no_list)(rules, &lent.sheet, lent.list)) {
        return rules.refused_beside(job, number);
    }
    let reply = rules.without_list(&mut lent.sheet, lent.work, job);
    if reply.number == 0 {
        (rules.tallier.keep)(rules, &lent.sheet, job, &reply, lent.list);
    }
    reply
}

/// 1, 15, 19; what the list held is not looked at.
pub fn afresh(rules: &Rules, sheet: &Sheet, list: &mut [u32]) -> u32 {
    if let Some(number) = (rules.no_sheet)(sheet) {
        return number;
    }
    if list.len() as i64 != sheet.shape.height {
        return 19;
    }
    rules.recount(sheet, list);
    0
}

#[cfg(test)]
mod tests {
    use super::*;
    use crate::case::Size;
    use crate::ground::Ground;
    use crate::native::{Cells, Fill};
    use crate::rule::Shape;

    /// Four cells and two bytes of padding in each row; the tally is 2, 0, 4.
    const BEFORE: [u8; 18] = [0, 7, 0, 1, 9, 9, 0, 0, 0, 0, 9, 0, 1, 2, 255, 128, 0, 9];
    const RIGHT: [u32; 3] = [2, 0, 4];
    const SIZE: Size = Size { len: 18, width: 4, height: 3, pitch: 6 };

    /// The reply, whether the sheet changed, and the list afterwards.
    fn drawn(list: &[u32], job: Job) -> (u32, bool, Vec<u32>) {
        let (mut bytes, mut list) = (BEFORE, list.to_vec());
        let sheet = Sheet { shape: SIZE.shape(), bytes: &mut bytes };
        let mut lent = Beside { sheet, list: &mut list, work: &mut [0; 12] };
        let reply = draw(&Rules::document(), &mut lent, &job);
        (reply.number, bytes != BEFORE, list)
    }

    fn line(ink: u8, ends: [i32; 4]) -> Job {
        Job::Cells(SIZE, ink, Cells::Line(ends))
    }

    fn fill(start: [i32; 2], boundary: u8, territory: u8) -> Job {
        Job::Fill(SIZE, Fill { start, boundary, territory }, 12, Ground::Noise(0))
    }

    #[test]
    fn tallies_by_hand() {
        assert_eq!(drawn(&RIGHT, line(5, [0, 0, 3, 0])), (0, true, vec![4, 0, 4]));
        assert_eq!(drawn(&RIGHT, line(0, [3, 0, 3, 2])), (0, true, vec![1, 0, 3]));
        assert_eq!(drawn(&RIGHT, line(5, [0, 2, 3, 2])), (0, true, vec![2, 0, 4]));
        assert_eq!(drawn(&RIGHT, line(0, [0, 1, 9, 1])), (0, false, vec![2, 0, 4]));
        assert_eq!(drawn(&RIGHT, fill([0, 1], 1, 3)), (0, true, vec![4, 4, 4]));
        assert_eq!(drawn(&RIGHT, fill([2, 2], 1, 0)), (0, true, vec![1, 0, 1]));
        assert_eq!(drawn(&RIGHT, fill([3, 0], 1, 3)), (0, false, vec![2, 0, 4]));
    }

    #[test]
    fn lists_are_refused_in_order() {
        let off = [0, 0, 16_384, 0];
        for (list, number) in [(&RIGHT[..2], 19), (&[2, 0, 4, 0], 19), (&[], 19), (&[2, 1, 4], 20), (&[2, 0, 3], 20)] {
            for job in [line(5, [0, 0, 3, 0]), line(5, off), fill([0, 1], 1, 3), fill([9, 9], 1, 3)] {
                assert_eq!(drawn(list, job), (number, false, list.to_vec()));
            }
            let file = Job::File(SIZE, vec![7]);
            assert_eq!(drawn(list, file), (number, false, list.to_vec()));
        }
        assert_eq!(drawn(&RIGHT, line(5, off)), (2, false, RIGHT.to_vec()));
        assert_eq!(drawn(&RIGHT, fill([9, 9], 1, 3)), (18, false, RIGHT.to_vec()));
    }

    #[test]
    fn a_count_afresh_takes_any_list_of_its_length() {
        let counted = |height: i64, list: &[u32]| {
            let (mut bytes, mut list) = (BEFORE, list.to_vec());
            let sheet = Sheet { shape: Shape { width: 4, height, pitch: 6 }, bytes: &mut bytes };
            (afresh(&Rules::document(), &sheet, &mut list), list)
        };
        assert_eq!(counted(3, &[9, 9, u32::MAX]), (0, RIGHT.to_vec()));
        assert_eq!(counted(3, &[9, 9]), (19, vec![9, 9]));
        assert_eq!(counted(3, &[9; 4]), (19, vec![9; 4]));
        assert_eq!(counted(2, &[9; 3]), (15, vec![9; 3]));
        assert_eq!(counted(0, &[9; 3]), (1, vec![9; 3]));
    }
}
