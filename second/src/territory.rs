//! Filling a territory: which cells can be reached, found by a search over cells, breadth first.
use crate::native::Fill;
use crate::rule::{place, Cell, Reply, Rules, Shape, Sheet};
use std::collections::VecDeque;

/// The steps to a side neighbour.
pub const SIDES: [Cell; 4] = [(-1, 0), (1, 0), (0, -1), (0, 1)];

impl Fill {
    /// The starting cell.
    pub fn cell(self) -> Cell {
        let [x, y] = self.start.map(i64::from);
        (x, y)
    }
}

impl Rules {
    /// Fills a territory: 1, 15, 17, 18; the value is the number of its cells.
    pub fn fill(&self, sheet: &mut Sheet, fill: Fill, work: &mut [u32]) -> Reply {
        if let Some(number) = (self.no_sheet)(sheet) {
            return Reply::refused(number);
        }
        if let Some(refused) = (self.no_fill)(sheet.shape, fill, work) {
            return refused;
        }
        let cells = (self.territory)(sheet, fill);
        for &cell in &cells {
            if let Some(place) = (self.place)(sheet.shape, cell) {
                sheet.bytes[place] = fill.territory;
            }
        }
        Reply::done(Some(cells.len() as u64))
    }
}

/// 17 for the work slice, then 18 for the start. What the work slice holds is not looked at.
pub fn no_fill(shape: Shape, fill: Fill, work: &mut [u32]) -> Option<Reply> {
    if (work.len() as i64) < shape.width * shape.height {
        return Some(Reply::refused(17));
    }
    place(shape, fill.cell()).is_none().then_some(Reply::refused(18))
}

/// The cells that a fill sets, each once: none where the start has the boundary ink.
pub fn territory(sheet: &Sheet, fill: Fill) -> Vec<Cell> {
    reached(sheet, &[fill.cell()], &SIDES, |ink| ink != fill.boundary)
}

/// The cells on the sheet that can be reached from these starts by these steps, each once, through cells of open inks alone.
pub fn reached(sheet: &Sheet, starts: &[Cell], steps: &[Cell], open: impl Fn(u8) -> bool) -> Vec<Cell> {
    let mut seen = vec![false; sheet.bytes.len()];
    let mut found = Vec::new();
    let mut queue = VecDeque::from(starts.to_vec());
    while let Some((x, y)) = queue.pop_front() {
        let Some(place) = place(sheet.shape, (x, y)) else {
            continue;
        };
        if seen[place] || !open(sheet.bytes[place]) {
            continue;
        }
        seen[place] = true;
        found.push((x, y));
        queue.extend(steps.iter().map(|&(dx, dy)| (x + dx, y + dy)));
    }
    found
}

#[cfg(test)]
mod tests {
    use super::*;

    /// Six cells and two bytes of padding in each row.
    const BEFORE: [&str; 4] = ["..#t..#.", ".##t#.~#", "#.####.#", ".#....~~"];

    /// Fills where # is the boundary: the reply, and the bytes afterwards.
    fn fill(start: [i32; 2], territory: u8, places: usize) -> (Reply, String) {
        let mut bytes = BEFORE.concat().into_bytes();
        let mut sheet = Sheet { shape: Shape { width: 6, height: 4, pitch: 8 }, bytes: &mut bytes };
        let fill = Fill { start, boundary: b'#', territory };
        let reply = Rules::document().fill(&mut sheet, fill, &mut vec![0; places]);
        (reply, String::from_utf8(bytes).unwrap())
    }

    fn done(cells: u64, after: [&str; 4]) -> (Reply, String) {
        (Reply::done(Some(cells)), after.concat())
    }

    #[test]
    fn steps_go_by_sides_on_the_sheet() {
        let corner = ["tt#t..#.", "t##t#.~#", "#.####.#", ".#....~~"];
        assert_eq!(fill([0, 0], b't', 24), done(3, corner));
        // through a cell that has the territory ink, and not through the padding to the last row
        let through = ["..#ttt#.", ".##t#t~#", "#.####.#", ".#....~~"];
        assert_eq!(fill([4, 0], b't', 24), done(5, through));
        let equal = ["..#####.", ".#####~#", "#.####.#", ".#....~~"];
        assert_eq!(fill([4, 0], b'#', 24), done(5, equal));
        assert_eq!(fill([2, 0], b't', 24), done(0, BEFORE));
    }

    #[test]
    fn fills_are_refused_in_order() {
        let refused = |number| (Reply::refused(number), BEFORE.concat());
        assert_eq!(fill([6, 0], b't', 23), refused(17));
        for off in [[6, 0], [0, 4], [-1, 0], [0, -1], [i32::MAX, 0], [0, i32::MIN]] {
            assert_eq!(fill(off, b't', 24), refused(18));
        }
    }
}
