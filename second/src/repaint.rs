//! What a drawing tells to repaint: the smallest rectangle that holds the cells it set, found on a copy of the sheet.
use crate::rule::{Figure, Reply, Rules, Shape};

/// x, y, width and height; 0 each where no cell was set.
pub type Rectangle = [u32; 4];
pub const NONE: Rectangle = [0; 4];

/// A figure that was drawn: the byte of each cell that it set, with the ink that was there.
#[derive(Clone, Debug)]
pub struct Painted {
    pub figure: Figure,
    pub ink: u8,
    pub set: Vec<(usize, u8)>,
}

/// The rules of a lent box, each replaceable as those of drawing are; where they give nothing, it stays as it was.
#[derive(Clone, Copy)]
pub struct Repainter {
    /// What is told of these figures, drawn on a sheet of this shape.
    pub told: fn(&Rules, Shape, &[Painted]) -> Option<Rectangle>,
    /// What is told where a figure is refused.
    pub refused: Option<Rectangle>,
    /// What is told where a file is refused.
    pub refused_file: Option<Rectangle>,
}

impl Repainter {
    pub fn document() -> Repainter {
        Repainter { told: |_, shape, painted| Some(over(shape, painted)), refused: None, refused_file: None }
    }
}

impl Rules {
    /// The reply to a drawing that is done, of these figures.
    pub fn done(&self, shape: Shape, value: Option<u64>, painted: &[Painted]) -> Reply {
        Reply { rectangle: (self.repainter.told)(self, shape, painted), ..Reply::done(value) }
    }

    /// The reply to a figure that is refused.
    pub fn refused(&self, number: u32) -> Reply {
        Reply { rectangle: self.repainter.refused, ..Reply::refused(number) }
    }

    /// The reply to a file that is refused, with the offset of the field that is named.
    pub fn refused_file(&self, number: u32, offset: usize) -> Reply {
        Reply { number, value: Some(offset as u64), rectangle: self.repainter.refused_file }
    }
}

/// The rectangle over all cells that these figures set, also over those that had the ink already.
pub fn over(shape: Shape, painted: &[Painted]) -> Rectangle {
    let set = painted.iter().flat_map(|one| &one.set);
    rectangle(shape, set.map(|&(place, _)| place))
}

/// Marks these bytes on a blank copy of the sheet, and looks for marks in every row of it.
pub fn rectangle(shape: Shape, places: impl IntoIterator<Item = usize>) -> Rectangle {
    let mut copy = vec![false; (shape.pitch * shape.height) as usize];
    places.into_iter().for_each(|place| copy[place] = true);
    let (mut rows, mut columns) = (Vec::new(), Vec::new());
    for (y, row) in copy.chunks(shape.pitch as usize).enumerate() {
        if let Some(first) = row.iter().position(|&mark| mark) {
            rows.push(y);
            columns.extend([Some(first), row.iter().rposition(|&mark| mark)].into_iter().flatten());
        }
    }
    let [x, width] = least_and_how_many(&columns);
    let [y, height] = least_and_how_many(&rows);
    [x, y, width, height]
}

/// The least of these numbers, and how many there are from it to the greatest.
fn least_and_how_many(numbers: &[usize]) -> [u32; 2] {
    match (numbers.iter().min(), numbers.iter().max()) {
        (Some(least), Some(most)) => [*least as u32, (most - least) as u32 + 1],
        _ => [0, 0],
    }
}

#[cfg(test)]
mod tests {
    use super::*;
    use crate::rule::Sheet;

    const SHAPE: Shape = Shape { width: 10, height: 5, pitch: 12 };

    /// The rectangle of a figure on a sheet whose every byte is this.
    fn told(ground: u8, figure: Figure) -> Option<Rectangle> {
        Rules::document().draw(&mut Sheet { shape: SHAPE, bytes: &mut [ground; 60] }, 1, &figure).rectangle
    }

    #[test]
    fn rectangles_by_hand() {
        for ground in [0, 1] {
            let of = |figure| told(ground, figure);
            assert_eq!(of(Figure::Line((2, 1), (6, 3))), Some([2, 1, 5, 3]));
            assert_eq!(of(Figure::Line((6, 3), (2, 1))), Some([2, 1, 5, 3]));
            // it enters at (0, 2): the rows above are off the sheet
            assert_eq!(of(Figure::Line((-4, 0), (4, 4))), Some([0, 2, 5, 3]));
            assert_eq!(of(Figure::Line((9, 4), (9, 4))), Some([9, 4, 1, 1]));
            assert_eq!(of(Figure::Line((-9, 3), (30, 3))), Some([0, 3, 10, 1]));
            assert_eq!(of(Figure::Line((7, -9), (7, 30))), Some([7, 0, 1, 5]));
            assert_eq!(of(Figure::Line((10, 0), (11, 4))), Some([0; 4]));
            assert_eq!(of(Figure::Circle((4, 2), 2)), Some([2, 0, 5, 5]));
            // left and right of its middle only one cell each is on the sheet
            assert_eq!(of(Figure::Circle((4, 6), 2)), Some([3, 4, 3, 1]));
            assert_eq!(of(Figure::Ellipse((5, 2), 3, 30)), Some([2, 0, 7, 5]));
            assert_eq!(of(Figure::Ellipse((4, 2), 20, 20)), Some([0; 4]));
            assert_eq!(of(Figure::Curve([(0, 0), (2, 4), (4, 0)], 1)), Some([0, 0, 5, 3]));
            assert_eq!(of(Figure::Cubic([(1, 2), (9, 9), (-9, 9), (3, 4)], 0)), Some([1, 2, 3, 3]));
        }
        assert_eq!(told(0, Figure::Line((0, 0), (16_384, 0))), None);
    }

    #[test]
    fn a_file_tells_the_rectangle_over_its_records() {
        let line = |[x0, y0, x1, y1]: [u8; 4]| [11, 0, 1, 0, 1, x0, 0, y0, 0, x1, 0, y1, 0];
        let told = |records: &[[u8; 13]]| {
            let mut sheet = Sheet { shape: SHAPE, bytes: &mut [0; 60] };
            Rules::document().draw_file(&mut sheet, &records.concat()).rectangle
        };
        let (one, other, off) = (line([2, 1, 3, 1]), line([8, 3, 8, 4]), line([40, 0, 50, 4]));
        assert_eq!(told(&[]), Some([0; 4]));
        assert_eq!(told(&[one]), Some([2, 1, 2, 1]));
        assert_eq!(told(&[off]), Some([0; 4]));
        assert_eq!(told(&[off, one, off]), Some([2, 1, 2, 1]));
        assert_eq!(told(&[one, other]), Some([2, 1, 7, 4]));
        assert_eq!(told(&[other, off, one]), Some([2, 1, 7, 4]));
        assert_eq!(told(&[one, [0; 13]]), None);
    }
}
