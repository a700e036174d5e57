//! Fills that are wrong on purpose.
use crate::native::Fill;
use crate::rule::{place, within, Cell, Reply, Rules, Shape, Sheet};
use crate::territory::{no_fill, reached, territory, SIDES};

/// Each with what is wrong in it.
pub fn wrong_fills() -> Vec<(&'static str, Rules)> {
    let right = Rules::document();
    vec![
        ("a fill steps by corners too", Rules { territory: by_corners, ..right }),
        ("a fill takes the territory ink for boundary", Rules { territory: territory_shuts, ..right }),
        ("a fill enters only cells of the start's ink", Rules { territory: like_the_start, ..right }),
        ("a fill of equal inks sets nothing", Rules { territory: not_equal, ..right }),
        ("a fill sets a start of the boundary ink", Rules { territory: from_boundary, ..right }),
        ("a fill steps from a row's last cell to the next row's first", Rules { territory: round_the_end, ..right }),
        ("a fill goes through the padding", Rules { territory: through_padding, ..right }),
        ("a fill never goes up after it went down", Rules { territory: up_then_down, ..right }),
        ("a fill never goes down after it went up", Rules { territory: down_then_up, ..right }),
        ("a fill goes left on the start's row alone", Rules { territory: rightward, ..right }),
        ("a fill leaves out what a run has after 256 cells", Rules { territory: cut_runs, ..right }),
        ("a fill leaves out cells whose number has more than 16 bits", Rules { territory: few_bits, ..right }),
        ("a fill counts the start twice", Rules { territory: start_twice, ..right }),
        ("a fill counts only cells whose ink it changed", Rules { territory: changed, ..right }),
        ("a work slice is to have pitch x height places", Rules { no_fill: by_pitch, ..right }),
        ("a work slice is to have exactly width x height places", Rules { no_fill: exactly, ..right }),
        ("a work slice one place short is taken", Rules { no_fill: one_short, ..right }),
        ("a start is refused before the work slice", Rules { no_fill: start_first, ..right }),
        ("a start outside the limits of a coordinate is refused with 2", Rules { no_fill: limited, ..right }),
        ("a start is off the sheet only where its byte is", Rules { no_fill: by_byte, ..right }),
        ("a refused fill touches the work slice", Rules { no_fill: clears, ..right }),
        ("a refused fill tells 0 cells", Rules { no_fill: tells_none, ..right }),
    ]
}

pub fn by_corners(sheet: &Sheet, fill: Fill) -> Vec<Cell> {
    let steps = [SIDES, [(-1, -1), (1, -1), (-1, 1), (1, 1)]].concat();
    reached(sheet, &[fill.cell()], &steps, |ink| ink != fill.boundary)
}

fn territory_shuts(sheet: &Sheet, fill: Fill) -> Vec<Cell> {
    reached(sheet, &[fill.cell()], &SIDES, |ink| ink != fill.boundary && ink != fill.territory)
}

/// The ink of a cell on the sheet.
fn ink(sheet: &Sheet, cell: Cell) -> Option<u8> {
    place(sheet.shape, cell).map(|place| sheet.bytes[place])
}

fn like_the_start(sheet: &Sheet, fill: Fill) -> Vec<Cell> {
    let first = ink(sheet, fill.cell());
    reached(sheet, &[fill.cell()], &SIDES, |ink| ink != fill.boundary && Some(ink) == first)
}

fn not_equal(sheet: &Sheet, fill: Fill) -> Vec<Cell> {
    if fill.boundary == fill.territory {
        return Vec::new();
    }
    territory(sheet, fill)
}

fn from_boundary(sheet: &Sheet, fill: Fill) -> Vec<Cell> {
    if ink(sheet, fill.cell()) == Some(fill.boundary) {
        return vec![fill.cell()];
    }
    territory(sheet, fill)
}

/// Goes on from the ends of rows until nothing new is reached.
pub fn round_the_end(sheet: &Sheet, fill: Fill) -> Vec<Cell> {
    let last = sheet.shape.width - 1;
    let mut cells = territory(sheet, fill);
    loop {
        let mut starts = cells.clone();
        starts.extend(cells.iter().filter(|cell| cell.0 == last).map(|&(_, y)| (0, y + 1)));
        starts.extend(cells.iter().filter(|cell| cell.0 == 0).map(|&(_, y)| (last, y - 1)));
        let more = reached(sheet, &starts, &SIDES, |ink| ink != fill.boundary);
        if more.len() == cells.len() {
            return more;
        }
        cells = more;
    }
}

pub fn through_padding(sheet: &Sheet, fill: Fill) -> Vec<Cell> {
    let mut bytes = sheet.bytes.to_vec();
    let shape = Shape { width: sheet.shape.pitch, ..sheet.shape };
    let mut cells = territory(&Sheet { shape, bytes: &mut bytes }, fill);
    cells.retain(|&cell| place(sheet.shape, cell).is_some());
    cells
}

/// First by steps in one direction, or along the row; then from there in the other.
fn both_ways(sheet: &Sheet, fill: Fill, first: i64) -> Vec<Cell> {
    let open = |ink| ink != fill.boundary;
    let once = reached(sheet, &[fill.cell()], &[(-1, 0), (1, 0), (0, first)], open);
    reached(sheet, &once, &[(-1, 0), (1, 0), (0, -first)], open)
}

fn up_then_down(sheet: &Sheet, fill: Fill) -> Vec<Cell> {
    both_ways(sheet, fill, -1)
}

fn down_then_up(sheet: &Sheet, fill: Fill) -> Vec<Cell> {
    both_ways(sheet, fill, 1)
}

fn rightward(sheet: &Sheet, fill: Fill) -> Vec<Cell> {
    let open = |ink| ink != fill.boundary;
    let row = reached(sheet, &[fill.cell()], &[(-1, 0), (1, 0)], open);
    reached(sheet, &row, &[(1, 0), (0, -1), (0, 1)], open)
}

fn start_twice(sheet: &Sheet, fill: Fill) -> Vec<Cell> {
    let mut cells = territory(sheet, fill);
    cells.extend(cells.first().copied());
    cells
}

fn changed(sheet: &Sheet, fill: Fill) -> Vec<Cell> {
    let mut cells = territory(sheet, fill);
    cells.retain(|&cell| ink(sheet, cell) != Some(fill.territory));
    cells
}

fn few_bits(sheet: &Sheet, fill: Fill) -> Vec<Cell> {
    let mut cells = territory(sheet, fill);
    cells.retain(|&(x, y)| y * sheet.shape.width + x < 1 << 16);
    cells
}

fn cut_runs(sheet: &Sheet, fill: Fill) -> Vec<Cell> {
    let mut cells = territory(sheet, fill);
    cells.retain(|&(x, y)| (0..=256).any(|back| ink(sheet, (x - back, y)).is_none_or(|ink| ink == fill.boundary)));
    cells
}

fn by_pitch(shape: Shape, fill: Fill, work: &mut [u32]) -> Option<Reply> {
    if (work.len() as i64) < shape.pitch * shape.height {
        return Some(Reply::refused(17));
    }
    no_fill(shape, fill, work)
}

fn exactly(shape: Shape, fill: Fill, work: &mut [u32]) -> Option<Reply> {
    if work.len() as i64 != shape.width * shape.height {
        return Some(Reply::refused(17));
    }
    no_fill(shape, fill, work)
}

fn one_short(shape: Shape, fill: Fill, work: &mut [u32]) -> Option<Reply> {
    no_fill(shape, fill, &mut [work, &mut [0]].concat())
}

fn start_first(shape: Shape, fill: Fill, work: &mut [u32]) -> Option<Reply> {
    place(shape, fill.cell()).is_none().then_some(Reply::refused(18)).or(no_fill(shape, fill, work))
}

fn limited(shape: Shape, fill: Fill, work: &mut [u32]) -> Option<Reply> {
    let (x, y) = fill.cell();
    no_fill(shape, fill, work).map(|reply| match reply.number {
        18 if !within(x) || !within(y) => Reply::refused(2),
        _ => reply,
    })
}

fn by_byte(shape: Shape, fill: Fill, work: &mut [u32]) -> Option<Reply> {
    let (x, y) = fill.cell();
    let taken = (0..shape.pitch * shape.height).contains(&(y * shape.pitch + x));
    no_fill(shape, fill, work).filter(|reply| reply.number != 18 || !taken)
}

fn clears(shape: Shape, fill: Fill, work: &mut [u32]) -> Option<Reply> {
    let refused = no_fill(shape, fill, work);
    if refused.is_some_and(|reply| reply.number == 18) {
        work.fill(0);
    }
    refused
}

fn tells_none(shape: Shape, fill: Fill, work: &mut [u32]) -> Option<Reply> {
    no_fill(shape, fill, work).map(|reply| Reply { value: Some(0), ..reply })
}
