//! The accident replayed: one boundary drawn by two controllers, each from its own end, with the old kit and with the
//! proved library. Fails where the old kit's two sheets agree or the library's differ.
//!
//!     replay                prints what examples/replay.txt has
//!     replay --old-twice    the old kit in the library's place: this must fail
use second::figure::cells_from;
use second::native::{self, Cells, Lent};
use second::rule::{Figure, Rules, Shape, Sheet};
use std::process::ExitCode;

const WIDTH: usize = 24;
const HEIGHT: usize = 9;

type Point = [i32; 2];
type Bytes = [u8; WIDTH * HEIGHT];
/// Draws one line, from the first point to the second.
type Kit = fn(&mut Bytes, Point, Point);

/// Invented. The line to [16, 6] has its middle at an exact half, and the next one has one of that middle's two cells.
const BOUNDARY: [Point; 7] = [[0, 7], [5, 8], [14, 7], [16, 6], [11, 4], [14, 1], [23, 0]];

/// Walks from the end that it is given first, and at an exact half steps away from it.
fn old_kit(bytes: &mut Bytes, [x0, y0]: Point, [x1, y1]: Point) {
    let rules = Rules { line: cells_from, ..Rules::document() };
    let line = Figure::Line((x0.into(), y0.into()), (x1.into(), y1.into()));
    let shape = Shape { width: WIDTH as i64, height: HEIGHT as i64, pitch: WIDTH as i64 };
    rules.draw(&mut Sheet { shape, bytes }, 1, &line);
}

fn library(bytes: &mut Bytes, [x0, y0]: Point, [x1, y1]: Point) {
    let lent = Lent { bytes, width: WIDTH as u32, height: HEIGHT as u32, pitch: WIDTH as u32 };
    let number = native::draw(lent, 1, Cells::Line([x0, y0, x1, y1]), &mut 0, &mut [0; 4]);
    assert_eq!(number, 0, "the library refused a line");
}

/// The sheet with the lines between each point and the next.
fn drawn(kit: Kit, points: &[Point]) -> Bytes {
    let mut bytes = [0; WIDTH * HEIGHT];
    points.windows(2).for_each(|ends| kit(&mut bytes, ends[0], ends[1]));
    bytes
}

/// The two controllers' sheets.
fn both_ways(kit: Kit, points: &[Point]) -> [Bytes; 2] {
    let backwards: Vec<Point> = points.iter().rev().copied().collect();
    [drawn(kit, points), drawn(kit, &backwards)]
}

fn cell(place: usize) -> Point {
    [(place % WIDTH) as i32, (place / WIDTH) as i32]
}

fn differing([one, other]: &[Bytes; 2]) -> Vec<usize> {
    (0..WIDTH * HEIGHT).filter(|&place| one[place] != other[place]).collect()
}

/// Prints the two sheets beside each other and where they differ; in how many cells that is.
fn show(name: &str, sheets: &[Bytes; 2]) -> usize {
    let differ = differing(sheets);
    println!("{:30}{name}, from the hill", format!("{name}, from the harbour"));
    for y in 0..HEIGHT {
        let row = |sheet: &Bytes| -> String {
            let places = y * WIDTH..(y + 1) * WIDTH;
            let shown = places.map(|place| match (sheet[place] != 0, differ.contains(&place)) {
                (true, false) => '#',
                (false, false) => '.',
                (true, true) => 'X',
                (false, true) => 'o',
            });
            shown.collect()
        };
        println!("{:30}{}", row(&sheets[0]), row(&sheets[1]));
    }
    let cells: Vec<String> = differ.iter().map(|&place| cell(place)).map(|[x, y]| format!(" ({x},{y})")).collect();
    let colon = if cells.is_empty() { "" } else { ":" };
    println!("differ in {} cell{}{colon}{}", cells.len(), if cells.len() == 1 { "" } else { "s" }, cells.concat());
    cells.len()
}

/// The straight lines between two cells of the sheet, one for each pair.
fn lines() -> impl Iterator<Item = [Point; 2]> {
    (0..WIDTH * HEIGHT).flat_map(|second| (0..second).map(move |first| [cell(first), cell(second)]))
}

fn end_matters(kit: Kit) -> usize {
    lines().filter(|ends| !differing(&both_ways(kit, ends)).is_empty()).count()
}

fn main() -> ExitCode {
    let words: Vec<String> = std::env::args().skip(1).collect();
    let (name, new_kit): (&str, Kit) = match words.iter().map(String::as_str).collect::<Vec<_>>()[..] {
        [] => ("Pistonwool", library),
        ["--old-twice"] => ("old kit", old_kit),
        _ => {
            eprintln!("usage: replay [--old-twice]");
            return ExitCode::from(2);
        }
    };
    println!("One boundary, drawn by two controllers, each from its own end.\n");
    let old = show("old kit", &both_ways(old_kit, &BOUNDARY));
    println!("X where it is drawn, o where it is not. A switch stood there: one controller");
    println!("ordered it open and the other shut, until it locked out; a feeder stayed dark.\n");
    let new = show(name, &both_ways(new_kit, &BOUNDARY));
    let (of, old_lines, new_lines) = (lines().count(), end_matters(old_kit), end_matters(new_kit));
    println!("\nOf the {of} straight lines between two cells of this sheet, the old kit draws");
    println!("{old_lines} otherwise from the other end, {name} {new_lines}.");
    ExitCode::from(u8::from(old == 0 || new != 0 || new_lines != 0))
}

#[cfg(test)]
mod tests {
    use super::*;

    #[test]
    fn the_old_kit_walks_from_the_first_point() {
        assert_eq!(cells_from((0, 0), (2, 1)), [(0, 0), (1, 1), (2, 1)]);
        assert_eq!(cells_from((2, 1), (0, 0)), [(2, 1), (1, 0), (0, 0)]);
    }
}
