//! Boundaries that nobody crosses by a side step: a line from one side of the sheet to the other, and a ring. Each is drawn
//! in the boundary ink; then a path is walked from one side to the other, and a territory filled on each.
use crate::native::{self, Cells, Fill, Lent};
use crate::random::Random;
use crate::rule::{place, Cell, Figure, Rules, Shape, Sheet};
use crate::territory::SIDES;
use std::collections::{HashMap, VecDeque};

pub const BOUNDARY: u8 = 1;
const TERRITORIES: [u8; 2] = [2, 3];
const OPEN: [u8; 3] = [0, 4, 255];

/// A boundary on a sheet, and the seed of what is done with it.
#[derive(Clone, Debug)]
pub struct Crossing {
    pub shape: Shape,
    /// A line or an ellipse.
    pub figure: Figure,
    /// Whether the line parts left from right, and not above from below.
    pub upright: bool,
    pub seed: u64,
}

/// Where a cell is: above, left of or within the boundary; below, right of or outside it; on it; or none of these.
#[derive(Clone, Copy, PartialEq, Debug)]
pub enum Where {
    One,
    Other,
    On,
    Nowhere,
}

/// Where each cell of a sheet is.
pub type Sides = HashMap<Cell, Where>;

#[derive(Debug, PartialEq)]
pub enum Fault {
    /// A way from one side to the other: its cells.
    Leak(Vec<Cell>),
    Wrong(String),
}

/// Who draws and fills.
#[derive(Clone, Copy)]
pub enum Kit {
    /// The proved library, by the document's rules.
    Library,
    /// A second program, by rules of its own.
    Program(Rules),
}

impl Kit {
    fn rules(&self) -> Rules {
        match self {
            Kit::Library => Rules::document(),
            Kit::Program(rules) => *rules,
        }
    }

    pub fn draw(&self, sheet: &mut Sheet, figure: &Figure) -> u32 {
        match self {
            Kit::Library => native::draw(lent(sheet), BOUNDARY, narrowed(figure), &mut 0, &mut [0; 4]),
            Kit::Program(rules) => rules.draw(sheet, BOUNDARY, figure).number,
        }
    }

    pub fn fill(&self, sheet: &mut Sheet, (x, y): Cell, territory: u8) -> u32 {
        let fill = Fill { start: [x as i32, y as i32], boundary: BOUNDARY, territory };
        let mut work = vec![0; (sheet.shape.width * sheet.shape.height) as usize];
        match self {
            Kit::Library => native::fill(lent(sheet), fill, &mut work, &mut 0),
            Kit::Program(rules) => rules.fill(sheet, fill, &mut work).number,
        }
    }
}

fn lent<'a>(sheet: &'a mut Sheet) -> Lent<'a> {
    let Shape { width, height, pitch } = sheet.shape;
    Lent { bytes: sheet.bytes, width: width as u32, height: height as u32, pitch: pitch as u32 }
}

fn narrowed(figure: &Figure) -> Cells {
    match *figure {
        Figure::Line((x0, y0), (x1, y1)) => Cells::Line([x0, y0, x1, y1].map(|n| n as i32)),
        Figure::Ellipse((x, y), a, b) => Cells::Ellipse([x as i32, y as i32], a as u32, b as u32),
        _ => unreachable!("no other figure is a boundary here"),
    }
}

fn turned((x, y): Cell) -> Cell {
    (y, x)
}

fn cells(shape: Shape) -> impl Iterator<Item = Cell> {
    (0..shape.height).flat_map(move |y| (0..shape.width).map(move |x| (x, y)))
}

/// Where each cell of the sheet is, by these rules: told by the cells that the boundary has in its column or row.
pub fn sides(rules: &Rules, crossing: &Crossing) -> Sides {
    let all = cells(crossing.shape);
    match crossing.figure {
        Figure::Line(from, to) => {
            let across = |cell| if crossing.upright { turned(cell) } else { cell };
            let line: HashMap<i64, i64> = (rules.line)(from, to).into_iter().map(across).collect();
            all.map(|cell| (cell, of_line(&line, across(cell)))).collect()
        }
        Figure::Ellipse(centre, a, b) => in_rows(crossing.shape, centre, a, |cell| (rules.on_ellipse)(a, b, cell)),
        _ => unreachable!("no other figure is a boundary here"),
    }
}

fn of_line(line: &HashMap<i64, i64>, (x, y): Cell) -> Where {
    match line.get(&x) {
        None => Where::Nowhere,
        Some(&row) if y < row => Where::One,
        Some(&row) if y > row => Where::Other,
        Some(_) => Where::On,
    }
}

/// Nearer than all the ring's cells in its row, or further than all of them; the ring is no wider than a to either side.
fn in_rows(shape: Shape, centre: Cell, a: i64, has: impl Fn(Cell) -> bool) -> Sides {
    let mut found = HashMap::new();
    for y in 0..shape.height {
        let row: Vec<i64> = (0..=a).filter(|&x| has((x, y - centre.1))).collect();
        for x in 0..shape.width {
            let far = (x - centre.0).abs();
            let side = match row[..] {
                _ if row.contains(&far) => Where::On,
                [least, ..] if far < least => Where::One,
                [.., most] if far < most => Where::Nowhere,
                _ => Where::Other,
            };
            found.insert((x, y), side);
        }
    }
    found
}

/// The shortest way by side neighbours on the sheet from a cell to one that is sought, through open cells alone.
pub fn way(shape: Shape, from: Cell, open: impl Fn(Cell) -> bool, sought: impl Fn(Cell) -> bool) -> Option<Vec<Cell>> {
    let mut came = HashMap::from([(from, from)]);
    let mut queue = VecDeque::from([from]);
    while let Some(cell) = queue.pop_front() {
        if sought(cell) {
            let mut path = vec![cell];
            while *path.last()? != from {
                path.push(came[path.last()?]);
            }
            path.reverse();
            return Some(path);
        }
        for next in SIDES.map(|(dx, dy)| (cell.0 + dx, cell.1 + dy)) {
            if place(shape, next).is_some() && open(next) && !came.contains_key(&next) {
                came.insert(next, cell);
                queue.push_back(next);
            }
        }
    }
    None
}

/// A path by side neighbours on the sheet from one cell to another, at random; seldom onto a cell that is shut.
fn wander(random: &mut Random, shape: Shape, from: Cell, to: Cell, shut: impl Fn(Cell) -> bool) -> Vec<Cell> {
    let mut path = vec![from];
    let (mut x, mut y) = from;
    while (x, y) != to {
        let ahead = ((to.0 - x).signum(), (to.1 - y).signum());
        let (dx, dy) = match random.number() % 8 {
            0..3 if ahead.0 != 0 => (ahead.0, 0),
            3..6 if ahead.1 != 0 => (0, ahead.1),
            _ => random.one_of(&SIDES),
        };
        let next = (x + dx, y + dy);
        if place(shape, next).is_some() && (!shut(next) || random.once_in(16)) {
            (x, y) = next;
            path.push(next);
        }
    }
    path
}

/// What was done on the way: whether a path was walked, how many fills were made and how many cells they set.
#[derive(Clone, Copy, Default, Debug, PartialEq)]
pub struct Done {
    pub paths: u64,
    pub fills: u64,
    pub cells: u64,
}

impl std::ops::Add for Done {
    type Output = Done;

    fn add(self, more: Done) -> Done {
        Done { paths: self.paths + more.paths, fills: self.fills + more.fills, cells: self.cells + more.cells }
    }
}

impl Crossing {
    /// Draws the boundary, walks from one side to the other, fills both, and looks at every cell each time.
    pub fn holds(&self, kit: &Kit) -> Result<Done, Fault> {
        let random = &mut Random(self.seed);
        let (shape, sides) = (self.shape, sides(&kit.rules(), self));
        let mut bytes: Vec<u8> = (0..shape.pitch * shape.height).map(|_| random.one_of(&OPEN)).collect();
        if kit.draw(&mut Sheet { shape, bytes: &mut bytes }, &self.figure) != 0 {
            return Err(Fault::Wrong("the boundary was refused".into()));
        }
        let starts = [Where::One, Where::Other].map(|side| {
            let there: Vec<Cell> = cells(shape).filter(|cell| sides[cell] == side).collect();
            (!there.is_empty()).then(|| random.one_of(&there))
        });
        let mut done = Done::default();
        if let [Some(one), Some(other)] = starts {
            let shut = |cell: Cell| bytes[self.at(cell)] == BOUNDARY;
            let path = wander(random, shape, one, other, shut);
            if !path.iter().any(|&cell| shut(cell)) {
                return Err(Fault::Leak(path));
            }
            done.paths = 1;
        }
        for (start, ink) in starts.into_iter().zip(TERRITORIES) {
            if let Some(start) = start {
                done.fills += 1;
                done.cells += self.filled(kit, &sides, &mut bytes, start, ink)?;
            }
        }
        self.accounted(&sides, &bytes)?;
        self.same_by_columns(&kit.rules(), &sides).map(|()| done)
    }

    fn at(&self, cell: Cell) -> usize {
        place(self.shape, cell).expect("a cell of the sheet")
    }

    /// Fills from a cell: how many cells it set, of which all are on that cell's side.
    fn filled(&self, kit: &Kit, sides: &Sides, bytes: &mut [u8], start: Cell, ink: u8) -> Result<u64, Fault> {
        let (shape, before) = (self.shape, bytes.to_vec());
        if kit.fill(&mut Sheet { shape, bytes }, start, ink) != 0 {
            return Err(Fault::Wrong("a fill was refused".into()));
        }
        let set: Vec<Cell> = cells(shape).filter(|&cell| bytes[self.at(cell)] != before[self.at(cell)]).collect();
        let across = if sides[&start] == Where::One { Where::Other } else { Where::One };
        if let Some(&over) = set.iter().find(|cell| sides[cell] == across) {
            let by_sides = way(shape, start, |cell| before[self.at(cell)] != BOUNDARY, |cell| cell == over);
            return Err(Fault::Leak(by_sides.unwrap_or(vec![start, over])));
        }
        match set.iter().find(|cell| sides[cell] == Where::On) {
            Some(on) => Err(Fault::Wrong(format!("a fill set {on:?}, which is of the boundary"))),
            None => Ok(set.len() as u64),
        }
    }

    /// Whether each cell is on a side or of the boundary, and those of the boundary have its ink.
    fn accounted(&self, sides: &Sides, bytes: &[u8]) -> Result<(), Fault> {
        let drawn = |cell: Cell| bytes[self.at(cell)] == BOUNDARY;
        let lost = |cell: &Cell| sides[cell] == Where::Nowhere || drawn(*cell) != (sides[cell] == Where::On);
        match cells(self.shape).find(lost) {
            Some(cell) => Err(Fault::Wrong(format!("{cell:?} is {:?}, drawn: {}", sides[&cell], drawn(cell)))),
            None => Ok(()),
        }
    }

    /// Whether a ring's columns tell the same of every cell as its rows.
    fn same_by_columns(&self, rules: &Rules, sides: &Sides) -> Result<(), Fault> {
        let Figure::Ellipse(centre, a, b) = self.figure else { return Ok(()) };
        let shape = Shape { width: self.shape.height, height: self.shape.width, ..self.shape };
        let columns = in_rows(shape, turned(centre), b, |cell| (rules.on_ellipse)(a, b, turned(cell)));
        match columns.iter().find(|(&cell, &side)| sides[&turned(cell)] != side) {
            Some((&cell, side)) => Err(Fault::Wrong(format!("{:?} is by its column {side:?}", turned(cell)))),
            None => Ok(()),
        }
    }
}

#[cfg(test)]
mod tests {
    use super::*;

    fn shape(width: i64, height: i64) -> Shape {
        Shape { width, height, pitch: width }
    }

    #[test]
    fn the_sides_of_a_line_and_of_a_ring() {
        let told = |figure, upright| {
            let crossing = Crossing { shape: shape(5, 3), figure, upright, seed: 0 };
            let sides = sides(&Rules::document(), &crossing);
            let letter = |cell: Cell| match sides[&cell] {
                Where::One => '-',
                Where::Other => '+',
                Where::On => '#',
                Where::Nowhere => '?',
            };
            [0, 1, 2].map(|y| (0..5).map(|x| letter((x, y))).collect::<String>())
        };
        assert_eq!(told(Figure::Line((0, 0), (4, 2)), false), ["#----", "+##--", "+++##"].map(String::from));
        assert_eq!(told(Figure::Line((3, 0), (2, 2)), true), ["---#+", "--#++", "--#++"].map(String::from));
        assert_eq!(told(Figure::Ellipse((2, 1), 2, 1), false), ["+###+", "#---#", "+###+"].map(String::from));
        assert_eq!(told(Figure::Line((1, 0), (4, 2)), false), ["?#---", "?+##-", "?+++#"].map(String::from));
    }

    #[test]
    fn a_flat_ring_of_the_base_leaks() {
        let figure = Figure::Ellipse((12, 3), 10, 1);
        let crossing = Crossing { shape: shape(25, 7), figure, upright: false, seed: 3 };
        assert!(matches!(crossing.holds(&Kit::Program(crate::teeth_crossing::base_ellipse())), Err(Fault::Leak(_))));
        assert!(crossing.holds(&Kit::Program(Rules::document())).is_ok());
    }
}
