//! Draws a record file with the proved library on a sheet of 96 by 64, and writes the sheet as SVG. With a file of boundaries
//! and a start in each of some territories that they bound, fills these first.
//!
//!     picture TITLE FILE [BOUNDARIES X Y [X Y [X Y]]]
use second::native::{self, Fill, Lent};
use std::process::ExitCode;

const WIDTH: usize = 96;
const HEIGHT: usize = 64;

const PAPER: &str = "#f7f4ec";
const GRID: &str = "#e9e4d7";
const WORDS: &str = "#57534a";

/// What each ink from 1 on is in examples/harbour.rec, and its colour.
const INKS: [(&str, &str); 5] = [
    ("contours", "#a3b899"),
    ("coast", "#5f93a8"),
    ("feeder", "#d2a54a"),
    ("boundary", "#3d4352"),
    ("rings", "#bf6a4f"),
];

/// The ink of a boundary, and those of territories.
const BOUNDARY: u8 = 4;
const TERRITORIES: [(u8, &str); 3] = [(6, "#f3ddb8"), (7, "#d5e3e6"), (8, "#ecd0c6")];

/// The outline of each run of cells with this ink, row by row.
fn runs(sheet: &[u8], ink: u8) -> String {
    let mut path = String::new();
    for (y, row) in sheet.chunks(WIDTH).enumerate() {
        let mut x = 0;
        for run in row.chunk_by(|one, next| one == next) {
            if run[0] == ink {
                path += &format!("M{x} {y}h{0}v1h-{0}z", run.len());
            }
            x += run.len();
        }
    }
    path
}

fn grid(step: usize) -> String {
    let down = (0..=WIDTH).step_by(step).map(|x| format!("M{x} 0v{HEIGHT}"));
    let across = (0..=HEIGHT).step_by(step).map(|y| format!("M0 {y}h{WIDTH}"));
    down.chain(across).collect()
}

fn svg(title: &str, sheet: &[u8]) -> String {
    let (wide, high) = (WIDTH + 6, HEIGHT + 11);
    let mut text = format!(
        "<svg xmlns=\"http://www.w3.org/2000/svg\" viewBox=\"-3 -3 {wide} {high}\" width=\"{}\" height=\"{}\">\n\
         <title>{title}, drawn by Pistonwool on a sheet of {WIDTH} by {HEIGHT}</title>\n\
         <rect x=\"-3\" y=\"-3\" width=\"{wide}\" height=\"{high}\" rx=\"2\" fill=\"{PAPER}\"/>\n",
        8 * wide,
        8 * high,
    );
    let figures: Vec<(u8, (&str, &str))> = (1..).zip(INKS).filter(|(ink, _)| sheet.contains(ink)).collect();
    let territories = TERRITORIES.into_iter().filter(|(ink, _)| sheet.contains(ink));
    for (ink, colour) in territories.chain(figures.iter().map(|&(ink, (_, colour))| (ink, colour))) {
        text += &format!("<path fill=\"{colour}\" d=\"{}\"/>\n", runs(sheet, ink));
    }
    // over the cells, so that each stands apart from the next
    for (step, thick) in [(1, ".12"), (8, ".22")] {
        text += &format!("<path stroke=\"{GRID}\" stroke-width=\"{thick}\" d=\"{}\"/>\n", grid(step));
    }
    text += &format!("<g font-family=\"sans-serif\" font-size=\"2.4\" fill=\"{WORDS}\">\n");
    for (i, (_, (name, colour))) in figures.iter().enumerate() {
        let (x, y) = (1 + 19 * i, HEIGHT + 3);
        text += &format!("<rect x=\"{x}\" y=\"{y}\" width=\"2\" height=\"2\" fill=\"{colour}\"/>");
        text += &format!("<text x=\"{}\" y=\"{}.85\">{name}</text>\n", x + 3, y + 1);
    }
    text + "</g>\n</svg>\n"
}

/// A sheet, and the same one lent.
struct Map(Vec<u8>);

impl Map {
    fn lent(&mut self) -> Lent<'_> {
        Lent { bytes: &mut self.0, width: WIDTH as u32, height: HEIGHT as u32, pitch: WIDTH as u32 }
    }

    fn draw(&mut self, name: &str) -> Result<(), String> {
        let file = std::fs::read(name).map_err(|why| format!("{name}: {why}"))?;
        let mut offset = 0;
        match native::file(self.lent(), &file, &mut offset, &mut [0; 4]) {
            0 => Ok(()),
            number => Err(format!("{name}: refused {number} at {offset}")),
        }
    }

    fn fill(&mut self, x: &str, y: &str, ink: u8) -> Result<(), String> {
        let number = |word: &str| word.parse::<i32>().map_err(|why| format!("{word}: {why}"));
        let (x, y) = (number(x)?, number(y)?);
        let mut work = vec![0; WIDTH * HEIGHT];
        let mut cells = 0;
        let fill = Fill { start: [x, y], boundary: BOUNDARY, territory: ink };
        match native::fill(self.lent(), fill, &mut work, &mut cells) {
            0 => Ok(()),
            number => Err(format!("({x},{y}): refused {number}")),
        }
    }
}

fn picture(title: &str, file: &str, bounded: &[String]) -> Result<String, String> {
    let mut map = Map(vec![0; WIDTH * HEIGHT]);
    if let [boundaries, starts @ ..] = bounded {
        map.draw(boundaries)?;
        for (start, (ink, _)) in starts.chunks(2).zip(TERRITORIES) {
            map.fill(&start[0], &start[1], ink)?;
        }
    }
    map.draw(file)?;
    Ok(svg(title, &map.0))
}

fn main() -> ExitCode {
    let words: Vec<String> = std::env::args().skip(1).collect();
    let drawn = match &words[..] {
        [title, file, bounded @ ..] if [0, 3, 5, 7].contains(&bounded.len()) => picture(title, file, bounded),
        _ => {
            eprintln!("usage: picture TITLE FILE [BOUNDARIES X Y [X Y [X Y]]]");
            return ExitCode::from(2);
        }
    };
    match drawn {
        Ok(text) => {
            print!("{text}");
            ExitCode::SUCCESS
        }
        Err(why) => {
            eprintln!("picture: {why}");
            ExitCode::FAILURE
        }
    }
}
