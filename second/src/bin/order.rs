//! Watches which rows of a sheet a circle or an ellipse touches: those that have a cell of it, once each, from the top
//! down. Each row is a page, closed until it is touched and again once another is. What is drawn and the rectangle that is
//! told are compared too.
//!
//!     order               watches the library
//!     order --mirrored    the same cells, from the top and the bottom in turn, in the library's place: this must fail
use second::guard::{Against, Guarded};
use second::native::Cells::{self, Circle, Ellipse};
use second::native::{self, Lent};
use second::repaint::Rectangle;
use second::rule::{Rules, Shape, Sheet};
use second::run::{same, widened};
use second::watched::{page_size, watch};
use std::process::ExitCode;

/// Columns and rows of the sheet, and the bytes in a row: the smallest page.
const SIDE: usize = 4096;
const INK: u8 = 1;

/// Draws a figure; the number that it replies, and the rectangle that it tells.
type Kit = fn(&mut [u8], Cells) -> (u32, Rectangle);

const CASES: [(&str, Cells); 61] = [
    ("whole", Circle([100, 100], 1)),
    ("whole", Circle([100, 100], 5)),
    ("whole", Circle([2000, 1000], 100)),
    ("whole", Circle([2048, 2048], 2000)),
    ("from edge to edge", Circle([2047, 2048], 2047)),
    ("one cell", Circle([7, 4095], 0)),
    ("top cut off", Circle([2000, 100], 300)),
    ("bottom cut off", Circle([2000, 4000], 300)),
    ("left cut off", Circle([100, 2000], 300)),
    ("right cut off", Circle([4000, 2000], 300)),
    ("top left cut off", Circle([50, 40], 300)),
    ("top right cut off", Circle([4050, 40], 300)),
    ("bottom left cut off", Circle([50, 4040], 300)),
    ("bottom right cut off", Circle([4050, 4040], 300)),
    ("only the corners left", Circle([2048, 2048], 2500)),
    ("centre above", Circle([2000, -200], 300)),
    ("centre below", Circle([2000, 4300], 300)),
    ("centre to the left", Circle([-200, 2000], 300)),
    ("centre to the right", Circle([4300, 2000], 300)),
    ("centre past a corner", Circle([-100, -150], 300)),
    ("centre far past a corner", Circle([14_000, 14_000], 16_383)),
    ("centre at the limit on the right", Circle([16_383, 2000], 16_383)),
    ("centre at the limit below", Circle([2000, 16_383], 16_383)),
    ("centre at the limit below", Circle([2000, 16_383], 14_000)),
    ("centre near the limit on the left", Circle([-16_383, 2000], 16_383)),
    ("centre far above", Circle([100, -14_000], 16_383)),
    ("one row left", Circle([2000, -16_383], 16_383)),
    ("nothing, centre at the limit on the left", Circle([-16_384, 2000], 16_383)),
    ("nothing, centre at the limit above", Circle([2000, -16_384], 16_383)),
    ("nothing, around the sheet", Circle([2000, 2000], 5000)),
    ("nothing, beside the sheet", Circle([2000, 4101], 5)),
    ("nothing, one cell", Circle([-1, 9], 0)),
    ("whole", Ellipse([100, 100], 1, 1)),
    ("whole", Ellipse([1000, 2000], 300, 200)),
    ("whole, flat", Ellipse([2048, 2048], 2000, 3)),
    ("whole, upright", Ellipse([2048, 2048], 3, 2000)),
    ("from edge to edge", Ellipse([2048, 2047], 2047, 2047)),
    ("top cut off", Ellipse([2000, 100], 300, 200)),
    ("bottom cut off", Ellipse([2000, 4000], 300, 200)),
    ("left cut off", Ellipse([100, 2000], 300, 200)),
    ("right cut off", Ellipse([4000, 2000], 300, 200)),
    ("top left cut off", Ellipse([50, 40], 200, 300)),
    ("top right cut off", Ellipse([4050, 40], 200, 300)),
    ("bottom left cut off", Ellipse([50, 4040], 200, 300)),
    ("bottom right cut off", Ellipse([4050, 4040], 200, 300)),
    ("only the corners left", Ellipse([2048, 2048], 2500, 2600)),
    ("centre above", Ellipse([2000, -100], 300, 200)),
    ("centre below", Ellipse([2000, 4200], 300, 200)),
    ("centre to the left", Ellipse([-200, 2000], 300, 200)),
    ("centre to the right", Ellipse([4300, 2000], 300, 200)),
    ("centre past a corner", Ellipse([4200, 4150], 300, 200)),
    ("left and right cut off, flat", Ellipse([2048, 2048], 16_383, 1)),
    ("top and bottom cut off, upright", Ellipse([2048, 2048], 1, 16_383)),
    ("centre at the limit on the right", Ellipse([16_383, 2000], 16_383, 1000)),
    ("centre at the limit below", Ellipse([2000, 16_383], 1000, 16_383)),
    ("centre near the limit on the left", Ellipse([-16_383, 2000], 16_383, 16_383)),
    ("centre far above", Ellipse([2000, -14_000], 3000, 16_383)),
    ("nothing, centre at the limits", Ellipse([-16_384, -16_384], 16_383, 16_383)),
    ("nothing, around the sheet", Ellipse([2000, 2000], 5000, 6000)),
    ("nothing, beside the sheet", Ellipse([-301, 2000], 300, 200)),
    ("nothing, above the sheet", Ellipse([2000, -2], 300, 1)),
];

/// The sheet with the figure, and its rectangle.
fn by_rules(figure: Cells) -> (Vec<u8>, Rectangle) {
    let mut bytes = vec![0; SIDE * SIDE];
    let side = SIDE as i64;
    let shape = Shape { width: side, height: side, pitch: side };
    let reply = Rules::document().draw(&mut Sheet { shape, bytes: &mut bytes }, INK, &widened(&figure));
    (bytes, reply.rectangle.expect("no case is refused"))
}

fn library(bytes: &mut [u8], figure: Cells) -> (u32, Rectangle) {
    let (side, mut rectangle) = (SIDE as u32, [u32::MAX; 4]);
    let lent = Lent { bytes, width: side, height: side, pitch: side };
    (native::draw(lent, INK, figure, &mut 0, &mut rectangle), rectangle)
}

/// The rule's cells, the next from the top and the next from the bottom in turn: only the order is wrong.
fn mirrored(bytes: &mut [u8], figure: Cells) -> (u32, Rectangle) {
    let (drawn, rectangle) = by_rules(figure);
    let places = || (0..drawn.len()).filter(|&place| drawn[place] == INK);
    for (down, up) in places().zip(places().rev()) {
        bytes[down] = INK;
        bytes[up] = INK;
    }
    (0, rectangle)
}

/// Draws a figure on the watched sheet; what is wrong, if anything is.
fn watched(kit: Kit, sheet: &mut [u8], figure: Cells) -> Result<(), String> {
    let (page, (drawn, rectangle)) = (page_size(), by_rules(figure));
    let inked: Vec<usize> = (0..drawn.len() / page).filter(|i| drawn[i * page..][..page].contains(&INK)).collect();
    sheet.fill(0);
    let ((reply, told), touched) = watch(sheet, |sheet| kit(sheet, figure));
    same("reply", &[reply], &[0])?;
    let row = if page == SIDE { "row" } else { "page" };
    if let Some(pair) = touched.windows(2).find(|pair| pair[0] >= pair[1]) {
        return Err(format!("{row} {} is touched after {row} {}", pair[1], pair[0]));
    }
    if let Some(extra) = touched.iter().find(|touched| !inked.contains(touched)) {
        return Err(format!("{row} {extra} is touched and has no cell"));
    }
    if let Some(missed) = inked.iter().find(|inked| !touched.contains(inked)) {
        return Err(format!("{row} {missed} has a cell and is not touched"));
    }
    same("place of the box", &told, &rectangle)?;
    same("byte", sheet, &drawn)
}

fn told(figure: Cells) -> String {
    match figure {
        Circle([x, y], r) => format!("circle of radius {r} about ({x}, {y})"),
        Ellipse([x, y], a, b) => format!("ellipse of semi-axes {a} and {b} about ({x}, {y})"),
        other => format!("{other:?}"),
    }
}

fn main() -> ExitCode {
    let words: Vec<String> = std::env::args().skip(1).collect();
    let kit: Kit = match words.iter().map(String::as_str).collect::<Vec<_>>()[..] {
        [] => library,
        ["--mirrored"] => mirrored,
        _ => {
            eprintln!("usage: order [--mirrored]");
            return ExitCode::from(2);
        }
    };
    let page = page_size();
    if page != SIDE {
        eprintln!("order: a page of {page} bytes has {} rows, so that pages are watched and not rows", page / SIDE);
    }
    let mut room = Guarded::with_room(SIDE * SIDE);
    let sheet = room.lend::<u8>(SIDE * SIDE, Against::Before);
    for (name, figure) in CASES {
        if let Err(what) = watched(kit, sheet, figure) {
            eprintln!("order: {}, {name}: {what}", told(figure));
            return ExitCode::from(1);
        }
    }
    println!("{} passed, 0 failed", CASES.len());
    ExitCode::SUCCESS
}
