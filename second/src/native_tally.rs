//! The library's exports that keep a tally, behind functions that take slices; without a list each is that of `native`.
use crate::metres::{Metres, Survey};
use crate::native::{self, Cells, Fill, Lent};
use crate::repaint::Rectangle;

#[rustfmt::skip] // as in `native`
mod declared {
    use crate::repaint::Rectangle;

    extern "C" {
        pub fn pw_tally(sheet: *const u8, len: usize, width: u32, height: u32, pitch: u32,
                        rows: *mut u32, places: usize) -> u32;
        pub fn pw_line_tallied(sheet: *mut u8, len: usize, width: u32, height: u32, pitch: u32,
                               rows: *mut u32, places: usize, ink: u8, x0: i32, y0: i32, x1: i32, y1: i32,
                               cells: *mut u32, rectangle: *mut Rectangle) -> u32;
        pub fn pw_ellipse_tallied(sheet: *mut u8, len: usize, width: u32, height: u32, pitch: u32,
                                  rows: *mut u32, places: usize, ink: u8, x: i32, y: i32, a: u32, b: u32,
                                  rectangle: *mut Rectangle) -> u32;
        pub fn pw_curve_tallied(sheet: *mut u8, len: usize, width: u32, height: u32, pitch: u32,
                                rows: *mut u32, places: usize, ink: u8, x0: i32, y0: i32, x1: i32, y1: i32,
                                x2: i32, y2: i32, s: u32, rectangle: *mut Rectangle) -> u32;
        pub fn pw_cubic_tallied(sheet: *mut u8, len: usize, width: u32, height: u32, pitch: u32,
                                rows: *mut u32, places: usize, ink: u8, x0: i32, y0: i32, x1: i32, y1: i32,
                                x2: i32, y2: i32, x3: i32, y3: i32, s: u32, rectangle: *mut Rectangle) -> u32;
        pub fn pw_file_tallied(sheet: *mut u8, len: usize, width: u32, height: u32, pitch: u32,
                               rows: *mut u32, places: usize, file: *const u8, n: usize, value: *mut u64,
                               rectangle: *mut Rectangle) -> u32;
        pub fn pw_line_metres_tallied(sheet: *mut u8, len: usize, width: u32, height: u32, pitch: u32,
                                      rows: *mut u32, places: usize, ink: u8, east: f64, north: f64, size: f64,
                                      x0: f64, y0: f64, x1: f64, y1: f64, cells: *mut u32,
                                      rectangle: *mut Rectangle) -> u32;
        pub fn pw_ellipse_metres_tallied(sheet: *mut u8, len: usize, width: u32, height: u32, pitch: u32,
                                         rows: *mut u32, places: usize, ink: u8, east: f64, north: f64, size: f64,
                                         x: f64, y: f64, a: f64, b: f64, rectangle: *mut Rectangle) -> u32;
        pub fn pw_fill_tallied(sheet: *mut u8, len: usize, width: u32, height: u32, pitch: u32,
                               rows: *mut u32, places: usize, x: i32, y: i32, boundary: u8, territory: u8,
                               work: *mut u32, room: usize, cells: *mut u32) -> u32;
    }
}

/// A list that may be lent beside a sheet.
pub type List<'a> = Option<&'a mut [u32]>;

pub fn tally(lent: Lent, list: &mut [u32]) -> u32 {
    let Lent { bytes, width: w, height: h, pitch } = lent;
    // SAFETY: as in `native::draw`; the library only reads the sheet.
    unsafe { declared::pw_tally(bytes.as_ptr(), bytes.len(), w, h, pitch, list.as_mut_ptr(), list.len()) }
}

pub fn draw(lent: Lent, list: List, ink: u8, figure: Cells, cells: &mut u32, rectangle: &mut Rectangle) -> u32 {
    let Some(list) = list else {
        return native::draw(lent, ink, figure, cells, rectangle);
    };
    let Lent { bytes, width: w, height: h, pitch } = lent;
    let (sheet, len) = (bytes.as_mut_ptr(), bytes.len());
    let (rows, n) = (list.as_mut_ptr(), list.len());
    // SAFETY: as in `native::draw`.
    unsafe {
        match figure {
            Cells::Line([x0, y0, x1, y1]) => {
                declared::pw_line_tallied(sheet, len, w, h, pitch, rows, n, ink, x0, y0, x1, y1, cells, rectangle)
            }
            Cells::Circle([x, y], r) => {
                declared::pw_ellipse_tallied(sheet, len, w, h, pitch, rows, n, ink, x, y, r, r, rectangle)
            }
            Cells::Ellipse([x, y], a, b) => {
                declared::pw_ellipse_tallied(sheet, len, w, h, pitch, rows, n, ink, x, y, a, b, rectangle)
            }
            Cells::Curve([x0, y0, x1, y1, x2, y2], s) => {
                declared::pw_curve_tallied(sheet, len, w, h, pitch, rows, n, ink, x0, y0, x1, y1, x2, y2, s, rectangle)
            }
            Cells::Cubic([x0, y0, x1, y1, x2, y2, x3, y3], s) => declared::pw_cubic_tallied(
                sheet, len, w, h, pitch, rows, n, ink, x0, y0, x1, y1, x2, y2, x3, y3, s, rectangle,
            ),
        }
    }
}

pub fn draw_metres(
    lent: Lent,
    list: List,
    ink: u8,
    survey: Survey,
    figure: Metres,
    cells: &mut u32,
    rectangle: &mut Rectangle,
) -> u32 {
    let Some(list) = list else {
        return native::draw_metres(lent, ink, survey, figure, cells, rectangle);
    };
    let Lent { bytes, width: w, height: h, pitch } = lent;
    let (sheet, len) = (bytes.as_mut_ptr(), bytes.len());
    let (rows, n) = (list.as_mut_ptr(), list.len());
    let Survey { east, north, size } = survey;
    // SAFETY: as in `native::draw`.
    unsafe {
        match figure {
            Metres::Line([x0, y0, x1, y1]) => declared::pw_line_metres_tallied(
                sheet, len, w, h, pitch, rows, n, ink, east, north, size, x0, y0, x1, y1, cells, rectangle,
            ),
            Metres::Circle([x, y, r]) => declared::pw_ellipse_metres_tallied(
                sheet, len, w, h, pitch, rows, n, ink, east, north, size, x, y, r, r, rectangle,
            ),
            Metres::Ellipse([x, y, a, b]) => declared::pw_ellipse_metres_tallied(
                sheet, len, w, h, pitch, rows, n, ink, east, north, size, x, y, a, b, rectangle,
            ),
        }
    }
}

pub fn file(lent: Lent, list: List, file: &[u8], value: &mut u64, rectangle: &mut Rectangle) -> u32 {
    let Some(list) = list else {
        return native::file(lent, file, value, rectangle);
    };
    let Lent { bytes, width: w, height: h, pitch } = lent;
    let (sheet, len) = (bytes.as_mut_ptr(), bytes.len());
    let (rows, places) = (list.as_mut_ptr(), list.len());
    let (file, n) = (file.as_ptr(), file.len());
    // SAFETY: as in `native::file`.
    unsafe { declared::pw_file_tallied(sheet, len, w, h, pitch, rows, places, file, n, value, rectangle) }
}

pub fn fill(lent: Lent, list: List, fill: Fill, work: &mut [u32], cells: &mut u32) -> u32 {
    let Some(list) = list else {
        return native::fill(lent, fill, work, cells);
    };
    let Lent { bytes, width: w, height: h, pitch } = lent;
    let (sheet, len) = (bytes.as_mut_ptr(), bytes.len());
    let (rows, n) = (list.as_mut_ptr(), list.len());
    let Fill { start: [x, y], boundary, territory } = fill;
    let (work, room) = (work.as_mut_ptr(), work.len());
    // SAFETY: as in `native::draw`.
    unsafe { declared::pw_fill_tallied(sheet, len, w, h, pitch, rows, n, x, y, boundary, territory, work, room, cells) }
}
