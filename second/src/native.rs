//! The proved library, as include/pistonwool.h declares it, behind functions that take slices.
use crate::metres::{Metres, Survey};
use crate::repaint::Rectangle;

#[rustfmt::skip] // one function to a line or two, as the header has them
mod declared {
    use crate::repaint::Rectangle;

    extern "C" {
        pub fn pw_line(sheet: *mut u8, len: usize, width: u32, height: u32, pitch: u32, ink: u8,
                       x0: i32, y0: i32, x1: i32, y1: i32, cells: *mut u32, rectangle: *mut Rectangle) -> u32;
        pub fn pw_ellipse(sheet: *mut u8, len: usize, width: u32, height: u32, pitch: u32, ink: u8,
                          x: i32, y: i32, a: u32, b: u32, rectangle: *mut Rectangle) -> u32;
        pub fn pw_curve(sheet: *mut u8, len: usize, width: u32, height: u32, pitch: u32, ink: u8,
                        x0: i32, y0: i32, x1: i32, y1: i32, x2: i32, y2: i32, s: u32,
                        rectangle: *mut Rectangle) -> u32;
        pub fn pw_cubic(sheet: *mut u8, len: usize, width: u32, height: u32, pitch: u32, ink: u8, x0: i32, y0: i32,
                        x1: i32, y1: i32, x2: i32, y2: i32, x3: i32, y3: i32, s: u32,
                        rectangle: *mut Rectangle) -> u32;
        pub fn pw_fill(sheet: *mut u8, len: usize, width: u32, height: u32, pitch: u32, x: i32, y: i32,
                       boundary: u8, territory: u8, work: *mut u32, places: usize, cells: *mut u32) -> u32;
        pub fn pw_list(xs: *mut i32, nx: usize, ys: *mut i32, ny: usize,
                       x0: i32, y0: i32, x1: i32, y1: i32, cells: *mut u32) -> u32;
        pub fn pw_pen_begin(pen: *mut super::Pen, x0: i32, y0: i32, x1: i32, y1: i32) -> u32;
        pub fn pw_pen_next(pen: *mut super::Pen, x: *mut i32, y: *mut i32) -> u32;
        pub fn pw_file(sheet: *mut u8, len: usize, width: u32, height: u32, pitch: u32,
                       file: *const u8, n: usize, value: *mut u64, rectangle: *mut Rectangle) -> u32;
        pub fn pw_write_line(buffer: *mut u8, len: usize, filled: *mut u64, ink: u8,
                             x0: i32, y0: i32, x1: i32, y1: i32) -> u32;
        pub fn pw_write_circle(buffer: *mut u8, len: usize, filled: *mut u64, ink: u8, x: i32, y: i32, r: u32) -> u32;
        pub fn pw_write_ellipse(buffer: *mut u8, len: usize, filled: *mut u64, ink: u8,
                                x: i32, y: i32, a: u32, b: u32) -> u32;
        pub fn pw_write_curve(buffer: *mut u8, len: usize, filled: *mut u64, ink: u8,
                              x0: i32, y0: i32, x1: i32, y1: i32, x2: i32, y2: i32, s: u32) -> u32;
        pub fn pw_write_cubic(buffer: *mut u8, len: usize, filled: *mut u64, ink: u8, x0: i32, y0: i32,
                              x1: i32, y1: i32, x2: i32, y2: i32, x3: i32, y3: i32, s: u32) -> u32;
        pub fn pw_rescue(file: *const u8, n: usize, copy: *mut u8, room: usize, offsets: *mut u64, no: usize,
                         numbers: *mut u64, nn: usize, copied: *mut u64, listed: *mut u64) -> u32;
        pub fn pw_write_pbm(sheet: *const u8, len: usize, width: u32, height: u32, pitch: u32,
                            picture: *mut u8, room: usize, bytes: *mut u64) -> u32;
        pub fn pw_read_pbm(sheet: *mut u8, len: usize, width: u32, height: u32, pitch: u32,
                           picture: *const u8, n: usize) -> u32;
        pub fn pw_line_metres(sheet: *mut u8, len: usize, width: u32, height: u32, pitch: u32, ink: u8,
                              east: f64, north: f64, size: f64,
                              x0: f64, y0: f64, x1: f64, y1: f64, cells: *mut u32, rectangle: *mut Rectangle) -> u32;
        pub fn pw_ellipse_metres(sheet: *mut u8, len: usize, width: u32, height: u32, pitch: u32, ink: u8,
                                 east: f64, north: f64, size: f64, x: f64, y: f64, a: f64, b: f64,
                                 rectangle: *mut Rectangle) -> u32;
    }
}

/// A lent sheet as the library takes it: its sizes need not fit its bytes.
pub struct Lent<'a> {
    pub bytes: &'a mut [u8],
    pub width: u32,
    pub height: u32,
    pub pitch: u32,
}

/// A figure in cells, with the types of the header; a circle is drawn as the ellipse of equal axes, but written as itself.
#[derive(Clone, Copy, Debug)]
pub enum Cells {
    Line([i32; 4]),
    Circle([i32; 2], u32),
    Ellipse([i32; 2], u32, u32),
    Curve([i32; 6], u32),
    Cubic([i32; 8], u32),
}

/// Where a fill starts, the ink that it does not enter and the ink that it sets, with the types of the header.
#[derive(Clone, Copy, Debug)]
pub struct Fill {
    pub start: [i32; 2],
    pub boundary: u8,
    pub territory: u8,
}

/// A pen as the header has it: x and y of both ends, and how many cells were told.
#[derive(Clone, Copy, Debug, PartialEq)]
#[repr(C)]
pub struct Pen {
    pub ends: [i32; 4],
    pub told: u32,
}

pub fn draw(lent: Lent, ink: u8, figure: Cells, cells: &mut u32, rectangle: &mut Rectangle) -> u32 {
    let Lent { bytes, width: w, height: h, pitch } = lent;
    let (sheet, len) = (bytes.as_mut_ptr(), bytes.len());
    // SAFETY: the pointers are of slices and numbers lent to this call alone, with their lengths.
    unsafe {
        match figure {
            Cells::Line([x0, y0, x1, y1]) => {
                declared::pw_line(sheet, len, w, h, pitch, ink, x0, y0, x1, y1, cells, rectangle)
            }
            Cells::Circle([x, y], r) => declared::pw_ellipse(sheet, len, w, h, pitch, ink, x, y, r, r, rectangle),
            Cells::Ellipse([x, y], a, b) => declared::pw_ellipse(sheet, len, w, h, pitch, ink, x, y, a, b, rectangle),
            Cells::Curve([x0, y0, x1, y1, x2, y2], s) => {
                declared::pw_curve(sheet, len, w, h, pitch, ink, x0, y0, x1, y1, x2, y2, s, rectangle)
            }
            Cells::Cubic([x0, y0, x1, y1, x2, y2, x3, y3], s) => {
                declared::pw_cubic(sheet, len, w, h, pitch, ink, x0, y0, x1, y1, x2, y2, x3, y3, s, rectangle)
            }
        }
    }
}

pub fn draw_metres(
    lent: Lent,
    ink: u8,
    survey: Survey,
    figure: Metres,
    cells: &mut u32,
    rectangle: &mut Rectangle,
) -> u32 {
    let Lent { bytes, width: w, height: h, pitch } = lent;
    let (sheet, len) = (bytes.as_mut_ptr(), bytes.len());
    let Survey { east, north, size } = survey;
    // SAFETY: as in `draw`.
    unsafe {
        match figure {
            Metres::Line([x0, y0, x1, y1]) => declared::pw_line_metres(
                sheet, len, w, h, pitch, ink, east, north, size, x0, y0, x1, y1, cells, rectangle,
            ),
            Metres::Circle([x, y, r]) => {
                declared::pw_ellipse_metres(sheet, len, w, h, pitch, ink, east, north, size, x, y, r, r, rectangle)
            }
            Metres::Ellipse([x, y, a, b]) => {
                declared::pw_ellipse_metres(sheet, len, w, h, pitch, ink, east, north, size, x, y, a, b, rectangle)
            }
        }
    }
}

pub fn fill(lent: Lent, fill: Fill, work: &mut [u32], cells: &mut u32) -> u32 {
    let Lent { bytes, width: w, height: h, pitch } = lent;
    let (sheet, len) = (bytes.as_mut_ptr(), bytes.len());
    let Fill { start: [x, y], boundary, territory } = fill;
    let (work, places) = (work.as_mut_ptr(), work.len());
    // SAFETY: as in `draw`.
    unsafe { declared::pw_fill(sheet, len, w, h, pitch, x, y, boundary, territory, work, places, cells) }
}

pub fn list(xs: &mut [i32], ys: &mut [i32], [x0, y0, x1, y1]: [i32; 4], cells: &mut u32) -> u32 {
    // SAFETY: as in `draw`.
    unsafe { declared::pw_list(xs.as_mut_ptr(), xs.len(), ys.as_mut_ptr(), ys.len(), x0, y0, x1, y1, cells) }
}

pub fn pen_begin(pen: &mut Pen, [x0, y0, x1, y1]: [i32; 4]) -> u32 {
    // SAFETY: as in `draw`.
    unsafe { declared::pw_pen_begin(pen, x0, y0, x1, y1) }
}

pub fn pen_next(pen: &mut Pen, x: &mut i32, y: &mut i32) -> u32 {
    // SAFETY: as in `draw`.
    unsafe { declared::pw_pen_next(pen, x, y) }
}

pub fn file(lent: Lent, file: &[u8], value: &mut u64, rectangle: &mut Rectangle) -> u32 {
    let Lent { bytes, width: w, height: h, pitch } = lent;
    let (sheet, len) = (bytes.as_mut_ptr(), bytes.len());
    // SAFETY: as in `draw`; the library only reads the file.
    unsafe { declared::pw_file(sheet, len, w, h, pitch, file.as_ptr(), file.len(), value, rectangle) }
}

pub fn write(buffer: &mut [u8], filled: &mut u64, ink: u8, figure: Cells) -> u32 {
    let (buffer, len) = (buffer.as_mut_ptr(), buffer.len());
    // SAFETY: as in `draw`.
    unsafe {
        match figure {
            Cells::Line([x0, y0, x1, y1]) => declared::pw_write_line(buffer, len, filled, ink, x0, y0, x1, y1),
            Cells::Circle([x, y], r) => declared::pw_write_circle(buffer, len, filled, ink, x, y, r),
            Cells::Ellipse([x, y], a, b) => declared::pw_write_ellipse(buffer, len, filled, ink, x, y, a, b),
            Cells::Curve([x0, y0, x1, y1, x2, y2], s) => {
                declared::pw_write_curve(buffer, len, filled, ink, x0, y0, x1, y1, x2, y2, s)
            }
            Cells::Cubic([x0, y0, x1, y1, x2, y2, x3, y3], s) => {
                declared::pw_write_cubic(buffer, len, filled, ink, x0, y0, x1, y1, x2, y2, x3, y3, s)
            }
        }
    }
}

pub fn rescue(
    file: &[u8],
    copy: &mut [u8],
    offsets: &mut [u64],
    numbers: &mut [u64],
    [copied, listed]: [&mut u64; 2],
) -> u32 {
    let (copy, room) = (copy.as_mut_ptr(), copy.len());
    let (offsets, no) = (offsets.as_mut_ptr(), offsets.len());
    let (numbers, nn) = (numbers.as_mut_ptr(), numbers.len());
    // SAFETY: as in `file`.
    unsafe { declared::pw_rescue(file.as_ptr(), file.len(), copy, room, offsets, no, numbers, nn, copied, listed) }
}

pub fn write_pbm(lent: Lent, picture: &mut [u8], bytes: &mut u64) -> u32 {
    let Lent { bytes: sheet, width: w, height: h, pitch } = lent;
    let (picture, room) = (picture.as_mut_ptr(), picture.len());
    // SAFETY: as in `draw`; the library only reads the sheet.
    unsafe { declared::pw_write_pbm(sheet.as_ptr(), sheet.len(), w, h, pitch, picture, room, bytes) }
}

pub fn read_pbm(lent: Lent, picture: &[u8]) -> u32 {
    let Lent { bytes: sheet, width: w, height: h, pitch } = lent;
    let (picture, n) = (picture.as_ptr(), picture.len());
    // SAFETY: as in `draw`; the library only reads the picture.
    unsafe { declared::pw_read_pbm(sheet.as_mut_ptr(), sheet.len(), w, h, pitch, picture, n) }
}
