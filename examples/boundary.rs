//! One boundary drawn from each of its ends, as two controllers draw it, and followed by a pen, by the proved library.

extern "C" {
    #[allow(clippy::too_many_arguments)]
    fn pw_line(
        sheet: *mut u8,
        len: usize,
        width: u32,
        height: u32,
        pitch: u32,
        ink: u8,
        x0: i32,
        y0: i32,
        x1: i32,
        y1: i32,
        cells: *mut u32,
        rectangle: *mut [u32; 4],
    ) -> u32;
    fn pw_file(
        sheet: *mut u8,
        len: usize,
        width: u32,
        height: u32,
        pitch: u32,
        file: *const u8,
        n: usize,
        value: *mut u64,
        rectangle: *mut [u32; 4],
    ) -> u32;
    fn pw_pen_begin(pen: *mut Pen, x0: i32, y0: i32, x1: i32, y1: i32) -> u32;
    fn pw_pen_next(pen: *mut Pen, x: *mut i32, y: *mut i32) -> u32;
}

/// `struct pw_pen`: x and y of both ends, and how many cells were told.
#[derive(Default)]
#[repr(C)]
struct Pen([i32; 4], u32);

const WIDTH: u32 = 16;
const HEIGHT: u32 = 8;

/// Draws a line: its number of cells on the sheet, or the refusal's number.
fn line(sheet: &mut [u8], from: (i32, i32), to: (i32, i32)) -> Result<u32, u32> {
    let (mut cells, mut rectangle) = (0, [0; 4]);
    // SAFETY: the pointer and the length are one slice's, and `cells` and `rectangle` are places of their own.
    let reply = unsafe {
        pw_line(
            sheet.as_mut_ptr(),
            sheet.len(),
            WIDTH,
            HEIGHT,
            WIDTH,
            1,
            from.0,
            from.1,
            to.0,
            to.1,
            &mut cells,
            &mut rectangle,
        )
    };
    if reply == 0 {
        Ok(cells)
    } else {
        Err(reply)
    }
}

/// Draws a record file: its number of records, or the refusal's number and the offset of the field that it names.
fn file(sheet: &mut [u8], file: &[u8]) -> Result<u64, (u32, u64)> {
    let (mut value, mut rectangle) = (0, [0; 4]);
    // SAFETY: as in `line`; the file is only read.
    let reply = unsafe {
        pw_file(
            sheet.as_mut_ptr(),
            sheet.len(),
            WIDTH,
            HEIGHT,
            WIDTH,
            file.as_ptr(),
            file.len(),
            &mut value,
            &mut rectangle,
        )
    };
    if reply == 0 {
        Ok(value)
    } else {
        Err((reply, value))
    }
}

impl Pen {
    fn begin(from: (i32, i32), to: (i32, i32)) -> Result<Pen, u32> {
        let mut pen = Pen::default();
        // SAFETY: a pen of the library's own layout.
        match unsafe { pw_pen_begin(&mut pen, from.0, from.1, to.0, to.1) } {
            0 => Ok(pen),
            refusal => Err(refusal),
        }
    }
}

impl Iterator for Pen {
    type Item = (i32, i32);

    fn next(&mut self) -> Option<(i32, i32)> {
        let (mut x, mut y) = (0, 0);
        // SAFETY: as in `begin`; x and y are places of their own.
        let told = unsafe { pw_pen_next(self, &mut x, &mut y) };
        (told == 1).then_some((x, y))
    }
}

fn main() {
    let (mut harbour, mut hill) = ([0u8; 128], [0u8; 128]);
    let cells = line(&mut harbour, (0, 7), (15, 0)).expect("drawn");
    assert_eq!(line(&mut hill, (15, 0), (0, 7)), Ok(cells));
    for row in harbour.chunks(WIDTH as usize) {
        let text: String = row
            .iter()
            .map(|b| if *b == 0 { '.' } else { '#' })
            .collect();
        println!("{text}");
    }
    println!("{cells} cells, from (0,7) to (15,0)");
    println!(
        "the two sheets {}",
        if harbour == hill {
            "are the same"
        } else {
            "differ"
        }
    );
    print!("a pen follows it:");
    for (x, y) in Pen::begin((0, 7), (15, 0)).expect("begun") {
        print!(" ({x},{y})");
    }
    println!();
    println!(
        "an end at 16,384 is refused with {}",
        line(&mut hill, (0, 0), (16384, 0)).unwrap_err()
    );
    println!(
        "a sheet one byte short is refused with {}",
        line(&mut hill[..127], (0, 0), (1, 0)).unwrap_err()
    );
    let (number, offset) =
        file(&mut hill, &[11, 0, 1, 0, 1, 0, 0, 7, 0, 15, 0, 0, 64]).unwrap_err();
    println!("a file with an end at 16,384 is refused with {number} at offset {offset}");
}
