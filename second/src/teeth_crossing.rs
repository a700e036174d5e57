//! Programs whose boundaries leak.
use crate::figure::{in_column, line_cells};
use crate::rule::{Cell, Rules};
use crate::teeth::{nearest_in_both, sloped, without_last};
use crate::teeth_fill::{by_corners, round_the_end, through_padding};

/// Each with what is wrong in it.
pub fn leaking_programs() -> Vec<(&'static str, Rules)> {
    let right = Rules::document();
    vec![
        ("a line may step by two", Rules { line: by_twos, ..right }),
        ("a line leaves out its last cell", Rules { line: without_last, ..right }),
        ("an ellipse has the slope conditions of the base", base_ellipse()),
        ("an ellipse has no row rule", Rules { on_ellipse: in_column, ..right }),
        ("an ellipse's cells are nearest in column and row", Rules { on_ellipse: nearest_in_both, ..right }),
        ("a fill steps by corners too", Rules { territory: by_corners, ..right }),
        ("a fill steps from a row's last cell to the next row's first", Rules { territory: round_the_end, ..right }),
        ("a fill goes through the padding", Rules { territory: through_padding, ..right }),
    ]
}

/// The rules before K4: a flat ellipse has holes.
pub fn base_ellipse() -> Rules {
    Rules { on_ellipse: sloped, ..Rules::document() }
}

/// The step across is taken at every second cell alone, so that two may come at once.
fn by_twos(from: Cell, to: Cell) -> Vec<Cell> {
    let mut cells = line_cells(from, to);
    let level = (to.0 - from.0).abs() >= (to.1 - from.1).abs();
    for i in (1..cells.len()).step_by(2) {
        cells[i] = if level { (cells[i].0, cells[i - 1].1) } else { (cells[i - 1].0, cells[i].1) };
    }
    cells
}
