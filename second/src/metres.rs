//! Figures in metres.
use crate::rule::{Cell, Figure, Reply, Rules, Sheet, LEAST, MOST};

#[derive(Clone, Copy, Debug)]
pub struct Survey {
    pub east: f64,
    pub north: f64,
    pub size: f64,
}

#[derive(Clone, Copy, Debug)]
pub enum Metres {
    Line([f64; 4]),
    Circle([f64; 3]),
    Ellipse([f64; 4]),
}

impl Survey {
    fn is_sound(&self) -> bool {
        self.east.is_finite() && self.north.is_finite() && self.size.is_finite() && self.size > 0.0
    }
}

/// The whole number k within the limits with k <= q and q < k + 1.
pub fn cell(q: f64) -> Option<i64> {
    let k = q.floor();
    let found = LEAST as f64 <= k && k <= MOST as f64 && k <= q && q < k + 1.0;
    found.then_some(k as i64)
}

impl Rules {
    /// 1, 15, 6, then 7 for each field, then 3.
    pub fn draw_metres(&self, sheet: &mut Sheet, ink: u8, survey: Survey, figure: Metres) -> Reply {
        if let Some(number) = (self.no_sheet)(sheet) {
            return self.refused(number);
        }
        if !survey.is_sound() {
            return self.refused(6);
        }
        match self.in_cells(survey, figure) {
            Some(figure) => self.draw(sheet, ink, &figure),
            None => self.refused(7),
        }
    }

    fn in_cells(&self, survey: Survey, figure: Metres) -> Option<Figure> {
        let point = |x: f64, y: f64| -> Option<Cell> {
            let x = (self.cell)((x - survey.east) / survey.size)?;
            Some((x, (self.cell)((y - survey.north) / survey.size)?))
        };
        let length = |metres: f64| (self.cell)(metres / survey.size);
        Some(match figure {
            Metres::Line([x0, y0, x1, y1]) => Figure::Line(point(x0, y0)?, point(x1, y1)?),
            Metres::Circle([x, y, r]) => Figure::Circle(point(x, y)?, length(r)?),
            Metres::Ellipse([x, y, a, b]) => Figure::Ellipse(point(x, y)?, length(a)?, length(b)?),
        })
    }
}

#[cfg(test)]
mod tests {
    use super::*;

    #[test]
    fn metres_of_the_document() {
        assert_eq!(cell((1062.5 - 1000.0) / 25.0), Some(2));
        assert_eq!(cell((1000.0 - 1000.0) / 25.0), Some(0));
        assert_eq!(cell((999.0 - 1000.0) / 25.0), Some(-1));
        assert_eq!(cell((-0.0 - 0.0) / 25.0), Some(0));
        assert_eq!(cell(f64::NAN), None);
        assert_eq!(cell(f64::INFINITY), None);
        assert_eq!(cell(16_383.999), Some(16_383));
        assert_eq!(cell(16_384.0), None);
        assert_eq!(cell(-16_384.0), Some(-16_384));
    }
}
