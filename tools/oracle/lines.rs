// Prints the pixels that plotters-backend lays for a family of lines: places, and the bits of each alpha, in order.
use plotters_backend::{BackendColor, BackendCoord, DrawingBackend, DrawingErrorKind};

struct Recorder {
    log: Vec<(BackendCoord, f64)>,
}

#[derive(Debug)]
struct Never;

impl std::fmt::Display for Never {
    fn fmt(&self, _: &mut std::fmt::Formatter) -> std::fmt::Result {
        Ok(())
    }
}

impl std::error::Error for Never {}

impl DrawingBackend for Recorder {
    type ErrorType = Never;

    // large enough that no line of the family is clipped
    fn get_size(&self) -> (u32, u32) {
        (64, 64)
    }

    fn ensure_prepared(&mut self) -> Result<(), DrawingErrorKind<Never>> {
        Ok(())
    }

    fn present(&mut self) -> Result<(), DrawingErrorKind<Never>> {
        Ok(())
    }

    fn draw_pixel(&mut self, point: BackendCoord, color: BackendColor) -> Result<(), DrawingErrorKind<Never>> {
        self.log.push((point, color.alpha));
        Ok(())
    }
}

fn main() {
    let color = BackendColor { alpha: 0.7, rgb: (0, 0, 0) };
    for y in 0..13 {
        for x in 0..13 {
            let mut back = Recorder { log: Vec::new() };
            back.draw_line((5, 6), (x, y), &color).unwrap();
            print!("{} {}:", x, y);
            for (point, alpha) in back.log {
                print!(" {} {} {}", point.0, point.1, alpha.to_bits());
            }
            println!();
        }
    }
}
