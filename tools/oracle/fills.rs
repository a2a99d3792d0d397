// Prints the pixels that plotters-backend lays for the outlines of docs/DIFFERENCES.md: places and alphas, in order.
use plotters_backend::{BackendColor, BackendCoord, DrawingBackend, DrawingErrorKind};

struct Recorder {
    log: Vec<(BackendCoord, f64)>,
}

#[derive(Debug)]
struct Never;

impl std::fmt::Display for Never {
    fn fmt(&self, _: &mut std::fmt::Formatter) -> std::fmt::Result {
        Ok(())
    }
}

impl std::error::Error for Never {}

impl DrawingBackend for Recorder {
    type ErrorType = Never;

    fn get_size(&self) -> (u32, u32) {
        (64, 64)
    }

    fn ensure_prepared(&mut self) -> Result<(), DrawingErrorKind<Never>> {
        Ok(())
    }

    fn present(&mut self) -> Result<(), DrawingErrorKind<Never>> {
        Ok(())
    }

    fn draw_pixel(&mut self, point: BackendCoord, color: BackendColor) -> Result<(), DrawingErrorKind<Never>> {
        self.log.push((point, color.alpha));
        Ok(())
    }
}

fn show(name: &str, outline: Vec<BackendCoord>) {
    let mut back = Recorder { log: Vec::new() };
    back.fill_polygon(outline, &BackendColor { alpha: 1.0, rgb: (0, 0, 0) }).unwrap();
    print!("{name}: {} pixels:", back.log.len());
    for ((x, y), alpha) in back.log.iter().take(20) {
        print!(" ({x},{y}) {alpha}");
    }
    println!();
}

fn main() {
    show("(2,1) (4,3) (4,5)", vec![(2, 1), (4, 3), (4, 5)]);
    show("(1,1) (5,3)", vec![(1, 1), (5, 3)]);
    show("(0,0) (4,0) (4,4) (0,4)", vec![(0, 0), (4, 0), (4, 4), (0, 4)]);
    show("1,025 corners", (0..1025).map(|k| (k % 60, k / 60)).collect());
    show("(0,0) (20000,0) (0,1)", vec![(0, 0), (20000, 0), (0, 1)]);
}
