// Searches outlines that look like chance for one that plotters-backend leaves a hole in, or spills out of, in an opaque colour.
use plotters_backend::{BackendColor, BackendCoord, DrawingBackend, DrawingErrorKind};

struct Recorder {
    log: Vec<(BackendCoord, f64)>,
}

#[derive(Debug)]
struct Never;

impl std::fmt::Display for Never {
    fn fmt(&self, _: &mut std::fmt::Formatter) -> std::fmt::Result {
        Ok(())
    }
}

impl std::error::Error for Never {}

impl DrawingBackend for Recorder {
    type ErrorType = Never;

    fn get_size(&self) -> (u32, u32) {
        (64, 64)
    }

    fn ensure_prepared(&mut self) -> Result<(), DrawingErrorKind<Never>> {
        Ok(())
    }

    fn present(&mut self) -> Result<(), DrawingErrorKind<Never>> {
        Ok(())
    }

    fn draw_pixel(&mut self, point: BackendCoord, color: BackendColor) -> Result<(), DrawingErrorKind<Never>> {
        self.log.push((point, color.alpha));
        Ok(())
    }
}

// How a cell lies to an outline: strictly inside, on a side, closer than one cell to a live side on its sweep line.
struct Lies {
    inside: bool,
    on: bool,
    near: bool,
}

struct Swept {
    columns: bool,
    // m0, s0, m1, s1 with m0 <= m1, the sweep coordinate first
    sides: Vec<(i64, i64, i64, i64)>,
}

impl Swept {
    // None where the box has no width or no height.
    fn of(outline: &[BackendCoord]) -> Option<Swept> {
        let span = |numbers: Vec<i64>| numbers.iter().max().unwrap() - numbers.iter().min().unwrap();
        let width = span(outline.iter().map(|p| p.0 as i64).collect());
        let height = span(outline.iter().map(|p| p.1 as i64).collect());
        if width == 0 || height == 0 {
            return None;
        }
        let columns = width > height;
        let turned: Vec<(i64, i64)> = outline
            .iter()
            .map(|p| if columns { (p.0 as i64, p.1 as i64) } else { (p.1 as i64, p.0 as i64) })
            .collect();
        let sides = (0..turned.len())
            .map(|k| {
                let (a, b) = (turned[k], turned[(k + 1) % turned.len()]);
                if a.0 <= b.0 { (a.0, a.1, b.0, b.1) } else { (b.0, b.1, a.0, a.1) }
            })
            .collect();
        Some(Swept { columns, sides })
    }

    fn lies(&self, x: i64, y: i64) -> Lies {
        let (m, s) = if self.columns { (x, y) } else { (y, x) };
        let (mut odd, mut on, mut near) = (false, false, false);
        for &(m0, s0, m1, s1) in &self.sides {
            if m0 == m1 {
                on |= m == m0 && s >= s0.min(s1) && s <= s0.max(s1);
                continue;
            }
            let (over, span) = (s0 * (m1 - m0) + (s1 - s0) * (m - m0), m1 - m0);
            on |= m0 <= m && m <= m1 && over == s * span;
            if m0 <= m && m < m1 {
                odd ^= over < s * span;
                near |= (over - s * span).abs() < span;
            }
        }
        Lies { inside: odd && !on, on, near }
    }
}

fn main() {
    let mut state: u64 = 12345;
    let mut next = |below: u64| {
        state = state.wrapping_mul(6364136223846793005).wrapping_add(1442695040888963407);
        (state >> 33) % below
    };
    let color = BackendColor { alpha: 1.0, rgb: (0, 0, 0) };
    let (mut outlines, mut inside, mut holes, mut spills) = (0u64, 0u64, 0u64, 0u64);
    while outlines < 400000 {
        let corners = 3 + next(14);
        let outline: Vec<BackendCoord> = (0..corners).map(|_| (1 + next(16) as i32, 1 + next(16) as i32)).collect();
        let Some(swept) = Swept::of(&outline) else { continue };
        outlines += 1;
        let mut back = Recorder { log: Vec::new() };
        back.fill_polygon(outline.clone(), &color).unwrap();
        for y in 0..19 {
            for x in 0..19 {
                let lies = swept.lies(x as i64, y as i64);
                let laid = |least: f64| back.log.iter().any(|(p, alpha)| *p == (x, y) && *alpha >= least);
                inside += lies.inside as u64;
                if lies.inside && !laid(1.0) {
                    holes += 1;
                    println!("a hole at ({x},{y}): {outline:?}");
                }
                if !lies.inside && !lies.on && !lies.near && laid(f64::MIN_POSITIVE) {
                    spills += 1;
                    println!("a spill at ({x},{y}): {outline:?}");
                }
            }
        }
    }
    println!("{outlines} outlines, {inside} cells strictly inside, {holes} holes, {spills} spills");
}
