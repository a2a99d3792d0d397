// Stands in for plotters-backend's file of text styles, so that its drawing core compiles alone.
use super::{BackendColor, BackendCoord};
use std::error::Error;

pub mod text_anchor {
    pub enum HPos {
        Left,
        Right,
        Center,
    }

    pub enum VPos {
        Top,
        Center,
        Bottom,
    }

    pub struct Pos {
        pub h_pos: HPos,
        pub v_pos: VPos,
    }
}

pub struct FontFamily;
pub struct FontStyle;
pub struct FontTransform;

impl FontTransform {
    pub fn transform(&self, x: i32, y: i32) -> (i32, i32) {
        (x, y)
    }
}

pub trait BackendTextStyle {
    type FontError: Error + Sync + Send + 'static;

    fn color(&self) -> BackendColor;

    fn anchor(&self) -> text_anchor::Pos;

    fn transform(&self) -> FontTransform;

    fn layout_box(&self, text: &str) -> Result<((i32, i32), (i32, i32)), Self::FontError>;

    fn draw<E, D: FnMut(i32, i32, BackendColor) -> Result<(), E>>(
        &self,
        text: &str,
        pos: BackendCoord,
        draw: D,
    ) -> Result<Result<(), E>, Self::FontError>;
}
