//! A picture of numbered colours, on which rectangles, frames and letters are drawn.

use crate::{colours, letters, png};

/// Pixels row by row from the upper left, each the number of a colour. What is drawn past an edge of
/// the picture is cut off there.
pub struct Canvas {
    width: usize,
    height: usize,
    pixels: Vec<u8>,
}

/// A rectangle of pixels: its upper left corner, and its width and height.
#[derive(Clone, Copy)]
pub struct Area {
    corner: [usize; 2],
    size: [usize; 2],
}

/// The rectangle of a size whose upper left corner is at x and y.
pub fn area(corner: [usize; 2], size: [usize; 2]) -> Area {
    Area { corner, size }
}

impl Canvas {
    /// Blank paper.
    pub fn new(width: usize, height: usize) -> Canvas {
        let pixels = vec![colours::PAPER; width * height];
        Canvas {
            width,
            height,
            pixels,
        }
    }

    /// Fills a rectangle.
    pub fn fill(&mut self, area: Area, colour: u8) {
        let [x, y] = area.corner;
        let right = (x + area.size[0]).min(self.width);
        for row in y..(y + area.size[1]).min(self.height) {
            for column in x..right {
                self.pixels[row * self.width + column] = colour;
            }
        }
    }

    /// Draws the inner edge of a rectangle, so many pixels thick.
    pub fn frame(&mut self, outer: Area, thick: usize, colour: u8) {
        let ([x, y], [width, height]) = (outer.corner, outer.size);
        let right = (x + width).saturating_sub(thick);
        let bottom = (y + height).saturating_sub(thick);
        for top in [y, bottom] {
            self.fill(area([x, top], [width, thick]), colour);
        }
        for left in [x, right] {
            self.fill(area([left, y], [thick, height]), colour);
        }
    }

    /// Writes a text from its upper left corner on, each dot of its letters so many pixels large.
    pub fn text(&mut self, corner: [usize; 2], dot: usize, colour: u8, text: &str) {
        for (column, row) in letters::dots(text) {
            let at = [corner[0] + column * dot, corner[1] + row * dot];
            self.fill(area(at, [dot, dot]), colour);
        }
    }

    /// The picture as the bytes of a PNG file.
    pub fn to_png(&self) -> Vec<u8> {
        png::encode(self.width, self.height, &colours::palette(), &self.pixels)
    }
}
