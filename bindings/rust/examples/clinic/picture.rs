//! The picture of the run: the indirect illuminance on the couch and on the floor, seen from above,
//! in colours of one scale. Points that are unseen have a colour of their own.

use crate::canvas::{area, Canvas};
use crate::colours::{Scale, FAINT, INK, OUTLINE, UNSEEN};
use crate::light::PANEL;
use crate::plan::Plan;
use crate::scene::{COUCH, FURNITURE};
use crate::sheet::Sheet;

/// How many points a sheet of the picture has along x.
pub const COLUMNS: usize = 390;

/// How many pixels a point of a sheet has on each side.
const POINT: usize = 2;
const MARGIN: usize = 36;
const WIDTH: usize = MARGIN + COLUMNS * POINT + 230;
/// Where the first sheet begins, below the title.
const TOP: usize = 138;
/// From the lower edge of a sheet to the upper edge of the next.
const GAP: usize = 84;
/// How far above a sheet or the scale its label stands.
const LABEL_ABOVE: usize = 24;
/// How large a dot of the letters is: in the title, and elsewhere.
const TITLE: usize = 3;
const LABEL: usize = 2;
/// From the upper edge of a label to that of the next below it.
const LINE: usize = 20;
/// How thick lines are.
const THICK: usize = 2;
/// How far within an outline its name stands, and how high the outline must be for it.
const NAME_INSET: usize = 8;
const NAME_SPACE: usize = 30;
/// Where the scale stands, how wide it is, and where what is written beside it begins.
const BAR: usize = MARGIN + COLUMNS * POINT + 40;
const BAR_WIDTH: usize = 34;
const BESIDE_BAR: usize = BAR + BAR_WIDTH + 14;

/// How many rows a sheet of the picture has, so that it shows a plan in its true proportions.
pub fn rows_of(over: Plan) -> usize {
    let [along, across] = over.size();
    (COLUMNS as f32 * across / along).round() as usize
}

/// The picture as a PNG file; nothing where no point of either sheet is seen.
pub fn draw(couch: &Sheet, floor: &Sheet, caption: &str) -> Option<Vec<u8>> {
    let scale = common_scale(&[couch, floor])?;
    let couch = View::new(couch, TOP, scale);
    let floor = View::new(floor, couch.bottom() + GAP, scale);
    let mut canvas = Canvas::new(WIDTH, floor.bottom() + GAP / 2);
    let title = "Indirect illuminance in a consulting room";
    canvas.text([MARGIN, MARGIN], TITLE, INK, title);
    let caption = format!("{caption}; a line each {} lux", scale.step);
    canvas.text([MARGIN, MARGIN + 2 * LINE], LABEL, FAINT, &caption);
    couch.draw(&mut canvas, "Couch, at its surface, and the air around it");
    couch.outline(&mut canvas, COUCH, "couch");
    floor.draw(&mut canvas, "Floor, from above");
    for (name, over) in FURNITURE {
        floor.outline(&mut canvas, over, name);
    }
    floor.outline(&mut canvas, PANEL.over, "panel overhead");
    let unseen = floor.bottom() - 3 * LINE;
    draw_scale(&mut canvas, scale, unseen - LINE);
    draw_legend(&mut canvas, unseen, floor.bottom());
    Some(canvas.to_png())
}

/// A scale that has the light of all points seen on it.
fn common_scale(sheets: &[&Sheet]) -> Option<Scale> {
    let summaries = || sheets.iter().filter_map(|sheet| sheet.summary());
    let least = summaries().map(|s| s.least).reduce(f32::min)?;
    let greatest = summaries().map(|s| s.greatest).reduce(f32::max)?;
    Some(Scale::over(least, greatest))
}

/// The scale with its numbers, the greatest on top.
fn draw_scale(canvas: &mut Canvas, scale: Scale, bottom: usize) {
    let height = bottom - TOP;
    canvas.text([BAR, TOP - LABEL_ABOVE], LABEL, INK, "lux");
    for y in 0..height {
        let part = 1.0 - (y as f32 + 0.5) / height as f32;
        let lux = scale.from + (scale.to - scale.from) * part;
        let line = area([BAR, TOP + y], [BAR_WIDTH, 1]);
        canvas.fill(line, scale.colour(lux));
    }
    for (lux, number) in scale.ticks() {
        let part = (scale.to - lux) / (scale.to - scale.from);
        let y = TOP + (part * (height - THICK) as f32) as usize;
        canvas.fill(area([BAR + BAR_WIDTH, y], [8, THICK]), INK);
        canvas.text([BESIDE_BAR, y - 6], LABEL, INK, &number);
    }
}

/// What the colour of unseen points says.
fn draw_legend(canvas: &mut Canvas, top: usize, bottom: usize) {
    let swatch = area([BAR, top], [BAR_WIDTH, bottom - top]);
    canvas.fill(swatch, UNSEEN);
    let words = ["unseen:", "no surfel", "covers it"];
    for (line, text) in words.into_iter().enumerate() {
        canvas.text([BESIDE_BAR, top + 2 + line * LINE], LABEL, INK, text);
    }
}

/// A sheet in the picture: where its upper edge is, and by which scale it is coloured.
struct View<'a> {
    sheet: &'a Sheet,
    top: usize,
    scale: Scale,
}

impl View<'_> {
    fn new(sheet: &Sheet, top: usize, scale: Scale) -> View<'_> {
        View { sheet, top, scale }
    }

    fn bottom(&self) -> usize {
        self.top + self.sheet.rows * POINT
    }

    /// So many metres in pixels.
    fn pixels(&self, metres: f32) -> usize {
        (metres * (COLUMNS * POINT) as f32 / self.sheet.over.size()[0]).round() as usize
    }

    /// Draws the points, a label above them and a bar of a metre below them.
    fn draw(&self, canvas: &mut Canvas, label: &str) {
        canvas.text([MARGIN, self.top - LABEL_ABOVE], LABEL, INK, label);
        for row in 0..self.sheet.rows {
            for column in 0..self.sheet.columns {
                let corner = [MARGIN + column * POINT, self.top + row * POINT];
                let point = area(corner, [POINT, POINT]);
                canvas.fill(point, self.point_colour(column, row));
            }
        }
        self.draw_metre(canvas);
    }

    /// A shade of the scale, darker where the light passes one of its steps from this point to the
    /// next, so that lines of equal illuminance show; or the colour of unseen points.
    fn point_colour(&self, column: usize, row: usize) -> u8 {
        let Some(lux) = self.sheet.lux_at(column, row) else {
            return UNSEEN;
        };
        let steps = self.scale.steps_to(lux);
        let next = [(column + 1, row), (column, row + 1)];
        let passes = next
            .into_iter()
            .filter_map(|(column, row)| self.sheet.lux_at(column, row))
            .any(|next| self.scale.steps_to(next) != steps);
        if passes {
            self.scale.darker(lux)
        } else {
            self.scale.colour(lux)
        }
    }

    fn draw_metre(&self, canvas: &mut Canvas) {
        const END: usize = 12;
        let (metre, y) = (self.pixels(1.0), self.bottom() + 10);
        canvas.fill(area([MARGIN, y + END / 2 - 1], [metre, THICK]), INK);
        for x in [MARGIN, MARGIN + metre - THICK] {
            canvas.fill(area([x, y], [THICK, END]), INK);
        }
        canvas.text([MARGIN + metre + 10, y], LABEL, INK, "1 m");
    }

    /// The outline of something on the plan with its name, inside where it fits and else below.
    fn outline(&self, canvas: &mut Canvas, of: Plan, name: &str) {
        let size = of.size().map(|length| self.pixels(length));
        let x = MARGIN + self.pixels(of.lo[0] - self.sheet.over.lo[0]);
        let y = self.top + self.pixels(of.lo[1] - self.sheet.over.lo[1]);
        let below = if size[1] < NAME_SPACE { size[1] } else { 0 };
        for (shadow, colour) in [(1, INK), (0, OUTLINE)] {
            let [x, y] = [x + shadow, y + shadow];
            canvas.frame(area([x, y], size), THICK, colour);
            let name_at = [x + NAME_INSET, y + below + NAME_INSET];
            canvas.text(name_at, LABEL, colour, name);
        }
    }
}
