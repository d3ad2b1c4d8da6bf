//! The colours of the picture: a scale from dark blue over green to pale yellow, each shade lighter
//! than the one before, and apart from it a few colours that the scale does not have.

/// The numbers of the colours that are not of the scale.
pub const PAPER: u8 = 0;
pub const INK: u8 = 1;
pub const FAINT: u8 = 2;
pub const OUTLINE: u8 = 3;
pub const UNSEEN: u8 = 4;
/// The number of the darkest shade of the scale; the others follow it.
const FIRST_SHADE: u8 = 5;
/// How many shades the scale has.
pub const SHADES: usize = 96;

const APART: [[u8; 3]; FIRST_SHADE as usize] = [
    [250, 250, 247],
    [34, 36, 44],
    [128, 130, 138],
    [255, 255, 255],
    [214, 62, 160],
];

/// The scale at equal steps; between two of these it goes straight from one to the other.
const STOPS: [[u8; 3]; 7] = [
    [16, 20, 58],
    [26, 58, 112],
    [18, 104, 132],
    [38, 146, 122],
    [112, 184, 92],
    [212, 210, 74],
    [255, 246, 186],
];

/// All colours, each at its number.
pub fn palette() -> Vec<[u8; 3]> {
    let mut colours = APART.to_vec();
    colours.extend((0..SHADES).map(|shade| between_stops(shade as f32 / (SHADES - 1) as f32)));
    colours
}

fn between_stops(at: f32) -> [u8; 3] {
    let place = at * (STOPS.len() - 1) as f32;
    let below = (place as usize).min(STOPS.len() - 2);
    let part = place - below as f32;
    std::array::from_fn(|channel| {
        let [from, to] = [STOPS[below][channel], STOPS[below + 1][channel]].map(f32::from);
        (from + (to - from) * part).round() as u8
    })
}

/// Which shade stands for how many lux, with a number written at each step.
#[derive(Clone, Copy)]
pub struct Scale {
    pub from: f32,
    pub to: f32,
    pub step: f32,
}

impl Scale {
    /// A scale of at most ten steps of 1, 2 or 5 times a power of ten that has both values on it.
    pub fn over(least: f32, greatest: f32) -> Scale {
        let rough = ((greatest - least) / 8.0).max(0.001);
        let power = 10f32.powf(rough.log10().floor());
        let times = [1.0, 2.0, 5.0]
            .into_iter()
            .find(|times| times * power >= rough);
        let step = times.unwrap_or(10.0) * power;
        Scale {
            from: (least / step).floor() * step,
            to: ((greatest / step).floor() + 1.0) * step,
            step,
        }
    }

    /// The number of the colour for so many lux; past an end of the scale that end's.
    pub fn colour(&self, lux: f32) -> u8 {
        let part = ((lux - self.from) / (self.to - self.from)).clamp(0.0, 1.0);
        FIRST_SHADE + (part * (SHADES - 1) as f32).round() as u8
    }

    /// The number of a colour that is somewhat darker than that for so many lux.
    pub fn darker(&self, lux: f32) -> u8 {
        self.colour(lux - (self.to - self.from) * 0.12)
    }

    /// How many whole steps there are from 0 to so many lux.
    pub fn steps_to(&self, lux: f32) -> i32 {
        (lux / self.step).floor() as i32
    }

    /// The lux at which a number is written, and the number.
    pub fn ticks(&self) -> impl Iterator<Item = (f32, String)> + '_ {
        let steps = ((self.to - self.from) / self.step).round() as usize;
        let decimals = (-self.step.log10()).ceil().max(0.0) as usize;
        (0..=steps)
            .map(|i| self.from + self.step * i as f32)
            .map(move |lux| (lux, format!("{lux:.decimals$}")))
    }
}
