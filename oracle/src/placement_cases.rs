//! The cases of crates/replay_placement: which scenes and materials are stored, and how many surfels are
//! asked for in which bounds.

mod borders;
mod limits;
mod rooms;
mod seeds;
mod surfaces;

use crate::answers::word;
use crate::cases::{others, Case};
use crate::placements::{self, Told};
use crate::random::Random;
use crate::scene_cases::{at, plane, round_box, sphere, Room};
use crate::sites::{Lent, Site, CELLS, SURFELS};
use interflect::Vec3;
use std::collections::HashMap;

const NAN: f32 = f32::NAN;
const INF: f32 = f32::INFINITY;
const LEAST: f32 = f32::from_bits(1);

/// All cases of crates/replay_placement, in the order of its file stdin.
pub fn all() -> Vec<Case> {
    let mut script = Script::new();
    rooms::write(&mut script);
    surfaces::write(&mut script);
    seeds::write(&mut script);
    borders::write(&mut script);
    limits::write(&mut script);
    script.list
}

/// The bounds of a scene.
#[derive(Clone, Copy)]
struct Bounds {
    lo: Vec3,
    hi: Vec3,
}

impl Bounds {
    /// From minus this size to this size on each axis.
    fn within(size: f32) -> Bounds {
        Bounds {
            lo: Vec3::splat(-size),
            hi: Vec3::splat(size),
        }
    }

    /// From zero to this corner.
    fn to(hi: Vec3) -> Bounds {
        Bounds { lo: Vec3::ZERO, hi }
    }

    /// A call for so many surfels, with so many materials.
    fn told(self, mats: u32, target: u32) -> Told {
        Told {
            mats,
            target,
            lo: self.lo,
            hi: self.hi,
        }
    }
}

/// A material: its albedo x, y, z and how metallic it is.
type Material = [f32; 4];

/// Materials of which no two channels are alike.
const PAINTS: [Material; 5] = [
    [0.75, 0.5, 0.25, 0.0],
    [0.1, 0.2, 0.9, 0.5],
    [1.0, 0.6, 0.3, 1.0],
    [0.33, 0.66, 0.99, 0.1],
    [0.0, 1.0, 0.45, 0.9],
];

/// The lines so far, the tables as they stand after them, and what was last stored of the scene.
struct Script {
    list: Vec<Case>,
    site: Site,
    scene: HashMap<(&'static str, u32), Vec<u32>>,
    fills: u32,
    /// How many calls were made that were lent what they need.
    calls: usize,
}

impl Script {
    fn new() -> Script {
        Script {
            list: Vec::new(),
            site: Site::new(),
            scene: HashMap::new(),
            fills: 0,
            calls: 0,
        }
    }

    /// A line that stores.
    fn put(&mut self, name: &'static str, operands: Vec<u32>) {
        let case = Case { name, operands };
        assert!(self.site.store(&case));
        self.list.push(case);
    }

    /// Stores a scene, but for the parts of it that are stored already.
    fn scene(&mut self, room: &Room) {
        for line in room.lines() {
            self.scene_line(line);
        }
    }

    fn scene_line(&mut self, line: Case) {
        let place = match line.name {
            "counts" => 0,
            _ => line.operands[0],
        };
        let last = self.scene.insert((line.name, place), line.operands.clone());
        if last.as_ref() != Some(&line.operands) {
            self.put(line.name, line.operands);
        }
    }

    /// Stores materials from the first on: lines for the places that hold other words.
    fn materials(&mut self, list: &[Material]) {
        let words: Vec<u32> = list.iter().flatten().copied().map(word).collect();
        for places in others(&self.site.material_words(), &words) {
            let first = places.start as u32;
            self.put("put_materials", [&[first], &words[places]].concat());
        }
    }

    /// Puts one float at a place of the materials.
    fn poke(&mut self, place: usize, x: f32) {
        self.put("put_materials", vec![place as u32, word(x)]);
    }

    fn lend(&mut self, lent: Lent) {
        if self.site.lent != lent {
            self.put("lent", lent.words());
        }
    }

    /// Words that no fill before had, another for each table: large numbers, and large floats.
    fn fill(&mut self) {
        self.fills += 1;
        let first = 0x4F00_0000 + 16 * self.fills;
        self.put("fill", (first..first + 9).collect());
    }

    /// What a call needs, with the scene that is stored.
    fn need(&self, told: Told) -> Lent {
        let scene = &self.site.scene;
        let counts = [scene.prims, scene.planes, scene.objects].map(|count| count as usize);
        let lent = Lent {
            kinds: counts[0],
            lengths: 8 * counts[0],
            plane_parts: 4 * counts[1],
            object_parts: 4 * counts[2],
            materials: 4 * told.mats as usize,
            head: told.cells(),
            ..Lent::default()
        };
        lent.for_surfels(told.target as usize)
    }

    /// Lends what a call needs, or some places more of each table or of some, or all of the scene.
    fn lend_for(&mut self, told: Told) {
        self.calls += 1;
        let more = self.calls % 5;
        let need = self.need(told);
        let places = |n: usize| SURFELS.min(n);
        let wide = Lent {
            materials: need.materials + more,
            head: CELLS.min(need.head + 3 * more),
            ..need.for_surfels(places(told.target as usize + more))
        };
        self.lend(match self.calls % 4 {
            0 => need,
            1 => wide,
            2 => wide.whole_scene(),
            _ => Lent {
                n: need.n,
                irr: need.irr,
                next: places(need.next + 17),
                ..wide
            },
        });
    }

    /// A call after a fill, and what it leaves; what it answers. Every fifth time all that is lent is
    /// shown, else the columns up to two surfels after the last that was placed.
    fn ask(&mut self, told: Told) -> Vec<u32> {
        self.fill();
        let answer = placements::answer(&mut self.site, told);
        self.list.push(Case {
            name: "generate",
            operands: told.words(),
        });
        let shown = match answer[..] {
            [0, _] if told.target <= 10 || self.calls % 5 == 0 => u32::MAX,
            [0, count] => count + 2,
            _ => 2,
        };
        let open = match answer[0] {
            0 => [told.cells() as u32, told.target],
            _ => [0, 0],
        };
        self.list.push(Case {
            name: "show",
            operands: vec![shown, open[0], open[1]],
        });
        answer
    }

    /// A call that is lent what it needs; how many surfels are placed.
    fn placed(&mut self, told: Told) -> usize {
        self.lend_for(told);
        let answer = self.ask(told);
        assert_eq!(answer[0], 0);
        answer[1] as usize
    }
}
