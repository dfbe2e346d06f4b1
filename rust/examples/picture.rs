//! Draws a picture to key: a head and shoulders before a lit wall, with grain. `picture OUT.ppm`
//!
//! Only sums, products, quotients, remainders and roots of 64-bit floats are used, each of which has one right result,
//! and random numbers from a fixed seed, so that the file is the same wherever it is made.

mod pictures;
#[path = "../tests/random/mod.rs"]
mod random;

use pictures::{pnm, write_file, Picture};
use random::random;
use std::process::ExitCode;

const WIDTH: usize = 192;
const HEIGHT: usize = 108;

/// Red, green and blue light, 1 where a channel is full.
type Light = [f64; 3];

/// A place in the picture, in pixels from the top left, or a direction towards the right, down and the viewer.
type Place = [f64; 2];
type Direction = [f64; 3];

/// Where the main light and a weaker, cooler one come from.
const MAIN: Direction = [-0.55, -0.50, 0.67];
const FILL: Direction = [0.90, 0.05, 0.43];

const SKIN: Light = [0.78, 0.47, 0.33];
const HAIR: Light = [0.042, 0.026, 0.021];
const SHIRT: Light = [0.055, 0.12, 0.26];
const COLLAR: Light = [0.62, 0.64, 0.66];

fn mix(one: Light, other: Light, part: f64) -> Light {
    [0, 1, 2].map(|h| one[h] + (other[h] - one[h]) * part)
}

/// 0 up to a value, 1 from another on, and smooth between.
fn smooth(from: f64, to: f64, value: f64) -> f64 {
    let t = ((value - from) / (to - from)).clamp(0.0, 1.0);
    t * t * (3.0 - 2.0 * t)
}

struct Ellipse {
    centre: Place,
    radii: Place,
}

impl Ellipse {
    const fn new(x: f64, y: f64, across: f64, down: f64) -> Self {
        Ellipse { centre: [x, y], radii: [across, down] }
    }

    fn offset(&self, place: Place) -> Place {
        [0, 1].map(|h| (place[h] - self.centre[h]) / self.radii[h])
    }

    /// The square of how far from the centre: below 1 within.
    fn reach(&self, place: Place) -> f64 {
        self.offset(place).iter().map(|v| v * v).sum()
    }

    fn holds(&self, place: Place) -> bool {
        self.reach(place) < 1.0
    }

    /// 1 at the centre, 0 outside, and smooth between.
    fn glow(&self, place: Place) -> f64 {
        1.0 - smooth(0.0, 1.0, self.reach(place))
    }

    /// Where the surface of a round body of this outline faces.
    fn facing(&self, place: Place) -> Direction {
        let [x, y] = self.offset(place);
        [x, y, (1.0 - x * x - y * y).max(0.0).sqrt()]
    }
}

/// A surface of this colour in both lights.
fn lit(colour: Light, facing: Direction) -> Light {
    let from = |light: Direction| (0..3).map(|h| light[h] * facing[h]).sum::<f64>().max(0.0);
    let (main, fill) = (from(MAIN), from(FILL));
    let light = [0.10 + 0.98 * main + 0.13 * fill, 0.10 + 0.93 * main + 0.15 * fill, 0.11 + 0.84 * main + 0.19 * fill];
    [0, 1, 2].map(|h| colour[h] * light[h])
}

/// A wall with a pool of light on it, and lamps far behind, out of focus.
fn background([x, y]: Place) -> Light {
    const POOL: Ellipse = Ellipse::new(142.0, 30.0, 105.0, 88.0);
    const LAMPS: [(Ellipse, Light); 4] = [
        (Ellipse::new(24.0, 26.0, 11.0, 11.0), [0.80, 0.42, 0.12]),
        (Ellipse::new(45.0, 45.0, 7.0, 7.0), [0.62, 0.25, 0.14]),
        (Ellipse::new(12.0, 58.0, 8.0, 8.0), [0.35, 0.40, 0.62]),
        (Ellipse::new(168.0, 62.0, 9.0, 9.0), [0.70, 0.66, 0.48]),
    ];
    let wall = mix([0.016, 0.040, 0.050], [0.15, 0.31, 0.33], POOL.glow([x, y]));
    LAMPS.iter().fold(wall, |seen, (lamp, light)| mix(seen, *light, 0.8 * (1.0 - smooth(0.7, 1.1, lamp.reach([x, y])))))
}

/// Shirt and neck; none where neither is.
fn body(place: Place) -> Option<Light> {
    const SHOULDERS: Ellipse = Ellipse::new(96.0, 124.0, 58.0, 43.0);
    const NECK: Ellipse = Ellipse::new(96.0, 78.0, 12.0, 26.0);
    const OPENING: Ellipse = Ellipse::new(96.0, 79.0, 13.0, 13.0);
    let [x, y] = place;
    if NECK.holds(place) && (OPENING.holds(place) || y < 82.0) {
        let shadow = 1.0 - 0.55 * smooth(84.0, 72.0, y - 0.12 * (x - 96.0)); // of the chin
        return Some(lit(SKIN, NECK.facing(place)).map(|light| light * shadow));
    }
    let collar = OPENING.reach(place) < 1.5 && y > 80.0;
    SHOULDERS.holds(place).then(|| lit(if collar { COLLAR } else { SHIRT }, SHOULDERS.facing(place)))
}

/// Eyes, brows, nose and mouth on a face of this light.
fn features(skin: Light, [x, y]: Place) -> Light {
    let mut seen = skin;
    let mut touch = |ellipse: Ellipse, colour: Light, strength: f64| {
        let part = strength * (1.0 - smooth(0.55, 1.0, ellipse.reach([x, y])));
        seen = mix(seen, colour, part);
    };
    for side in [-1.0, 1.0] {
        let at = 96.0 + 8.6 * side;
        touch(Ellipse::new(at, 46.5, 6.2, 4.4), skin.map(|light| light * 0.62), 0.8); // socket
        touch(Ellipse::new(at, 47.0, 3.7, 1.7), [0.52, 0.50, 0.47].map(|v| v * (0.75 - 0.25 * side)), 0.95); // white
        touch(Ellipse::new(at + 0.3, 46.8, 1.6, 1.6), [0.04, 0.05, 0.05], 1.0); // iris
        touch(Ellipse::new(at, 40.6, 6.0, 1.5), [0.06, 0.035, 0.025], 0.85); // brow
        touch(Ellipse::new(96.0 + 2.6 * side, 58.6, 1.5, 1.1), skin.map(|light| light * 0.4), 0.8);
        // nostril
    }
    touch(Ellipse::new(99.2, 52.0, 2.6, 8.0), skin.map(|light| light * 0.66), 0.7); // nose, in the shade
    touch(Ellipse::new(95.0, 52.5, 1.9, 7.0), skin.map(|light| light * 1.22), 0.7); // and in the light
    touch(Ellipse::new(96.2, 65.5, 7.0, 2.6), [skin[0] * 0.72, skin[1] * 0.48, skin[2] * 0.50], 0.9); // lips
    touch(Ellipse::new(96.2, 65.3, 6.4, 0.8), skin.map(|light| light * 0.35), 0.8); // between them
    touch(Ellipse::new(96.4, 70.2, 5.0, 1.6), skin.map(|light| light * 0.7), 0.6); // above the chin
    seen
}

/// Face, ears and hair; none where none of them is.
fn head(place: Place) -> Option<Light> {
    const FACE: Ellipse = Ellipse::new(96.0, 50.0, 21.0, 28.0);
    const EARS: [Ellipse; 2] = [Ellipse::new(74.6, 51.0, 3.6, 6.2), Ellipse::new(117.4, 51.0, 3.6, 6.2)];
    const HAIR_OUTLINE: Ellipse = Ellipse::new(96.0, 42.0, 25.0, 31.0);
    const FOREHEAD: Ellipse = Ellipse::new(95.0, 56.0, 19.0, 28.0);
    let strands = |[x, y]: Place| {
        let across = (x * 0.9 + (y - 30.0) * (y - 30.0) * 0.012).rem_euclid(3.0) / 3.0;
        let shine = Ellipse::new(88.0, 22.0, 14.0, 9.0).glow([x, y]);
        lit(HAIR, HAIR_OUTLINE.facing([x, y])).map(|light| light * (0.75 + 0.5 * across) + 0.018 * shine)
    };
    let face = FACE.holds(place) && FOREHEAD.reach(place) < 1.04;
    if face {
        return Some(features(lit(SKIN, FACE.facing(place)), place));
    }
    if let Some(ear) = EARS.iter().find(|ear| ear.holds(place)) {
        return Some(lit(SKIN, ear.facing(place)).map(|light| light * 0.8));
    }
    (HAIR_OUTLINE.holds(place) && place[1] < 62.0).then(|| strands(place))
}

fn seen(place: Place) -> Light {
    head(place).or_else(|| body(place)).unwrap_or_else(|| background(place))
}

/// Grain: as often above 0 as below, seldom beyond 1, never beyond 2.
fn grain(state: &mut u64) -> f64 {
    let up_to_one = |state: &mut u64| (random(state) >> 11) as f64 / (1_u64 << 53) as f64;
    (0..4).map(|_| up_to_one(state) - 0.5).sum()
}

/// A pixel: the mean of sixteen places in it, the root of each channel as a display wants it, and grain, most of it the
/// same in all channels.
fn pixel(x: usize, y: usize, state: &mut u64) -> [u16; 3] {
    let place = |k: usize| [x as f64 + (k % 4) as f64 / 4.0 + 0.125, y as f64 + (k / 4) as f64 / 4.0 + 0.125];
    let sum = (0..16).map(|k| seen(place(k))).fold([0.0; 3], |sum, light| [0, 1, 2].map(|h| sum[h] + light[h]));
    let all = grain(state);
    sum.map(|sum| {
        let value = 255.0 * (sum / 16.0).sqrt() + 3.2 * all + 1.4 * grain(state);
        value.round().clamp(0.0, 255.0) as u16
    })
}

fn picture(arguments: &[&str]) -> Result<(), String> {
    let out = match arguments {
        [out] => out,
        _ => return Err("give OUT.ppm".to_string()),
    };
    let mut state = 1;
    let places = (0..HEIGHT).flat_map(|y| (0..WIDTH).map(move |x| (x, y)));
    let values = places.flat_map(|(x, y)| pixel(x, y, &mut state)).collect();
    write_file(out, &pnm::write(&Picture { width: WIDTH, height: HEIGHT, channels: 3, maximum: 255, values }))
}

fn main() -> ExitCode {
    pictures::run(picture)
}
