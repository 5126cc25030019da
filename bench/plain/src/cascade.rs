//! The seven sections of a lamp's filter in a row.

use std::hint::black_box;

/// The numbers of a filter.
pub struct Filter {
    /// The coefficients b0, b1, b2, a1, a2 over 2^32 of each section.
    pub sections: [[i64; 5]; 7],
    /// The input over 2^32 and the rounding of the first section's gain, and of the bound of the others in a row.
    pub(crate) bounds: [(i128, i128); 2],
}

/// The lamp 230/50 at 2400 and at 4800 samples a second, and the lamp 120/60 at both. These are the numbers that `flicker tables` prints:
/// the certificates from which the bounds follow are not made here.
const FILTERS: [[Filter; 2]; 2] = [
    [
        Filter {
            sections: [
                [4294686209, -4294686209, 0, -4294405123, 0],
                [8788291, 17576582, 8788291, -8356192996, 4096378865],
                [8449932, 16899864, 8449932, -8034470111, 3773302543],
                [8266186, 16532372, 8266186, -7859758383, 3597855830],
                [89011712, 0, -89011712, -8497168044, 4204641676],
                [2311656171, -2297900156, 0, -4281211281, 0],
                [119692743, 119692743, 0, -4055581809, 0],
            ],
            bounds: [(8589372418, 15280), (5623851965, 7593)],
        },
        Filter {
            sections: [
                [4294826748, -4294826748, 0, -4294686200, 0],
                [2226223, 4452446, 2226223, -8480418075, 4194355671],
                [2181957, 4363914, 2181957, -8311796237, 4025556771],
                [2157193, 4314386, 2157193, -8217461078, 3931122555],
                [44745882, 0, -44745882, -8543914690, 4249560917],
                [2310066851, -2303183331, 0, -4288083777, 0],
                [60692059, 60692059, 0, -4173583178, 0],
            ],
            bounds: [(8589653496, 30559), (6717076954, 30523)],
        },
    ],
    [
        Filter {
            sections: [
                [4294686209, -4294686209, 0, -4294405123, 0],
                [12585615, 25171230, 12585615, -8302595200, 4057970366],
                [12011612, 24023224, 12011612, -7923931060, 3677010210],
                [11703440, 23406880, 11703440, -7720633291, 3472479753],
                [82561846, 0, -82561846, -8494842419, 4202274093],
                [2041322579, -2025671472, 0, -4279316189, 0],
                [95189809, 95189809, 0, -4104587678, 0],
            ],
            bounds: [(8589372418, 15280), (4337173095, 6755)],
        },
        Filter {
            sections: [
                [4294826748, -4294826748, 0, -4294686200, 0],
                [3197541, 6395082, 3197541, -8456720041, 4174542911],
                [3121739, 6243478, 3121739, -8256241634, 3973761295],
                [3079589, 6159178, 3079589, -8144765068, 3862116129],
                [41509231, 0, -41509231, -8542728606, 4248364370],
                [2039267604, -2031434915, 0, -4287134607, 0],
                [48128240, 48128240, 0, -4198710816, 0],
            ],
            bounds: [(8589653496, 30559), (4882878129, 26437)],
        },
    ],
];

struct Section {
    /// The coefficients over 2^61.
    k: [i64; 5],
    s1: i64,
    s2: i64,
}

/// Rounded down: the upper half of a product of 128 bits.
fn product(k: i64, v: i64) -> i64 {
    ((i128::from(k) * i128::from(8 * v)) >> 64) as i64
}

impl Section {
    fn step(&mut self, x: i64) -> i64 {
        let [b0, b1, b2, a1, a2] = self.k;
        let y = product(b0, x) + self.s1;
        self.s1 = product(b1, x) + self.s2 - product(a1, y);
        self.s2 = product(b2, x) - product(a2, y);
        y
    }
}

pub struct Cascade {
    sections: [Section; 7],
    bounds: [(i128, i128); 2],
    greatest: i128,
    radius: i128,
}

pub(crate) fn radius_of(bounds: &[(i128, i128); 2], greatest: i128) -> i128 {
    bounds.iter().fold(greatest, |r, (input, rounding)| -((-(r * input)) >> 32) + rounding)
}

/// The filter of the lamp of a frequency, 50 or 60, at a rate, 2400 or 4800.
pub fn filter_of(hertz: u32, rate: u32) -> &'static Filter {
    &FILTERS[usize::from(hertz == 60)][usize::from(rate == 4800)]
}

impl Cascade {
    /// The filter of the lamp of a frequency, 50 or 60, at a rate, 2400 or 4800.
    pub fn new(hertz: u32, rate: u32) -> Cascade {
        let filter = filter_of(hertz, rate);
        // The compiler is not to make a program of these seven sections alone.
        let mut sections = black_box(filter.sections).map(|k| Section { k: k.map(|b| b << 29), s1: 0, s2: 0 });
        sections[0].s1 = -65536 * filter.sections[0][0];
        Cascade { sections, bounds: filter.bounds, greatest: 0, radius: radius_of(&filter.bounds, 0) }
    }

    pub fn step(&mut self, mid: i128, radius: i128) -> (i128, i128) {
        if radius > self.greatest {
            self.greatest = radius;
            self.radius = radius_of(&self.bounds, radius);
        }
        (i128::from(self.sections.iter_mut().fold(mid as i64, |x, section| section.step(x))), self.radius)
    }
}
