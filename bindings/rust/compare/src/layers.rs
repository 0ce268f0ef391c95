//! Lines to lend to a layered drawing, and such as are refused.

use crate::calls::Layers;
use crate::random::Random;
use model::DOTS;
use narephon::{PRIORITY, TRANSPARENT};

/// Numbers that no lent line may have: those beside the allowed ones, and some with higher bits.
pub const BAD: [u16; 7] = [513, 1_023, 1_536, 2_047, 2_048, 33_280, u16::MAX];

/// Those that a sprite line may not have: priority too.
pub const BAD_SPRITES: [u16; 7] = [513, 1_023, 1_024, 1_535, 1_536, 2_047, u16::MAX];

fn colour(random: &mut Random) -> u16 {
    random.below(512) as u16
}

/// Noise: a third of the dots is transparent, a third has a colour, a third has one with priority.
pub fn layer2(random: &mut Random) -> Vec<u16> {
    let dot = |_| match random.below(3) {
        0 => TRANSPARENT,
        1 => colour(random),
        _ => colour(random) + PRIORITY,
    };
    (0..DOTS).map(dot).collect()
}

/// Noise: half of the dots is transparent, half has a colour.
pub fn sprites(random: &mut Random) -> Vec<u16> {
    let dot = |_| match random.below(2) {
        0 => TRANSPARENT,
        _ => colour(random),
    };
    (0..DOTS).map(dot).collect()
}

pub fn transparent() -> Vec<u16> {
    vec![TRANSPARENT; DOTS]
}

/// Two lines, of which each is now and then transparent; or one that is lent as both.
pub fn layers(random: &mut Random) -> Layers {
    if random.one_in(8) {
        return Layers::one(sprites(random));
    }
    let (mut layer2, mut sprites) = (layer2(random), sprites(random));
    for line in [&mut layer2, &mut sprites] {
        if random.one_in(8) {
            *line = transparent();
        }
    }
    Layers::two(layer2, sprites)
}

/// Two lines, now and then with numbers that are not allowed, cut short, or with more behind.
pub fn any_layers(random: &mut Random) -> Layers {
    let mut lines = [layer2(random), sprites(random)];
    let [layer2, sprites] = &mut lines;
    spoil(random, layer2, &BAD);
    spoil(random, sprites, &BAD_SPRITES);
    for line in &mut lines {
        let wrong = random.pick(&[0, 1, 320, 639, 641, 1_280]);
        if random.one_in(8) {
            line.resize(wrong, 0);
        }
    }
    let [layer2, sprites] = lines;
    Layers::two(layer2, sprites)
}

fn spoil(random: &mut Random, line: &mut [u16], bad: &[u16]) {
    for _ in 0..random.pick(&[0, 0, 0, 1, 3]) {
        let any = random.number() as u16;
        let number = random.pick(bad);
        line[random.below(DOTS as u64) as usize] = random.pick(&[number, number, any]);
    }
}
