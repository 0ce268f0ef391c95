//! Random states, banks and pictures, and the same state for both libraries.
#![allow(dead_code)]

/// A small xorshift generator.
pub struct Random(u64);

impl Random {
    pub fn new(seed: u64) -> Random {
        Random(seed.wrapping_mul(0x9E37_79B9_7F4A_7C15) | 1)
    }

    pub fn next(&mut self) -> u64 {
        self.0 ^= self.0 << 13;
        self.0 ^= self.0 >> 7;
        self.0 ^= self.0 << 17;
        self.0.wrapping_mul(0x2545_F491_4F6C_DD1D) >> 16
    }

    pub fn below(&mut self, bound: u64) -> u64 {
        self.next() % bound
    }

    pub fn byte(&mut self) -> u8 {
        self.next() as u8
    }

    pub fn chance(&mut self, one_in: u64) -> bool {
        self.below(one_in) == 0
    }

    pub fn pick<T: Copy>(&mut self, values: &[T]) -> T {
        values[self.below(values.len() as u64) as usize]
    }
}

/// The same state for the quick library.
pub fn quick(state: &model::State) -> fast::State {
    fast::State {
        peripheral: state.peripheral,
        transparent: state.transparent,
        layers: state.layers,
        ula_clip: state.ula_clip,
        tile_clip: state.tile_clip,
        ula_turn: state.ula_turn,
        tile_turn: state.tile_turn,
        tile_x_high: state.tile_x_high,
        tile_x_low: state.tile_x_low,
        tile_y: state.tile_y,
        ula_x: state.ula_x,
        ula_y: state.ula_y,
        lores_x: state.lores_x,
        lores_y: state.lores_y,
        palette_index: state.palette_index,
        ink_mask: state.ink_mask,
        palette_control: state.palette_control,
        held: state.held,
        half: state.half,
        fallback: state.fallback,
        tile_transparent: state.tile_transparent,
        ula_control: state.ula_control,
        tile_control: state.tile_control,
        tile_attribute: state.tile_attribute,
        map_base: state.map_base,
        definition_base: state.definition_base,
        border: state.border,
        timex: state.timex,
        select: state.select,
        plus_on: state.plus_on,
        frame: state.frame,
        plus: state.plus,
        palettes: state.palettes,
    }
}

/// A lawful state with every field at random.
pub fn lawful_state(random: &mut Random) -> model::State {
    let mut state = model::State::reset();
    ula_fields(random, &mut state);
    tile_fields(random, &mut state);
    let written = random.pick(&[0x00, 0x40, 0x30, 0x70]);
    state.palette_control = written | random.byte() & 0x8F;
    state.palette_index = random.byte();
    state.held = random.chance(2);
    state.half = if state.held { random.byte() } else { 0 };
    state.ula_turn = random.below(4) as u8;
    state.tile_turn = random.below(4) as u8;
    state.select = random.below(128) as u8;
    state.plus_on = random.chance(2);
    state.frame = random.byte();
    state.fallback = random.byte();
    for byte in &mut state.plus {
        *byte = random.byte();
    }
    palettes(random, &mut state);
    assert!(model::lawful(&state));
    state
}

fn ula_fields(random: &mut Random, state: &mut model::State) {
    state.peripheral = random.byte();
    state.layers = random.byte();
    state.timex = random.byte();
    state.border = random.below(8) as u8;
    (state.ula_x, state.ula_y) = (random.byte(), random.below(192) as u8);
    (state.lores_x, state.lores_y) = (random.byte(), random.below(192) as u8);
    state.ink_mask = random.pick(&[1, 3, 7, 15, 31, 63, 127, 255]);
    state.ula_control = random.byte() & 0xC1;
    if random.chance(2) {
        state.ula_clip = [0; 4].map(|_| random.byte());
    }
}

fn tile_fields(random: &mut Random, state: &mut model::State) {
    state.tile_control = random.byte() & 0xF0;
    state.tile_attribute = random.byte();
    state.tile_transparent = random.below(16) as u8;
    state.map_base = random.below(64) as u8;
    state.definition_base = random.below(64) as u8;
    let width = if state.tile_control & 0x40 != 0 {
        640
    } else {
        320
    };
    let near = random.pick(&[0, 7, 8, 9, width - 1, width - 8]);
    let offset = match random.below(12) {
        0 => random.below(1_024),
        1 => width,
        2 | 3 => near,
        _ => random.below(width),
    };
    state.tile_x_high = (offset / 256) as u8;
    state.tile_x_low = (offset % 256) as u8;
    let any = random.byte();
    state.tile_y = random.pick(&[0, 1, 254, 255, any, any]);
    if random.chance(2) {
        state.tile_clip = [0; 4].map(|_| random.byte());
    }
}

/// Palettes of all colours or of few, so that $14 is often met.
fn palettes(random: &mut Random, state: &mut model::State) {
    let few = [0, 1, 2, 3].map(|_| random.below(512) as u16);
    let all = random.chance(2);
    for colour in state.palettes.iter_mut().flatten() {
        *colour = if all {
            random.below(512) as u16
        } else {
            random.pick(&few)
        };
    }
    state.transparent = match random.below(4) {
        0 => (few[0] / 2) as u8,
        1 => (model::plus_colour(state.plus[random.below(32) as usize]) / 2) as u8,
        2 => state.fallback,
        _ => random.byte(),
    };
}

/// Puts one field of a state out of its bounds.
pub fn spoil(random: &mut Random, state: &mut model::State) {
    match random.below(17) {
        0 => state.ula_y = 192 + random.below(64) as u8,
        1 => state.ink_mask = random.pick(&[0, 2, 5, 254, 128, 126]),
        2 => state.palette_control = 0x10 | state.palette_control & 0x8F,
        3 => state.tile_transparent = 16,
        4 => state.ula_control |= 2 << random.below(5),
        5 => state.tile_control |= 1 << random.below(4),
        6 => state.tile_x_high = 4,
        7 => state.map_base = 64,
        8 => state.definition_base = 255,
        9 => state.select = 128,
        10 => state.border = 8,
        11 => state.ula_turn = 4,
        12 => state.tile_turn = 4,
        13 => {
            state.held = false;
            state.half = 1;
        }
        14 => state.lores_y = 192 + random.below(64) as u8,
        _ => {
            let place = random.below(1_024) as usize;
            state.palettes[place / 256][place % 256] = random.pick(&[512, 1_024, 65_535, 0x8000]);
        }
    }
    assert!(!model::lawful(state));
}

/// A bank of noise, sometimes of few values.
pub fn bank(random: &mut Random) -> Vec<u8> {
    let kind = random.below(3);
    let few = [0, 1, 2, 3].map(|_| random.byte());
    (0..16_384)
        .map(|_| match kind {
            0 => random.pick(&few),
            _ => random.byte(),
        })
        .collect()
}
