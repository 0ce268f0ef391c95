//! A line with lent layers: section 15.

use crate::drawing::{composed_dot, fallback, lengths_refusal, state_refusal};
use crate::record::read_record;
use crate::reply::{Reply, BAD_DOT, DONE, NO_ORDER};
use crate::state::State;

/// Rule 15.1: the two finished lines that a layered drawing gets.
#[derive(Clone, Copy, Debug)]
pub struct LentLines<'a> {
    pub layer2: &'a [u16],
    pub sprites: &'a [u16],
}

/// Rule 15.2: the layers.
#[derive(Clone, Copy, Debug, PartialEq, Eq, Hash, PartialOrd, Ord)]
pub enum Layer {
    Sprites,
    Two,
    /// ULA and tilemap, composed.
    Ula,
}

/// Rule 15.2: the layers from the topmost down, as $15 has them, or none.
pub fn order(state: &State) -> Option<[Layer; 3]> {
    use Layer::{Sprites, Two, Ula};
    match state.layers / 4 % 8 {
        0b000 => Some([Sprites, Two, Ula]),
        0b001 => Some([Two, Sprites, Ula]),
        0b010 => Some([Sprites, Ula, Two]),
        0b011 => Some([Two, Ula, Sprites]),
        0b100 => Some([Ula, Sprites, Two]),
        0b101 => Some([Ula, Two, Sprites]),
        _ => None,
    }
}

/// Rule 15.1: what a number of a lent line says.
#[derive(Clone, Copy, Debug, PartialEq, Eq)]
pub enum LentDot {
    Colour(u16),
    Transparent,
    /// A colour above all.
    Priority(u16),
    /// A number that is not allowed.
    Bad,
}

impl LentDot {
    /// Rule 15.1: a dot of Layer 2's line.
    pub fn of_layer2(number: u16) -> LentDot {
        match number {
            0..=511 => LentDot::Colour(number),
            512 => LentDot::Transparent,
            1_024..=1_535 => LentDot::Priority(number - 1_024),
            _ => LentDot::Bad,
        }
    }

    /// Rule 15.1: a dot of the sprites' line.
    pub fn of_sprites(number: u16) -> LentDot {
        match number {
            0..=511 => LentDot::Colour(number),
            512 => LentDot::Transparent,
            _ => LentDot::Bad,
        }
    }

    fn colour(self) -> Option<u16> {
        match self {
            LentDot::Colour(colour) | LentDot::Priority(colour) => Some(colour),
            LentDot::Transparent | LentDot::Bad => None,
        }
    }
}

/// The three dots at one place.
#[derive(Clone, Copy, Debug, PartialEq, Eq)]
pub struct Stack {
    pub sprite: LentDot,
    pub layer2: LentDot,
    /// The composed dot before the fallback, none where it is transparent.
    pub ula: Option<u16>,
}

impl Stack {
    /// The dots at a place of a line that is not refused.
    pub fn at(
        line: u32,
        dot: usize,
        ula: &[u8],
        tile: &[u8],
        lent: LentLines,
        state: &State,
    ) -> Stack {
        Stack {
            sprite: LentDot::of_sprites(lent.sprites[dot]),
            layer2: LentDot::of_layer2(lent.layer2[dot]),
            ula: composed_dot(line, dot as u32, ula, tile, state),
        }
    }

    fn colour_of(&self, layer: Layer) -> Option<u16> {
        match layer {
            Layer::Sprites => self.sprite.colour(),
            Layer::Two => self.layer2.colour(),
            Layer::Ula => self.ula,
        }
    }

    /// Rule 15.3: the layer that shows, or none where the fallback does.
    pub fn shown(&self, order: [Layer; 3]) -> Option<Layer> {
        if let LentDot::Priority(_) = self.layer2 {
            return Some(Layer::Two);
        }
        let mut from_the_top = order.into_iter();
        from_the_top.find(|&layer| self.colour_of(layer).is_some())
    }

    /// Rule 15.3: its colour.
    pub fn colour(&self, order: [Layer; 3]) -> Option<u16> {
        self.colour_of(self.shown(order)?)
    }
}

/// Rules 15.1 to 15.3 and 10.13: draws one line with lent layers, or refuses by 1,
/// 2, 3, 4, 6, 7, 5, 8, 19, 20 in this order and leaves it.
pub fn draw_layers(
    line: u32,
    ula: &[u8],
    tile: &[u8],
    lent: LentLines,
    state: &State,
    out: &mut [u16],
) -> Reply {
    let reply = lengths(line, ula, tile, lent, out);
    if reply != DONE {
        return reply;
    }
    let reply = state_refusal(state);
    if reply != DONE {
        return reply;
    }
    let Some(order) = order(state) else {
        return NO_ORDER;
    };
    if !allowed(lent) {
        return BAD_DOT;
    }
    for (dot, shown) in out.iter_mut().enumerate() {
        let stack = Stack::at(line, dot, ula, tile, lent, state);
        *shown = stack.colour(order).unwrap_or(fallback(state));
    }
    DONE
}

/// Rule 10.13: 1, 2, 3 in this order.
fn lengths(line: u32, ula: &[u8], tile: &[u8], lent: LentLines, out: &[u16]) -> Reply {
    lengths_refusal(line, ula, tile, &[lent.layer2, lent.sprites, out])
}

/// Rule 15.1: is every number of both lines allowed?
fn allowed(lent: LentLines) -> bool {
    let layer2 = lent.layer2.iter().map(|&number| LentDot::of_layer2(number));
    let sprites = lent.sprites.iter();
    let sprites = sprites.map(|&number| LentDot::of_sprites(number));
    layer2.chain(sprites).all(|dot| dot != LentDot::Bad)
}

/// The same with a record lent for the state, of either version: 16, 17, 18 in the
/// place of 4.
pub fn lent_draw_layers(
    line: u32,
    ula: &[u8],
    tile: &[u8],
    lent: LentLines,
    record: &[u8],
    out: &mut [u16],
) -> Reply {
    let reply = lengths(line, ula, tile, lent, out);
    if reply != DONE {
        return reply;
    }
    let (known, _, state) = read_record(record);
    if known != DONE {
        return known;
    }
    draw_layers(line, ula, tile, lent, &state, out)
}
