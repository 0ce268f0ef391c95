//! What a layered line showed in its order, and what one was refused for.

use model::layers::{order, Layer, LentDot, Stack};
use model::reply::{BAD_DOT, NO_ORDER, WRONG_BUFFER};
use model::{LentLines, State, DOTS};
use std::collections::BTreeMap;
use std::fmt::Write;

/// The orders by $15 bits 4-2.
const ORDERS: [&str; 6] = ["SLU", "LSU", "SUL", "LUS", "USL", "ULS"];

const FALLBACK: &str = "fallback";

/// Priority counts where the two other dots are colours, so that it is above each that the order has above Layer 2.
const PRIORITY: &str = "priority";

const SHOWN: [&str; 5] = ["S", "L", "U", FALLBACK, PRIORITY];

fn shown(stack: Stack, order: [Layer; 3]) -> Option<&'static str> {
    if let LentDot::Priority(_) = stack.layer2 {
        let above = matches!(stack.sprite, LentDot::Colour(_)) && stack.ula.is_some();
        return above.then_some(PRIORITY);
    }
    Some(match stack.shown(order) {
        Some(Layer::Sprites) => "S",
        Some(Layer::Two) => "L",
        Some(Layer::Ula) => "U",
        None => FALLBACK,
    })
}

fn order_bits(state: &State) -> usize {
    usize::from(state.layers / 4 % 8)
}

/// Dots of layered lines by their order and what shows.
#[derive(Default)]
pub struct Dots(BTreeMap<(&'static str, &'static str), u64>);

impl Dots {
    /// The dots of a line that was drawn.
    pub fn line(&mut self, state: &State, dots: impl Iterator<Item = Stack>) {
        let order = order(state).expect("a line that was drawn has an order");
        let name = ORDERS[order_bits(state)];
        for what in dots.filter_map(|stack| shown(stack, order)) {
            *self.0.entry((name, what)).or_default() += 1;
        }
    }

    pub fn add(&mut self, other: &Dots) {
        for (&key, count) in &other.0 {
            *self.0.entry(key).or_default() += count;
        }
    }

    fn count(&self, order: &'static str, what: &'static str) -> u64 {
        self.0.get(&(order, what)).copied().unwrap_or(0)
    }

    pub fn missing(&self) -> Vec<String> {
        let pairs = ORDERS
            .iter()
            .flat_map(|order| SHOWN.map(|what| (order, what)));
        pairs
            .filter(|(order, what)| self.count(order, what) == 0)
            .map(|(order, what)| format!("order {order}: {what}"))
            .collect()
    }

    pub fn report(&self) -> String {
        let mut text =
            String::from("dots of lent layers by what shows (priority: above two colours):\n     ");
        for what in SHOWN {
            let _ = write!(text, "{what:>12}");
        }
        text.push('\n');
        for order in ORDERS {
            let _ = write!(text, "{order:<5}");
            for what in SHOWN {
                let _ = write!(text, "{:>12}", self.count(order, what));
            }
            text.push('\n');
        }
        text
    }
}

/// What a layered line of so many dots was refused for, where the reply alone does not tell.
pub fn refused_for(reply: u8, state: &State, lent: LentLines, length: usize) -> Vec<&'static str> {
    match reply {
        WRONG_BUFFER => {
            let lengths = [lent.layer2.len(), lent.sprites.len(), length];
            match lengths.map(|length| length != DOTS) {
                [true, false, false] => vec!["3 for Layer 2 alone"],
                [false, true, false] => vec!["3 for the sprites alone"],
                [false, false, true] => vec!["3 for the line written alone"],
                _ => vec![],
            }
        }
        NO_ORDER => {
            let bits = ["19 for 110", "19 for 111"][order_bits(state) - 6];
            match bad_dots(lent).is_empty() {
                true => vec![bits],
                false => vec![bits, "19 before 20"],
            }
        }
        BAD_DOT => bad_for(&bad_dots(lent), order(state).expect("19 comes before 20")),
        _ => vec![],
    }
}

/// A dot of Layer 2 and one of the sprites.
type Numbers = (u16, u16);

fn bad_layer2((layer2, _): Numbers) -> bool {
    LentDot::of_layer2(layer2) == LentDot::Bad
}

fn bad_sprite((_, sprite): Numbers) -> bool {
    LentDot::of_sprites(sprite) == LentDot::Bad
}

/// The dots of which one is not allowed.
fn bad_dots(lent: LentLines) -> Vec<Numbers> {
    let layer2 = lent.layer2.iter().copied();
    let both = layer2.zip(lent.sprites.iter().copied());
    both.filter(|&dots| bad_layer2(dots) || bad_sprite(dots))
        .collect()
}

/// What holds of all the bad dots.
fn bad_for(bad: &[Numbers], order: [Layer; 3]) -> Vec<&'static str> {
    let all = |so: &dyn Fn(Numbers) -> bool| bad.iter().all(|&dots| so(dots));
    let kinds = [
        ("20 for Layer 2 alone", all(&|dots| !bad_sprite(dots))),
        ("20 for the sprites alone", all(&|dots| !bad_layer2(dots))),
        (
            "20 for a sprite's priority alone",
            all(&|dots| !bad_layer2(dots) && has_priority(dots.1)),
        ),
        ("20 for what is hidden", all(&|dots| hidden(dots, order))),
    ];
    let held = kinds.into_iter().filter(|(_, held)| *held);
    held.map(|(what, _)| what).collect()
}

fn has_priority(number: u16) -> bool {
    matches!(LentDot::of_layer2(number), LentDot::Priority(_))
}

/// Does the allowed one of two dots hide the other?
fn hidden(dots: Numbers, order: [Layer; 3]) -> bool {
    let place = |layer| order.iter().position(|&other| other == layer);
    let sprites_above = place(Layer::Sprites) < place(Layer::Two);
    let (layer2, sprite) = dots;
    if bad_layer2(dots) {
        return sprites_above && sprite <= 511;
    }
    has_priority(layer2) || !sprites_above && layer2 <= 511
}
