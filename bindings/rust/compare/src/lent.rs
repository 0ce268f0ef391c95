//! Buffers lent to a call, with guards on either side that no call may touch.

use std::fmt::Debug;

const GUARD: usize = 32;

pub struct Lent<T> {
    all: Vec<T>,
    guard: T,
}

/// A pointer and its number of items, as a call is given them.
pub type Part<T> = (*mut T, usize);

impl<T: Copy + PartialEq + Debug> Lent<T> {
    pub fn new(items: &[T], guard: T) -> Lent<T> {
        let mut all = vec![guard; items.len() + 2 * GUARD];
        all[GUARD..GUARD + items.len()].copy_from_slice(items);
        Lent { all, guard }
    }

    /// Handed out for reading too, so that a write through it would be seen.
    pub fn pointer(&mut self) -> *mut T {
        self.all[GUARD..].as_mut_ptr()
    }

    pub fn count(&self) -> usize {
        self.all.len() - 2 * GUARD
    }

    pub fn part(&mut self) -> Part<T> {
        (self.pointer(), self.count())
    }

    pub fn items(&self) -> &[T] {
        &self.all[GUARD..self.all.len() - GUARD]
    }

    /// Puts other items of the same number in.
    pub fn set(&mut self, items: &[T]) {
        let end = self.all.len() - GUARD;
        self.all[GUARD..end].copy_from_slice(items);
    }

    /// Are the items those wanted, and the guards whole?
    pub fn check(&self, what: &str, wanted: &[T]) -> Result<(), String> {
        same_items(what, self.items(), wanted)?;
        let before = &self.all[..GUARD];
        let after = &self.all[self.all.len() - GUARD..];
        if before.iter().chain(after).any(|&item| item != self.guard) {
            return Err(format!("{what}: written outside"));
        }
        Ok(())
    }
}

/// Names the first item that differs.
pub fn same_items<T>(what: &str, got: &[T], wanted: &[T]) -> Result<(), String>
where
    T: Copy + PartialEq + Debug,
{
    if got == wanted {
        return Ok(());
    }
    let mut pairs = got.iter().zip(wanted);
    match pairs.position(|(got, wanted)| got != wanted) {
        Some(place) => {
            let (got, wanted) = (got[place], wanted[place]);
            Err(format!(
                "{what}[{place}] is {got:?}, the model's {wanted:?}"
            ))
        }
        None => same(&format!("length of {what}"), got.len(), wanted.len()),
    }
}

pub fn same<T: PartialEq + Debug>(what: &str, got: T, wanted: T) -> Result<(), String> {
    if got == wanted {
        return Ok(());
    }
    Err(format!("{what} is {got:?}, the model's {wanted:?}"))
}
