//! Arcs and items one after another.

use crate::{CanonArc, Form, Instance, Item};
use dnorm_sys as sys;

/// What the library copies from place to place.
pub trait Row: Copy + Default + 'static {
    /// Copies the rows after a place as far as there is room, moves the place behind them, and returns how many.
    #[doc(hidden)]
    fn copy(from: &Instance, form: Form, place: &mut sys::dnorm_place, out: &mut [Self]) -> usize;

    /// Returns how many rows there are, or `usize::MAX` if there are more.
    #[doc(hidden)]
    fn count(from: &Instance, form: Form) -> usize;
}

impl Row for CanonArc {
    fn copy(
        from: &Instance,
        form: Form,
        place: &mut sys::dnorm_place,
        out: &mut [CanonArc],
    ) -> usize {
        let (at, room) = (out.as_mut_ptr(), out.len());
        unsafe { sys::dnorm_next(from.raw(), form as u8, place, at, room) }.count
    }

    fn count(from: &Instance, form: Form) -> usize {
        from.arc_count(form)
    }
}

impl Row for Item {
    fn copy(from: &Instance, _: Form, place: &mut sys::dnorm_place, out: &mut [Item]) -> usize {
        unsafe { sys::dnorm_items(from.raw(), place, out.as_mut_ptr(), out.len()) }.count
    }

    fn count(from: &Instance, _: Form) -> usize {
        usize::try_from(from.item_count()).unwrap_or(usize::MAX)
    }
}

/// The arcs or the items of an instance, which are copied some at a time.
#[derive(Clone, Debug)]
#[must_use = "an iterator does nothing by itself"]
pub struct Rows<'a, T> {
    from: &'a Instance,
    form: Form,
    place: sys::dnorm_place,
    some: Vec<T>,
    count: usize,
    at: usize,
    given: usize,
}

impl<'a, T: Row> Rows<'a, T> {
    /// Begins before the first row. So many rows are copied at a time.
    pub(crate) fn new(from: &'a Instance, form: Form, room: usize) -> Rows<'a, T> {
        Rows {
            from,
            form,
            place: sys::dnorm_place::default(),
            some: vec![T::default(); room],
            count: 0,
            at: 0,
            given: 0,
        }
    }
}

impl<T: Row> Iterator for Rows<'_, T> {
    type Item = T;

    fn next(&mut self) -> Option<T> {
        if self.at == self.count {
            self.count = T::copy(self.from, self.form, &mut self.place, &mut self.some);
            self.at = 0;
        }
        let found = self.some[..self.count].get(self.at).copied();
        self.at += usize::from(found.is_some());
        self.given += usize::from(found.is_some());
        found
    }

    fn size_hint(&self) -> (usize, Option<usize>) {
        let all = T::count(self.from, self.form);
        let left = all.saturating_sub(self.given);
        (left, Some(left).filter(|_| all < usize::MAX))
    }
}
