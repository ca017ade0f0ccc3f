//! Short lists without a heap.

use crate::Interval;
use crate::format::MOST_VALUES;
use core::ops::{Deref, DerefMut};
use core::{array, fmt, iter, slice};

/// At most 16 elements, without a heap. It is read, and its elements are altered, as a slice.
///
/// ```
/// use eml::{Bounds, IntervalDomain};
///
/// let bounds: Bounds = IntervalDomain::new(&[(1.0, 3.0).into()], 2)?.vars;
/// assert_eq!(bounds.len(), 2);
/// let widths: Vec<f64> = bounds.into_iter().map(|bound| bound.width()).collect();
/// assert_eq!(widths, [2.0, 20.0]);
/// # Ok::<(), eml::Refusal>(())
/// ```
#[derive(Clone, Copy)]
pub struct List<T> {
    places: [T; MOST_VALUES],
    count: usize,
}

/// The values of a point, one for each variable.
pub type Point = List<f64>;

/// Intervals, one for each variable.
pub type Bounds = List<Interval>;

impl<T> List<T> {
    /// The first `count` of the places.
    #[inline]
    pub(crate) fn new(places: [T; MOST_VALUES], count: usize) -> Self {
        Self { places, count }
    }

    /// Appends an element; `None` where there is no place for it.
    pub(crate) fn push(&mut self, element: T) -> Option<()> {
        *self.places.get_mut(self.count)? = element;
        self.count += 1;
        Some(())
    }

    /// The list of what `f` makes of each element.
    pub(crate) fn map<U>(self, f: impl FnMut(T) -> U) -> List<U> {
        List::new(self.places.map(f), self.count)
    }
}

impl<T> Deref for List<T> {
    type Target = [T];

    #[inline]
    fn deref(&self) -> &[T] {
        &self.places[..self.count]
    }
}

impl<T> DerefMut for List<T> {
    #[inline]
    fn deref_mut(&mut self) -> &mut [T] {
        &mut self.places[..self.count]
    }
}

impl<T: fmt::Debug> fmt::Debug for List<T> {
    fn fmt(&self, f: &mut fmt::Formatter<'_>) -> fmt::Result {
        fmt::Debug::fmt(&**self, f)
    }
}

impl<T: PartialEq> PartialEq for List<T> {
    fn eq(&self, other: &Self) -> bool {
        **self == **other
    }
}

impl<T> IntoIterator for List<T> {
    type Item = T;
    type IntoIter = iter::Take<array::IntoIter<T, MOST_VALUES>>;

    fn into_iter(self) -> Self::IntoIter {
        self.places.into_iter().take(self.count)
    }
}

impl<'a, T> IntoIterator for &'a List<T> {
    type Item = &'a T;
    type IntoIter = slice::Iter<'a, T>;

    fn into_iter(self) -> Self::IntoIter {
        self.iter()
    }
}
