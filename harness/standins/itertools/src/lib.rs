//! Stand-in for the crate `itertools`: what the original uses of it.

/// Neighbours of an iterator, as pairs.
pub struct TupleWindows<I: Iterator> {
    iter: I,
    last: Option<I::Item>,
}

impl<I: Iterator> Iterator for TupleWindows<I>
where
    I::Item: Clone,
{
    type Item = (I::Item, I::Item);

    #[inline]
    fn next(&mut self) -> Option<Self::Item> {
        let next = self.iter.next()?;
        let last = self.last.replace(next.clone())?;
        Some((last, next))
    }
}

pub trait Itertools: Iterator + Sized {
    #[inline]
    fn tuple_windows(mut self) -> TupleWindows<Self>
    where
        Self::Item: Clone,
    {
        let last = self.next();
        TupleWindows { iter: self, last }
    }
}

impl<I: Iterator> Itertools for I {}
