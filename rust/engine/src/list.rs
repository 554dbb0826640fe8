//! A list that shares its tail, so that an earlier state costs nothing to keep.

use std::rc::Rc;

pub struct List<T>(Option<Rc<(T, List<T>)>>);

impl<T> List<T> {
    pub fn empty() -> List<T> {
        List(None)
    }

    pub fn with(&self, first: T) -> List<T> {
        List(Some(Rc::new((first, self.clone()))))
    }

    pub fn split(&self) -> Option<(&T, &List<T>)> {
        self.0.as_deref().map(|(first, rest)| (first, rest))
    }

    pub fn iter(&self) -> impl Iterator<Item = &T> {
        std::iter::successors(self.split(), |(_, rest)| rest.split()).map(|(first, _)| first)
    }
}

impl<T> Clone for List<T> {
    fn clone(&self) -> List<T> {
        List(self.0.clone())
    }
}
