//! Arenas, handles, ranges and maps.

use crate::Span;
use serde::{Serialize, Serializer};
use std::fmt;
use std::hash::{Hash, Hasher};
use std::marker::PhantomData;
use std::ops::Index;

/// An index in an arena, told as a number.
pub struct Handle<T> {
    index: u32,
    marker: PhantomData<T>,
}

impl<T> Handle<T> {
    pub(crate) fn new(index: usize) -> Handle<T> {
        let index = index.try_into().expect("arenas are short");
        Handle {
            index,
            marker: PhantomData,
        }
    }

    pub const fn index(self) -> usize {
        self.index as usize
    }
}

impl<T> Clone for Handle<T> {
    fn clone(&self) -> Self {
        *self
    }
}

impl<T> Copy for Handle<T> {}

impl<T> PartialEq for Handle<T> {
    fn eq(&self, other: &Self) -> bool {
        self.index == other.index
    }
}

impl<T> Eq for Handle<T> {}

impl<T> Hash for Handle<T> {
    fn hash<H: Hasher>(&self, state: &mut H) {
        self.index.hash(state);
    }
}

impl<T> fmt::Debug for Handle<T> {
    fn fmt(&self, f: &mut fmt::Formatter<'_>) -> fmt::Result {
        write!(f, "[{}]", self.index)
    }
}

impl<T> Serialize for Handle<T> {
    fn serialize<S: Serializer>(&self, serializer: S) -> Result<S::Ok, S::Error> {
        self.index.serialize(serializer)
    }
}

/// Handles that follow one another, told as `{"start": .., "end": ..}`.
#[derive(Serialize)]
#[serde(transparent)]
pub struct Range<T> {
    inner: std::ops::Range<u32>,
    #[serde(skip)]
    marker: PhantomData<T>,
}

impl<T> Range<T> {
    pub fn new_from_bounds(first: Handle<T>, last: Handle<T>) -> Self {
        Range {
            inner: first.index..last.index + 1,
            marker: PhantomData,
        }
    }
}

impl<T> Clone for Range<T> {
    fn clone(&self) -> Self {
        Range {
            inner: self.inner.clone(),
            marker: PhantomData,
        }
    }
}

impl<T> PartialEq for Range<T> {
    fn eq(&self, other: &Self) -> bool {
        self.inner == other.inner
    }
}

impl<T> fmt::Debug for Range<T> {
    fn fmt(&self, f: &mut fmt::Formatter<'_>) -> fmt::Result {
        self.inner.fmt(f)
    }
}

/// Items in order, told as a list.
#[derive(Debug, Serialize)]
#[serde(transparent)]
pub struct Arena<T> {
    data: Vec<T>,
    #[serde(skip)]
    spans: Vec<Span>,
}

impl<T> Default for Arena<T> {
    fn default() -> Self {
        Arena {
            data: Vec::new(),
            spans: Vec::new(),
        }
    }
}

impl<T> Arena<T> {
    pub fn append(&mut self, value: T, span: Span) -> Handle<T> {
        self.data.push(value);
        self.spans.push(span);
        Handle::new(self.data.len() - 1)
    }

    pub fn get_span(&self, handle: Handle<T>) -> Span {
        self.spans[handle.index()]
    }

    pub fn iter(&self) -> impl DoubleEndedIterator<Item = (Handle<T>, &T)> + ExactSizeIterator {
        self.data
            .iter()
            .enumerate()
            .map(|(index, item)| (Handle::new(index), item))
    }
}

impl<T> Arena<T> {
    pub fn iter_mut(&mut self) -> impl DoubleEndedIterator<Item = (Handle<T>, &mut T)> {
        self.data
            .iter_mut()
            .enumerate()
            .map(|(index, item)| (Handle::new(index), item))
    }
}

impl<T> Index<Handle<T>> for Arena<T> {
    type Output = T;

    fn index(&self, handle: Handle<T>) -> &T {
        &self.data[handle.index()]
    }
}

/// Items in order, of which no two are equal.
#[derive(Debug, Serialize)]
#[serde(transparent)]
pub struct UniqueArena<T> {
    set: Vec<T>,
    #[serde(skip)]
    spans: Vec<Span>,
}

impl<T> Default for UniqueArena<T> {
    fn default() -> Self {
        UniqueArena {
            set: Vec::new(),
            spans: Vec::new(),
        }
    }
}

impl<T> UniqueArena<T> {
    pub fn iter(&self) -> impl DoubleEndedIterator<Item = (Handle<T>, &T)> + ExactSizeIterator {
        self.set
            .iter()
            .enumerate()
            .map(|(index, item)| (Handle::new(index), item))
    }

    pub fn get_span(&self, handle: Handle<T>) -> Span {
        self.spans[handle.index()]
    }
}

impl<T: Eq> UniqueArena<T> {
    pub fn insert(&mut self, value: T, span: Span) -> Handle<T> {
        let found = self.set.iter().position(|item| *item == value);
        Handle::new(found.unwrap_or_else(|| {
            self.set.push(value);
            self.spans.push(span);
            self.set.len() - 1
        }))
    }
}

impl<T> Index<Handle<T>> for UniqueArena<T> {
    type Output = T;

    fn index(&self, handle: Handle<T>) -> &T {
        &self.set[handle.index()]
    }
}

/// A map in the order of insertion, told as `serde` tells maps.
#[derive(Debug)]
pub struct FastIndexMap<K, V> {
    entries: Vec<(K, V)>,
}

impl<K, V> Default for FastIndexMap<K, V> {
    fn default() -> Self {
        FastIndexMap {
            entries: Vec::new(),
        }
    }
}

impl<K: Eq, V> FastIndexMap<K, V> {
    pub fn get(&self, key: &K) -> Option<&V> {
        self.entries
            .iter()
            .find(|(other, _)| other == key)
            .map(|(_, value)| value)
    }

    pub fn insert(&mut self, key: K, value: V) -> Option<V> {
        match self.entries.iter_mut().find(|(other, _)| *other == key) {
            Some((_, old)) => Some(std::mem::replace(old, value)),
            None => {
                self.entries.push((key, value));
                None
            }
        }
    }
}

impl<K: Serialize, V: Serialize> Serialize for FastIndexMap<K, V> {
    fn serialize<S: Serializer>(&self, serializer: S) -> Result<S::Ok, S::Error> {
        serializer.collect_map(self.entries.iter().map(|(key, value)| (key, value)))
    }
}
