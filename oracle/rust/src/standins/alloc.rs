//! Stands in for `rune_alloc`: std's own collections under its names. Allocation does not fail here, so that its error has no value.
use std::collections;
use std::hash::Hash;

use crate::limits;

pub use std::boxed::Box;
pub use std::string::String;
pub use std::vec::Vec;

#[derive(Debug)]
pub enum Error {}

pub type Result<T, E = Error> = core::result::Result<T, E>;

macro_rules! try_vec {
    ($($item:expr),* $(,)?) => { vec![$($item),*] };
}

macro_rules! try_format {
    ($($part:tt)*) => { format!($($part)*) };
}

pub(crate) use {try_format, try_vec};

pub mod prelude {
    pub(crate) use super::try_vec;
    pub use super::{TryBox, TryClone, TryString, TryToOwned, TryToString, TryVec};
    pub use derives::TryClone;
}

pub trait TryClone: Sized {
    fn try_clone(&self) -> Result<Self>;
}

impl<T: Clone> TryClone for T {
    fn try_clone(&self) -> Result<Self> {
        Ok(self.clone())
    }
}

pub trait TryToOwned {
    type Owned;
    fn try_to_owned(&self) -> Result<Self::Owned>;
}

impl<T: ToOwned + ?Sized> TryToOwned for T {
    type Owned = T::Owned;
    fn try_to_owned(&self) -> Result<T::Owned> {
        Ok(self.to_owned())
    }
}

pub trait TryToString {
    fn try_to_string(&self) -> Result<String>;
}

impl<T: ToString> TryToString for T {
    fn try_to_string(&self) -> Result<String> {
        Ok(self.to_string())
    }
}

pub trait TryBox<T> {
    fn try_new(value: T) -> Result<Box<T>>;
}

impl<T> TryBox<T> for Box<T> {
    fn try_new(value: T) -> Result<Box<T>> {
        Ok(Box::new(value))
    }
}

pub trait TryVec<T>: Sized {
    fn try_with_capacity(capacity: usize) -> Result<Self>;
    fn try_push(&mut self, item: T) -> Result<()>;
}

impl<T> TryVec<T> for Vec<T> {
    fn try_with_capacity(capacity: usize) -> Result<Self> {
        Ok(Vec::with_capacity(capacity))
    }
    fn try_push(&mut self, item: T) -> Result<()> {
        self.push(item);
        Ok(())
    }
}

pub trait TryString: Sized {
    fn try_with_capacity(capacity: usize) -> Result<Self>;
    fn try_push_str(&mut self, text: &str) -> Result<()>;
    fn try_into_boxed_str(self) -> Result<Box<str>>;
}

impl TryString for String {
    fn try_with_capacity(capacity: usize) -> Result<Self> {
        Ok(String::with_capacity(capacity))
    }
    fn try_push_str(&mut self, text: &str) -> Result<()> {
        self.push_str(text);
        Ok(())
    }
    fn try_into_boxed_str(self) -> Result<Box<str>> {
        Ok(self.into_boxed_str())
    }
}

pub mod fmt {
    pub trait TryWrite {
        fn write_fmt(&mut self, arguments: core::fmt::Arguments<'_>) -> super::Result<()>;
    }

    impl TryWrite for String {
        fn write_fmt(&mut self, arguments: core::fmt::Arguments<'_>) -> super::Result<()> {
            self.push_str(&arguments.to_string());
            Ok(())
        }
    }
}

/// The bindings of a scope, which are counted while they live.
pub struct HashMap<K, V>(collections::HashMap<K, V>);

impl<K: Eq + Hash, V> HashMap<K, V> {
    pub fn new() -> Self {
        HashMap(collections::HashMap::new())
    }
    pub fn get(&self, key: &K) -> Option<&V> {
        self.0.get(key)
    }
    pub fn get_mut(&mut self, key: &K) -> Option<&mut V> {
        self.0.get_mut(key)
    }
    pub fn try_insert(&mut self, key: K, value: V) -> Result<Option<V>> {
        if !self.0.contains_key(&key) {
            limits::bound();
        }
        Ok(self.0.insert(key, value))
    }
    pub fn clear(&mut self) {
        limits::unbound(self.0.len());
        self.0.clear();
    }
}

impl<K, V> Drop for HashMap<K, V> {
    fn drop(&mut self) {
        limits::unbound(self.0.len());
    }
}
