//! Stands in for `rune::runtime`: values. Numbers, bool, char and unit stand in the value itself; text, bytes, vec, tuple and object are shared by its copies.
use std::any::Any;
use std::cell::{Ref, RefCell, RefMut};
use std::collections::BTreeMap;
use std::fmt;
use std::ops::{Deref, DerefMut};
use std::rc::{Rc, Weak};

use crate::{alloc, limits};

#[derive(Debug, Clone, Copy)]
pub enum Inline {
    Unit,
    Bool(bool),
    Char(char),
    Unsigned(u64),
    Signed(i64),
    Float(f64),
}

impl Inline {
    pub fn type_info(&self) -> TypeInfo {
        TypeInfo
    }
}

/// Structs of a script, which no constant has.
pub enum Dynamic {}

impl Dynamic {
    pub fn type_info(&self) -> TypeInfo {
        TypeInfo
    }
}

pub enum Repr<'a> {
    Inline(&'a Inline),
    Dynamic(&'a Dynamic),
    Any(&'a AnyObj),
}

impl Repr<'_> {
    pub fn type_info(&self) -> TypeInfo {
        TypeInfo
    }
}

pub struct TypeInfo;

#[derive(Debug)]
pub enum RuntimeError {
    ExpectedBool,
    ExpectedType,
}

#[derive(Debug, Clone, Copy, PartialEq, Eq)]
pub struct Hash(u8);

pub trait TypeHash {
    const HASH: Hash;
}

impl TypeHash for String {
    const HASH: Hash = Hash(1);
}

impl TypeHash for Bytes {
    const HASH: Hash = Hash(2);
}

impl TypeHash for Vec {
    const HASH: Hash = Hash(3);
}

impl TypeHash for OwnedTuple {
    const HASH: Hash = Hash(4);
}

impl TypeHash for Object {
    const HASH: Hash = Hash(5);
}

#[derive(Clone)]
pub struct AnyObj {
    hash: Hash,
    shared: Rc<RefCell<dyn Any>>,
}

impl AnyObj {
    fn new<T: TypeHash + 'static>(content: T) -> Self {
        AnyObj { hash: T::HASH, shared: Rc::new(RefCell::new(content)) }
    }

    pub fn type_hash(&self) -> Hash {
        self.hash
    }

    pub fn type_info(&self) -> TypeInfo {
        TypeInfo
    }

    pub fn borrow_ref<T: 'static>(&self) -> Result<Ref<'_, T>, RuntimeError> {
        Ref::filter_map(self.shared.borrow(), |content| content.downcast_ref()).map_err(|_| RuntimeError::ExpectedType)
    }

    pub fn borrow_mut<T: 'static>(&self) -> Result<RefMut<'_, T>, RuntimeError> {
        RefMut::filter_map(self.shared.borrow_mut(), |content| content.downcast_mut()).map_err(|_| RuntimeError::ExpectedType)
    }
}

#[derive(Clone)]
pub struct Value(Content);

#[derive(Clone)]
enum Content {
    Inline(Inline),
    Any(AnyObj),
}

impl Value {
    pub fn unit() -> Self {
        Value::from(Inline::Unit)
    }

    pub fn new(text: String) -> alloc::Result<Self> {
        limits::text(text.len());
        Ok(Value(Content::Any(AnyObj::new(text))))
    }

    pub fn bytes(bytes: std::vec::Vec<u8>) -> Self {
        Value(Content::Any(AnyObj::new(Bytes(bytes))))
    }

    pub fn as_ref(&self) -> Repr<'_> {
        match &self.0 {
            Content::Inline(inline) => Repr::Inline(inline),
            Content::Any(any) => Repr::Any(any),
        }
    }

    pub fn as_inline(&self) -> Option<&Inline> {
        match &self.0 {
            Content::Inline(inline) => Some(inline),
            Content::Any(_) => None,
        }
    }

    pub fn as_inline_mut(&mut self) -> Option<&mut Inline> {
        match &mut self.0 {
            Content::Inline(inline) => Some(inline),
            Content::Any(_) => None,
        }
    }

    pub fn as_bool(&self) -> Result<bool, RuntimeError> {
        match self.as_inline() {
            Some(Inline::Bool(held)) => Ok(*held),
            _ => Err(RuntimeError::ExpectedBool),
        }
    }

    /// What is not shared has a hash of no shared type; unit too, though it may be that of the tuple in the runtime.
    pub fn type_hash(&self) -> Hash {
        match &self.0 {
            Content::Inline(_) => Hash(0),
            Content::Any(any) => any.type_hash(),
        }
    }

    pub fn type_info(&self) -> TypeInfo {
        TypeInfo
    }

    pub fn borrow_ref<T: 'static>(&self) -> Result<Ref<'_, T>, RuntimeError> {
        match &self.0 {
            Content::Inline(_) => Err(RuntimeError::ExpectedType),
            Content::Any(any) => any.borrow_ref(),
        }
    }

    pub fn borrow_mut<T: 'static>(&self) -> Result<RefMut<'_, T>, RuntimeError> {
        match &self.0 {
            Content::Inline(_) => Err(RuntimeError::ExpectedType),
            Content::Any(any) => any.borrow_mut(),
        }
    }
}

impl fmt::Debug for Value {
    fn fmt(&self, f: &mut fmt::Formatter<'_>) -> fmt::Result {
        match &self.0 {
            Content::Inline(inline) => inline.fmt(f),
            Content::Any(any) => write!(f, "shared {:?}", any.hash),
        }
    }
}

impl From<Inline> for Value {
    fn from(inline: Inline) -> Self {
        Value(Content::Inline(inline))
    }
}

impl From<bool> for Value {
    fn from(held: bool) -> Self {
        Value::from(Inline::Bool(held))
    }
}

impl TryFrom<String> for Value {
    type Error = alloc::Error;
    fn try_from(text: String) -> alloc::Result<Self> {
        Value::new(text)
    }
}

impl TryFrom<Vec> for Value {
    type Error = alloc::Error;
    fn try_from(vec: Vec) -> alloc::Result<Self> {
        limits::cells(1 + vec.len());
        Ok(kept(AnyObj::new(vec)))
    }
}

impl TryFrom<OwnedTuple> for Value {
    type Error = alloc::Error;
    fn try_from(tuple: OwnedTuple) -> alloc::Result<Self> {
        limits::cells(1 + tuple.len());
        Ok(kept(AnyObj::new(tuple)))
    }
}

impl TryFrom<Object> for Value {
    type Error = alloc::Error;
    fn try_from(mut object: Object) -> alloc::Result<Self> {
        limits::cells(1 + object.entries.len());
        object.counted = true;
        Ok(kept(AnyObj::new(object)))
    }
}

pub struct Bytes(pub std::vec::Vec<u8>);

pub struct Vec(std::vec::Vec<Value>);

impl From<std::vec::Vec<Value>> for Vec {
    fn from(items: std::vec::Vec<Value>) -> Self {
        Vec(items)
    }
}

impl Deref for Vec {
    type Target = [Value];
    fn deref(&self) -> &[Value] {
        &self.0
    }
}

impl DerefMut for Vec {
    fn deref_mut(&mut self) -> &mut [Value] {
        &mut self.0
    }
}

pub struct OwnedTuple(std::vec::Vec<Value>);

impl TryFrom<std::vec::Vec<Value>> for OwnedTuple {
    type Error = alloc::Error;
    fn try_from(items: std::vec::Vec<Value>) -> alloc::Result<Self> {
        Ok(OwnedTuple(items))
    }
}

impl Deref for OwnedTuple {
    type Target = [Value];
    fn deref(&self) -> &[Value] {
        &self.0
    }
}

impl DerefMut for OwnedTuple {
    fn deref_mut(&mut self) -> &mut [Value] {
        &mut self.0
    }
}

/// Cells are counted when it is complete, and one for each key that is entered later.
pub struct Object {
    pub entries: BTreeMap<String, Value>,
    counted: bool,
}

impl Object {
    pub fn with_capacity(_: usize) -> alloc::Result<Self> {
        Ok(Object { entries: BTreeMap::new(), counted: false })
    }

    pub fn insert(&mut self, key: String, value: Value) -> alloc::Result<Option<Value>> {
        if self.counted && !self.entries.contains_key(&key) {
            limits::cells(1);
        }
        Ok(self.entries.insert(key, value))
    }

    pub fn get(&self, key: &str) -> Option<&Value> {
        self.entries.get(key)
    }

    pub fn get_mut(&mut self, key: &str) -> Option<&mut Value> {
        self.entries.get_mut(key)
    }
}

thread_local! {
    static KEPT: RefCell<std::vec::Vec<Weak<RefCell<dyn Any>>>> = const { RefCell::new(std::vec::Vec::new()) };
}

fn kept(any: AnyObj) -> Value {
    KEPT.with_borrow_mut(|kept| kept.push(Rc::downgrade(&any.shared)));
    Value(Content::Any(any))
}

/// Empties every vec, tuple and object of the run, since those that hold themselves would stay for ever.
pub fn forget_all() {
    for each in KEPT.take() {
        let Some(shared) = each.upgrade() else { continue };
        let mut content = shared.borrow_mut();
        if let Some(vec) = content.downcast_mut::<Vec>() {
            vec.0.clear();
        } else if let Some(tuple) = content.downcast_mut::<OwnedTuple>() {
            tuple.0.clear();
        } else if let Some(object) = content.downcast_mut::<Object>() {
            object.entries.clear();
        }
    }
}

/// Constants of other modules, of which there are none here.
#[derive(Clone)]
pub enum ConstValue {}

#[derive(Clone, Copy)]
pub struct Context;

impl ConstValue {
    pub fn to_value_with(&self, _: Context) -> Result<Value, RuntimeError> {
        match *self {}
    }
}

pub fn from_value(_: Value) -> Result<ConstValue, RuntimeError> {
    unreachable!("no constant is stored")
}
