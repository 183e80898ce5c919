//! Stands in for `rune::query`: functions by number, and no constants of other modules.
use std::marker::PhantomData;
use std::rc::Rc;

use crate::alloc;
use crate::ast::Spanned;
use crate::compile::{self, ir, meta, ItemId};
use crate::runtime::{ConstValue, Context};

#[derive(Default, Debug, Clone, Copy)]
pub enum Used {
    Unused,
    #[default]
    Used,
}

pub struct ConstFn {
    pub ir_fn: ir::IrFn,
}

pub struct Query<'a, 'arena> {
    pub functions: Rc<[Rc<ConstFn>]>,
    pub pool: Pool,
    pub consts: Consts,
    pub context: Context,
    pub lifetimes: PhantomData<(&'a (), &'arena ())>,
}

impl<'arena> Query<'_, 'arena> {
    pub fn new(functions: Rc<[Rc<ConstFn>]>) -> Self {
        Query { functions, pool: Pool, consts: Consts, context: Context, lifetimes: PhantomData }
    }

    pub fn borrow(&mut self) -> Query<'_, 'arena> {
        Query::new(self.functions.clone())
    }

    pub fn const_fn_for(&self, id: ItemId) -> Result<Rc<ConstFn>, &'static str> {
        self.functions.get(usize::from(id.0)).cloned().ok_or("no such function")
    }

    pub fn query_meta(&mut self, _: &dyn Spanned, _: ItemId, _: Used) -> compile::Result<Option<meta::Meta>> {
        Ok(None)
    }

    pub fn get_const_value(&self, _: Hash) -> Option<&ConstValue> {
        None
    }
}

#[derive(Clone, Copy)]
pub struct Pool;

impl Pool {
    pub fn item(&self, _: ItemId) -> ItemBuf {
        ItemBuf
    }

    pub fn alloc_item(&self, _: ItemBuf) -> alloc::Result<ItemId> {
        Ok(ItemId(0))
    }
}

/// The path of an item: the root, which has no parent.
#[derive(Clone)]
pub struct ItemBuf;

impl ItemBuf {
    pub fn extended(&self, _: String) -> alloc::Result<ItemBuf> {
        Ok(ItemBuf)
    }

    pub fn pop(&mut self) -> bool {
        false
    }
}

pub struct Consts;

impl Consts {
    pub fn get(&self, _: ItemId) -> Option<&ConstValue> {
        None
    }

    pub fn mark(&mut self, _: ItemId) -> alloc::Result<bool> {
        Ok(true)
    }

    pub fn insert(&mut self, _: ItemId, _: ConstValue) -> alloc::Result<Option<ConstValue>> {
        Ok(None)
    }
}

pub type Hash = u64;
