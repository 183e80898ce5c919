//! Stands in for `rune::macros`, for the published files to compile.
use crate::compile::{ItemId, ModId};
use crate::indexing::Indexer;
use crate::SourceId;

pub struct MacroContext<'a, 'b, 'arena> {
    pub idx: &'a mut Indexer<'b, 'arena>,
    pub item_meta: ItemMeta,
}

pub struct ItemMeta {
    pub location: Location,
    pub module: ModId,
    pub item: ItemId,
}

pub struct Location {
    pub source_id: SourceId,
}
