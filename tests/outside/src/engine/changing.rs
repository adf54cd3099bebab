//! The calls that write a store or a batch.

use super::Linked;
use crate::changing::Engine;

calls! {
    /// Writes a new store. Gives 0 and sets the length, or gives the number of the refusal.
    new = sync_new([own]) -> (out, written);

    /// Writes the store with an item edited. Gives 0 and sets the length, or gives the number of the refusal.
    edit = sync_edit([store, item, tag]) -> (out, written);

    /// Writes the store with an item deleted. Gives 0 and sets the length, or gives the number of the refusal.
    delete = sync_delete([store, item]) -> (out, written);

    /// Writes a batch for a knowledge and a span. Gives 0 and sets the length, or gives the number of the refusal.
    make = sync_make([store, knowledge, first_item, last_item]) -> (out, written);

    /// Writes the store after a batch. Gives 0 and sets the length, or gives the number of the refusal.
    apply = sync_apply([store, batch]) -> (out, written);
}

impl Engine for Linked {
    fn new_store(&self, own: &[u8], out: &mut [u8], written: &mut u64) -> u32 {
        new(own, out, written)
    }

    fn edit(&self, store: &[u8], item: &[u8], tag: &[u8], out: &mut [u8], written: &mut u64) -> u32 {
        edit(store, item, tag, out, written)
    }

    fn delete(&self, store: &[u8], item: &[u8], out: &mut [u8], written: &mut u64) -> u32 {
        delete(store, item, out, written)
    }

    fn make(&self, store: &[u8], knowledge: &[u8], span: [&[u8]; 2], out: &mut [u8], written: &mut u64) -> u32 {
        make(store, knowledge, span[0], span[1], out, written)
    }

    fn apply(&self, store: &[u8], batch: &[u8], out: &mut [u8], written: &mut u64) -> u32 {
        apply(store, batch, out, written)
    }
}
