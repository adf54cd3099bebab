//! The C interface of the engine, as `include/sync.h` states it, and safe functions over it.

/// Declares functions of the library, and a safe function over each. The names in square brackets are bytes, which C takes as a
/// pointer and a length; values follow them, and behind an arrow a buffer, likewise, and the length written.
macro_rules! calls {
    ($($(#[$text:meta])* $name:ident = $c:ident([$($bytes:ident),*] $(, $value:ident: $type:ty)*)
        $(-> ($out:ident, $written:ident))?;)*) => {
        unsafe extern "C" {
            $(fn $c($($bytes: *const u8, _: usize,)* $($value: $type,)* $($out: *mut u8, _: usize, $written: &mut u64)?) -> u32;)*
        }

        $(
            $(#[$text])*
            #[inline]
            pub fn $name($($bytes: &[u8],)* $($value: $type,)* $($out: &mut [u8], $written: &mut u64)?) -> u32 {
                // SAFETY: The pointers come from references, so they are not null, those to bytes may be read for the length beside
                // them, the buffers and the values may be written, and what is written overlaps nothing else.
                unsafe {
                    $c($($bytes.as_ptr(), $bytes.len(),)* $($value,)* $($out.as_mut_ptr(), $out.len(), $written)?)
                }
            }
        )*
    };
}

mod changing;
mod reading;

pub use changing::{apply, delete, edit, make, new};
pub use reading::{coverage, knowledge, learned, walk, winner};

calls! {
    /// Checks a knowledge. Gives 0 and sets r, v, e, g, or gives the number of the refusal and leaves the sizes alone.
    check = sync_check([knowledge], sizes: &mut [u64; 4]);

    /// Whether a knowledge contains a version. Gives 0 and sets 1 or 0, or gives the number of the refusal.
    contain = sync_contain([knowledge, item, replica], tick: u64, contained: &mut u32);

    /// The first's tick minus the second's. Gives 0 and sets it, or gives the number of the refusal.
    lead = sync_lead([first, second, item, replica], lead: &mut i64);

    /// Whether the first knows at least as much as the second throughout a span. Gives 0 and sets 1 or 0, or gives the number
    /// of the refusal.
    cover = sync_cover([first, second, first_item, last_item], covers: &mut u32);

    /// Which of two knowledges is ahead. Gives 0, sets the order, writes the first place where each lacks something that does,
    /// and sets their length; or gives the number of the refusal.
    compare = sync_compare([first, second], order: &mut u32) -> (out, written);

    /// Writes the normal form. Gives 0 and sets the length, or gives the number of the refusal.
    normalise = sync_normalise([knowledge]) -> (out, written);

    /// Writes the larger known tick everywhere. Gives 0 and sets the length, or gives the number of the refusal.
    merge = sync_merge([first, second]) -> (out, written);

    /// Writes the known ticks inside a span. Gives 0 and sets the length, or gives the number of the refusal.
    project = sync_project([knowledge, first_item, last_item]) -> (out, written);
}

/// The calls of the library that is linked.
pub struct Linked;

impl crate::writing::Engine for Linked {
    fn normalise(&self, knowledge: &[u8], out: &mut [u8], written: &mut u64) -> u32 {
        normalise(knowledge, out, written)
    }

    fn merge(&self, [first, second]: [&[u8]; 2], out: &mut [u8], written: &mut u64) -> u32 {
        merge(first, second, out, written)
    }

    fn project(&self, knowledge: &[u8], span: [&[u8]; 2], out: &mut [u8], written: &mut u64) -> u32 {
        let [first_item, last_item] = span;
        project(knowledge, first_item, last_item, out, written)
    }
}

impl crate::comparing::Engine for Linked {
    fn compare(&self, [first, second]: [&[u8]; 2], order: &mut u32, out: &mut [u8], written: &mut u64) -> u32 {
        compare(first, second, order, out, written)
    }
}

impl crate::calls::Engine for Linked {
    fn contain(&self, knowledge: &[u8], item: &[u8], replica: &[u8], tick: u64, contained: &mut u32) -> u32 {
        contain(knowledge, item, replica, tick, contained)
    }

    fn lead(&self, [first, second]: [&[u8]; 2], item: &[u8], replica: &[u8], value: &mut i64) -> u32 {
        lead(first, second, item, replica, value)
    }

    fn cover(&self, [first, second]: [&[u8]; 2], [first_item, last_item]: [&[u8]; 2], covers: &mut u32) -> u32 {
        cover(first, second, first_item, last_item, covers)
    }
}
