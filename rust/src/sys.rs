//! The proved library's exports, each made a call of slices, and the memory that it takes: the only module with
//! `unsafe`.
//!
//! What crosses is a number, a `bool`, a struct of these, or a slice as a pointer and a length. The library keeps none
//! of them.
#![allow(unsafe_code)]
// Exports are documented as the library documents them, for C too.
#![allow(clippy::doc_lazy_continuation)]

use std::sync::Once;

include!("exports.rs");

// What is declared lies as the library has it: a mistake stops the build. (Another processor has an error of its own.)
#[cfg(target_arch = "x86_64")]
const _: () = {
    use std::mem::{align_of, offset_of, size_of};

    assert!(size_of::<usize>() == 8 && size_of::<bool>() == 1 && align_of::<usize>() == 8);
    assert!(size_of::<Ends>() == 8 && offset_of!(Ends, from) == 0 && offset_of!(Ends, to) == 4);
    assert!(size_of::<Answer>() == 16 && offset_of!(Answer, len) == 8);
    assert!(size_of::<Outcome>() == 16 && offset_of!(Outcome, link) == 8);
    assert!(size_of::<Listed>() == 24 && offset_of!(Listed, len) == 16);
    assert!(size_of::<Judged>() == 24 && offset_of!(Judged, holds) == 16);
    assert!(size_of::<Evaluated>() == 16 && offset_of!(Evaluated, value) == 4);
    assert!(offset_of!(Evaluated, line) == 8);
};

// Asks, before the first call, whether the archive has the interface that is declared.
fn expect_own_interface() {
    static ASKED: Once = Once::new();
    ASKED.call_once(|| {
        // SAFETY: nothing is passed, and a number is returned, whatever the archive's interface.
        let version = unsafe { guppy_version() };
        assert_eq!(
            version, VERSION,
            "libguppy_c.a is of another build than this crate"
        );
    });
}

// Calls an export with each slice as its pointer and its length.
macro_rules! call {
    ($export:ident: $($passed:tt)*) => {{
        expect_own_interface();
        call!(@ $export [] $($passed)*)
    }};
    (@ $export:ident [$($done:expr),*] &mut $slice:ident, $($rest:tt)*) => {
        call!(@ $export [$($done,)* $slice.as_mut_ptr(), $slice.len()] $($rest)*)
    };
    (@ $export:ident [$($done:expr),*] &$slice:ident, $($rest:tt)*) => {
        call!(@ $export [$($done,)* $slice.as_ptr(), $slice.len()] $($rest)*)
    };
    (@ $export:ident [$($done:expr),*] $value:ident, $($rest:tt)*) => {
        call!(@ $export [$($done,)* $value] $($rest)*)
    };
    (@ $export:ident [$($done:expr),*]) => {
        // SAFETY: each pointer and length are those of one slice, which is borrowed for the call, so that none that is
        // written overlaps another; all elements are initialized; and no pointer is kept.
        unsafe { $export($($done),*) }
    };
}

pub(crate) fn answer(json: &[u8], args: &[u8], out: &mut [u8]) -> Answer {
    call!(guppy_answer: &json, &args, &mut out,)
}

pub(crate) fn records(json: &[u8], details: bool, out: &mut [u8]) -> Answer {
    call!(guppy_records: &json, details, &mut out,)
}

pub(crate) fn eval(text: &[u8], triple: &[u8], cfgs: &[u8]) -> Evaluated {
    call!(guppy_eval: &text, &triple, &cfgs,)
}

pub(crate) fn components(
    links: &[Ends],
    flags: &[bool],
    list: &mut [u32],
    firsts: &mut [bool],
) -> Outcome {
    call!(guppy_components: &links, &flags, &mut list, &mut firsts,)
}

#[cfg(test)]
pub(crate) fn order(links: &[Ends], flags: &[bool], list: &mut [u32]) -> Outcome {
    call!(guppy_order: &links, &flags, &mut list,)
}

pub(crate) fn cycle(links: &[Ends], flags: &[bool], list: &mut [u32]) -> Listed {
    call!(guppy_cycle: &links, &flags, &mut list,)
}

pub(crate) fn reach(
    links: &[Ends],
    flags: &[bool],
    starts: &[bool],
    forward: bool,
    marks: &mut [bool],
) -> Outcome {
    call!(guppy_reach: &links, &flags, &starts, forward, &mut marks,)
}

pub(crate) fn roots(links: &[Ends], set: &[bool], forward: bool, marks: &mut [bool]) -> Outcome {
    call!(guppy_roots: &links, &set, forward, &mut marks,)
}

pub(crate) fn links(links: &[Ends], set: &[bool], forward: bool, numbers: &mut [usize]) -> Listed {
    call!(guppy_links: &links, &set, forward, &mut numbers,)
}

pub(crate) fn judge(
    links: &[Ends],
    starts: &[bool],
    shown: &[usize],
    answers: &[bool],
    set: &[bool],
    forward: bool,
) -> Judged {
    call!(guppy_judge: &links, &starts, &shown, &answers, &set, forward,)
}

/// So many zeros.
pub(crate) fn zeros(count: usize) -> Vec<u8> {
    let mut zeros = vec![0; count];
    memory::prefer_huge_pages(zeros.as_mut_ptr(), count);
    zeros
}

/// The memory that the library takes, which is that of Rust's global allocator. In front of each block stands how many
/// bytes both have, which the allocator is to be told again.
mod memory {
    use std::alloc::{alloc, dealloc, realloc, Layout};
    use std::ptr::NonNull;

    // The largest alignment that is asked for, and how many bytes stand in front of a block.
    const UNIT: usize = 16;

    /// Whether there was memory, and the block; where there was none, any address but null.
    #[repr(C)]
    pub struct Tried {
        found: bool,
        pub(super) block: *mut u8,
    }

    const NONE: Tried = Tried {
        found: false,
        block: NonNull::dangling().as_ptr(),
    };

    // A block of so many bytes, or of one where there are none, and what stands in front of it.
    fn layout_of(bytes: usize) -> Option<Layout> {
        Layout::from_size_align(bytes.max(1).checked_add(UNIT)?, UNIT).ok()
    }

    extern "C" {
        // Linux's, as the C library has it that std links.
        fn madvise(start: *mut u8, bytes: usize, advice: i32) -> i32;
    }

    /// Asks for huge pages behind these bytes, where they are many: small ones take ten times as long to be had.
    pub(super) fn prefer_huge_pages(start: *mut u8, bytes: usize) {
        const PAGE: usize = 1 << 12;
        const HUGE_PAGES: i32 = 14;
        if bytes >= PAGE << 10 {
            let skipped = start.align_offset(PAGE);
            // SAFETY: no byte changes, of whichever pages; where the answer is no, they stay small.
            unsafe { madvise(start.wrapping_add(skipped), bytes - skipped, HUGE_PAGES) };
        }
    }

    // SAFETY: the caller passes null, or memory of this layout that nothing else uses.
    unsafe fn block_in(whole: *mut u8, layout: Layout) -> Tried {
        if whole.is_null() {
            return NONE;
        }
        prefer_huge_pages(whole, layout.size());
        // SAFETY: the layout is larger than what stands in front, and aligned for a number.
        let block = unsafe {
            whole.cast::<usize>().write(layout.size());
            whole.add(UNIT)
        };
        Tried { found: true, block }
    }

    // SAFETY: the caller passes a block that is in use.
    unsafe fn whole_of(block: *mut u8) -> (*mut u8, Layout) {
        // SAFETY: `block_in` wrote the size of a layout there.
        unsafe {
            let whole = block.sub(UNIT);
            let bytes = whole.cast::<usize>().read();
            (whole, Layout::from_size_align_unchecked(bytes, UNIT))
        }
    }

    #[no_mangle]
    pub(super) extern "C" fn rattle_alloc(bytes: usize, alignment: usize) -> Tried {
        debug_assert!(alignment <= UNIT);
        #[cfg(test)]
        if super::tests::is_refused() {
            return NONE;
        }
        let Some(layout) = layout_of(bytes) else {
            return NONE;
        };
        // SAFETY: the layout has bytes, and the memory is new.
        let tried = unsafe { block_in(alloc(layout), layout) };
        #[cfg(test)]
        super::tests::count(tried.found.into());
        tried
    }

    // SAFETY: the library passes a block that it took and didn't give back.
    #[no_mangle]
    pub(super) unsafe extern "C" fn rattle_realloc(
        block: *mut u8,
        _kept: usize,
        bytes: usize,
        alignment: usize,
    ) -> Tried {
        debug_assert!(alignment <= UNIT);
        #[cfg(test)]
        if super::tests::is_refused() {
            return NONE;
        }
        let Some(layout) = layout_of(bytes) else {
            return NONE;
        };
        // SAFETY: it is a block in use, whose layout differs from the new one in its size alone.
        unsafe {
            let (whole, had) = whole_of(block);
            block_in(realloc(whole, had, layout.size()), layout)
        }
    }

    // SAFETY: the library passes a block that it took and didn't give back.
    #[no_mangle]
    pub(super) unsafe extern "C" fn rattle_dealloc(block: *mut u8) {
        #[cfg(test)]
        super::tests::count(-1);
        // SAFETY: it is a block in use, and from now on it isn't.
        unsafe {
            let (whole, layout) = whole_of(block);
            dealloc(whole, layout);
        }
    }
}

#[cfg(test)]
mod tests;
