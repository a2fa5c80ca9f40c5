//! The heap's three functions over malloc.

use std::ffi::c_void;

#[repr(C)]
pub struct Block {
    ok: bool,
    block: *mut c_void,
}

unsafe extern "C" {
    fn malloc(size: usize) -> *mut c_void;
    fn realloc(old: *mut c_void, size: usize) -> *mut c_void;
    fn free(block: *mut c_void);
}

/// The block, or what is told where there is none: the pointer is never null.
fn block_at(block: *mut c_void) -> Block {
    Block {
        ok: !block.is_null(),
        block: if block.is_null() {
            16 as *mut c_void
        } else {
            block
        },
    }
}

#[unsafe(no_mangle)]
pub extern "C" fn rattle_alloc(size: usize, alignment: usize) -> Block {
    // SAFETY: malloc may be called with any size.
    block_at(unsafe { malloc(if size == 0 { alignment } else { size }) })
}

#[unsafe(no_mangle)]
pub unsafe extern "C" fn rattle_realloc(
    old: *mut c_void,
    _kept: usize,
    size: usize,
    alignment: usize,
) -> Block {
    // SAFETY: the library gives back a block that it had from these functions.
    block_at(unsafe { realloc(old, if size == 0 { alignment } else { size }) })
}

#[unsafe(no_mangle)]
pub unsafe extern "C" fn rattle_dealloc(block: *mut c_void) {
    // SAFETY: as above.
    unsafe { free(block) }
}
