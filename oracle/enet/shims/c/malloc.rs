// Stands for src/c/malloc.rs: the global allocator; memory that runs out ends the program.

use std::alloc::{alloc, dealloc, handle_alloc_error, Layout};

pub(crate) unsafe fn enet_malloc(layout: Layout) -> *mut u8 {
    let memory = alloc(layout);
    if memory.is_null() {
        handle_alloc_error(layout);
    }
    memory
}

pub(crate) unsafe fn enet_free(memory: *mut u8, layout: Layout) {
    dealloc(memory, layout);
}
