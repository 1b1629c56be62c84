//! What libFuzzer calls for each input: the engine and the model open it as a file, and what is taken is saved again.

use evidence::model::memory::Lent;
use evidence::opened;
use std::slice;

thread_local! {
    static OLD: Lent = opened::old_memory();
}

/// Reply and memory are the model's, and a file that is taken is written back byte for byte, or the fuzzer is told.
///
/// # Safety
/// `data` is `size` bytes that may be read.
#[no_mangle]
pub unsafe extern "C" fn LLVMFuzzerTestOneInput(data: *const u8, size: usize) -> i32 {
    let file = if size == 0 { &[] } else { slice::from_raw_parts(data, size) };
    OLD.with(|old| opened::number(file, old)).unwrap_or_else(|difference| panic!("{difference}"));
    0
}
