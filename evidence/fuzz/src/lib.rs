//! What libFuzzer calls for each input: cutlist as it is, reading it in pieces, beside the reader of crate evidence.

use std::cell::RefCell;
use std::slice;

const OUTPUT: i32 = 1;

/// The program's standard input and output.
struct Stream {
    input: Vec<u8>,
    at: usize,
    output: Vec<u8>,
}

thread_local! {
    static STREAM: RefCell<Stream> = const { RefCell::new(Stream { input: Vec::new(), at: 0, output: Vec::new() }) };
}

extern "C" {
    fn cutlist_main() -> i32;
}

/// The program's `read`: pieces of uneven lengths, so that records lie across them.
///
/// # Safety
/// `room` is `size` bytes that may be written.
#[no_mangle]
pub unsafe extern "C" fn fuzz_read(_file: i32, room: *mut u8, size: usize) -> isize {
    STREAM.with_borrow_mut(|stream| {
        let left = &stream.input[stream.at..];
        let piece = left.len().min(size).min(1 + stream.at % 97);
        slice::from_raw_parts_mut(room, piece).copy_from_slice(&left[..piece]);
        stream.at += piece;
        piece as isize
    })
}

/// The program's `write`.
///
/// # Safety
/// `bytes` is `size` bytes that may be read.
#[no_mangle]
pub unsafe extern "C" fn fuzz_write(file: i32, bytes: *const u8, size: usize) -> isize {
    assert_eq!(file, OUTPUT, "nothing is said to standard error");
    STREAM.with_borrow_mut(|stream| stream.output.extend_from_slice(slice::from_raw_parts(bytes, size)));
    size as isize
}

/// The program's errno, which it asks for only where a call failed; none fails here.
#[no_mangle]
pub extern "C" fn rattle_errno() -> i32 {
    0
}

/// The lines that cutlist writes for the input are those of the reader, or the fuzzer is told.
///
/// # Safety
/// `data` is `size` bytes that may be read.
#[no_mangle]
pub unsafe extern "C" fn LLVMFuzzerTestOneInput(data: *const u8, size: usize) -> i32 {
    let input = if size == 0 { &[] } else { slice::from_raw_parts(data, size) };
    STREAM.set(Stream { input: input.to_vec(), at: 0, output: Vec::new() });
    cutlist_main();
    let written = STREAM.with_borrow(|stream| String::from_utf8(stream.output.clone()).expect("lines are text"));
    let (lines, _) = evidence::session::run(input);
    assert!(written.lines().eq(lines.iter().map(String::as_str)), "cutlist: {written:?}, the reader: {lines:?}");
    0
}
