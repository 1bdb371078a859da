//! What libFuzzer calls. It has its own `main`.

#![no_main]

use compare::draw::Draw;
use fuzz::case::Trial;
use fuzz::counts::Counts;
use fuzz::input::Input;
use fuzz::mutate;
use std::cell::RefCell;
use std::ffi::{c_char, c_int, c_uint};

extern "C" {
    /// libFuzzer's own change of bytes; answers the new length.
    fn LLVMFuzzerMutate(data: *mut u8, size: usize, max_size: usize) -> usize;
    fn atexit(function: extern "C" fn()) -> c_int;
}

thread_local! {
    static TRIAL: RefCell<Trial> = RefCell::default();
    static COUNTS: RefCell<Counts> = RefCell::default();
}

extern "C" fn summary() {
    COUNTS.with_borrow(|counts| println!("\n{counts}"));
}

#[no_mangle]
pub extern "C" fn LLVMFuzzerInitialize(_: *mut c_int, _: *mut *mut *mut c_char) -> c_int {
    COUNTS.with_borrow(|_| ());
    // Safety: the function takes nothing and may run at any exit.
    unsafe { atexit(summary) }
}

/// # Safety
/// libFuzzer lends so many bytes.
#[no_mangle]
pub unsafe extern "C" fn LLVMFuzzerTestOneInput(data: *const u8, size: usize) -> c_int {
    let input = Input::read(lent(data, size));
    match TRIAL.with_borrow_mut(|trial| trial.run(&input)) {
        Ok(number) => COUNTS.with_borrow_mut(|counts| {
            counts.add(input.call, number);
            if let Some(line) = counts.progress() {
                println!("{line}");
            }
        }),
        Err(difference) => {
            println!("DIFFERENCE\n{difference}");
            summary();
            std::process::abort();
        }
    }
    0
}

/// # Safety
/// libFuzzer lends `max_size` bytes, of which `size` are the case.
#[no_mangle]
pub unsafe extern "C" fn LLVMFuzzerCustomMutator(
    data: *mut u8,
    size: usize,
    max_size: usize,
    seed: c_uint,
) -> usize {
    let mut draw = Draw::new(u64::from(seed));
    let mut input = Input::read(lent(data, size));
    mutate::change(&mut input, &mut draw, plain);
    let bytes = input.bytes();
    if bytes.len() > max_size {
        return size;
    }
    std::slice::from_raw_parts_mut(data, bytes.len()).copy_from_slice(&bytes);
    bytes.len()
}

unsafe fn lent<'a>(data: *const u8, size: usize) -> &'a [u8] {
    if size == 0 {
        &[]
    } else {
        std::slice::from_raw_parts(data, size)
    }
}

fn plain(bytes: &mut Vec<u8>) {
    let length = bytes.len();
    bytes.resize(length + 64, 0);
    // Safety: so many bytes are lent, and libFuzzer answers at most as many.
    let changed = unsafe { LLVMFuzzerMutate(bytes.as_mut_ptr(), length, bytes.len()) };
    bytes.truncate(changed);
}
