//! What a C library does elsewhere: the program's start and end, and the functions on memory that the compiler and the archive call.

use core::arch::{asm, global_asm};
use core::panic::PanicInfo;

global_asm!(".globl _start", "_start:", "xor %ebp, %ebp", "and $-16, %rsp", "call start", options(att_syntax));

fn system_call(number: usize, a: usize, b: usize, c: usize) {
    // SAFETY: of write and exit, the only ones called, neither writes to memory.
    unsafe { asm!("syscall", inout("rax") number => _, in("rdi") a, in("rsi") b, in("rdx") c, out("rcx") _, out("r11") _) };
}

/// Writes a line to standard output.
pub fn print(line: &[u8]) {
    system_call(1, 1, line.as_ptr() as usize, line.len());
}

/// Ends the program.
pub fn exit(status: usize) -> ! {
    loop {
        system_call(60, status, 0, 0);
    }
}

#[panic_handler]
fn panic(_: &PanicInfo) -> ! {
    exit(1)
}

/// # Safety
/// Both are valid for `n` bytes and do not overlap.
#[no_mangle]
pub unsafe extern "C" fn memcpy(to: *mut u8, from: *const u8, n: usize) -> *mut u8 {
    asm!("rep movsb", inout("rcx") n => _, inout("rdi") to => _, inout("rsi") from => _);
    to
}

/// # Safety
/// Both are valid for `n` bytes.
#[no_mangle]
pub unsafe extern "C" fn memmove(to: *mut u8, from: *const u8, n: usize) -> *mut u8 {
    if (to as usize).wrapping_sub(from as usize) >= n {
        return memcpy(to, from, n);
    }
    let (last_to, last_from) = (to.wrapping_add(n).wrapping_sub(1), from.wrapping_add(n).wrapping_sub(1));
    asm!("std", "rep movsb", "cld", inout("rcx") n => _, inout("rdi") last_to => _, inout("rsi") last_from => _);
    to
}

/// # Safety
/// It is valid for `n` bytes.
#[no_mangle]
pub unsafe extern "C" fn memset(to: *mut u8, byte: i32, n: usize) -> *mut u8 {
    asm!("rep stosb", inout("rcx") n => _, inout("rdi") to => _, in("al") byte as u8);
    to
}

/// # Safety
/// Both are valid for `n` bytes.
#[no_mangle]
pub unsafe extern "C" fn memcmp(a: *const u8, b: *const u8, n: usize) -> i32 {
    for i in 0..n {
        let (x, y) = (a.add(i).read_volatile(), b.add(i).read_volatile());
        if x != y {
            return i32::from(x) - i32::from(y);
        }
    }
    0
}

/// # Safety
/// Both are valid for `n` bytes.
#[no_mangle]
pub unsafe extern "C" fn bcmp(a: *const u8, b: *const u8, n: usize) -> i32 {
    memcmp(a, b, n)
}

/// The compiled core of this target names it; nothing unwinds here.
#[no_mangle]
extern "C" fn rust_eh_personality() {}
