//! The calls of the simulator, for a model in Rust: a module of a `#![no_std]` crate. A panic is a trap.
#![allow(dead_code)]

use core::arch::asm;

/// Draws a random number below n, from 1 to 2^32. One word.
pub fn below(n: u64) -> u64 {
    let drawn;
    unsafe { asm!("ecall", inlateout("a0") n => drawn, in("a7") 0, options(nomem, nostack)) };
    drawn
}

/// Draws a random word.
pub fn word() -> u32 {
    let drawn: u64;
    unsafe { asm!("ecall", lateout("a0") drawn, in("a7") 1, options(nomem, nostack)) };
    drawn as u32
}

/// Sends an event to process dest, `delay` ticks from now, with a priority from 0 to 255. It must be later than now. It carries
/// a and b.
pub fn send(dest: u32, delay: u64, priority: u32, a: u64, b: u64) {
    unsafe {
        asm!("ecall", inlateout("a0") u64::from(dest) => _, in("a1") delay, in("a2") u64::from(priority), in("a3") a, in("a4") b,
            in("a7") 2, options(nomem, nostack))
    };
}

/// Makes a record of the event.
pub fn emit(kind: u32, value: u64) {
    unsafe { asm!("ecall", inlateout("a0") u64::from(kind) => _, in("a1") value, in("a7") 3, options(nomem, nostack)) };
}

/// How many processes there are.
pub fn lps() -> u32 {
    let count: u64;
    unsafe { asm!("ecall", lateout("a0") count, in("a7") 4, options(nomem, nostack)) };
    count as u32
}

/// The bytes of `--data`.
pub fn data() -> &'static [u8] {
    extern "C" {
        #[link_name = "data"]
        static DATA: u8;
    }
    let size: u64;
    unsafe {
        asm!("ecall", lateout("a0") size, in("a7") 5, options(nomem, nostack));
        core::slice::from_raw_parts(&DATA, size as usize)
    }
}

/// The value of a number that `--set` may set.
pub fn setting<T: Copy>(number: &'static T) -> T {
    unsafe { core::ptr::read_volatile(number) }
}

#[panic_handler]
fn panic(_: &core::panic::PanicInfo) -> ! {
    unsafe { asm!("ebreak", options(noreturn)) }
}
