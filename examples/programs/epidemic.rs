//! An epidemic in towns on a ring. Whoever falls ill meets up to five people within twenty ticks, in his own town or in the next
//! ones, and is well again after that. A record of kind 1 says how many are ill in a town after one has fallen ill, and one of
//! kind 2 after one is well. The final value is how many of a town have never been ill.
#![no_std]
#![no_main]

mod twarp;

use core::ptr::addr_of_mut;
use twarp::{below, emit, lps, send, setting};

/// People of a town.
#[no_mangle]
static PEOPLE: u32 = 1000;

/// Who falls ill meets fewer than so many people, 1 to 16.
#[no_mangle]
static MEETINGS: u32 = 6;

const MEETS: u64 = 0;
const IS_WELL: u64 = 1;
const ILL_FOR: u64 = 20;

/// A town.
struct Town {
    healthy: u32,
    ill: u32,
}

static mut TOWN: Town = Town { healthy: 0, ill: 0 };

impl Town {
    /// The town for which the handler runs.
    fn here() -> &'static mut Town {
        unsafe { &mut *addr_of_mut!(TOWN) }
    }

    fn falls_ill(&mut self, lp: u32) {
        self.healthy -= 1;
        self.ill += 1;
        for _ in 0..below(u64::from(setting(&MEETINGS))) {
            let town = (lp + lps() - 1 + below(3) as u32) % lps();
            send(town, 1 + below(ILL_FOR), 0, MEETS, 0);
        }
    }
}

#[no_mangle]
pub extern "C" fn start(lp: u32) {
    let town = Town::here();
    town.healthy = setting(&PEOPLE);
    if lp == 0 {
        for _ in 0..5 {
            send(lp, 1, 0, MEETS, 0);
        }
    }
}

#[no_mangle]
pub extern "C" fn forward(lp: u32, _tick: u64, _priority: u32, what: u64, _: u64) {
    let town = Town::here();
    if what == IS_WELL {
        town.ill -= 1;
        emit(2, u64::from(town.ill));
    } else if below(u64::from(setting(&PEOPLE))) < u64::from(town.healthy) {
        town.falls_ill(lp);
        send(lp, ILL_FOR, 0, IS_WELL, 0);
        emit(1, u64::from(town.ill));
    }
}

#[no_mangle]
pub extern "C" fn finish(_lp: u32) -> u64 {
    u64::from(Town::here().healthy)
}
