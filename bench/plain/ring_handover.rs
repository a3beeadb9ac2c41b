//! A ring of 64 slots between two threads, one of which puts items and the other takes them. It is compared with a program that
//! does the same with a ring of this project. `ring_handover ITEMS`
mod values;

use std::cell::UnsafeCell;
use std::hint::black_box;
use std::mem::MaybeUninit;
use std::process::ExitCode;
use std::sync::Arc;
use std::sync::atomic::AtomicUsize;
use std::sync::atomic::Ordering::{Acquire, Release};
use std::thread;
use values::{Item, Pid, Signal};

const SLOTS: usize = 64;

/// A count in lines of the cache of its own, so that the two threads do not write to one line.
#[repr(align(128))]
struct Count(AtomicUsize);

struct Ring {
    slots: [UnsafeCell<MaybeUninit<Item>>; SLOTS],
    put: Count,
    taken: Count,
}

// SAFETY: a slot is written by the one feeder before `put` passes it, and read by the one taker after that and before `taken` does.
unsafe impl Sync for Ring {}

/// The end that puts. It knows how many were taken when it last looked.
struct Feeder {
    ring: Arc<Ring>,
    put: usize,
    taken: usize,
}

/// The end that takes. It knows how many were put when it last looked.
struct Taker {
    ring: Arc<Ring>,
    put: usize,
    taken: usize,
}

fn open() -> (Feeder, Taker) {
    let ring = Arc::new(Ring {
        slots: [const { UnsafeCell::new(MaybeUninit::uninit()) }; SLOTS],
        put: Count(AtomicUsize::new(0)),
        taken: Count(AtomicUsize::new(0)),
    });
    let feeder = Feeder {
        ring: ring.clone(),
        put: 0,
        taken: 0,
    };
    let taker = Taker {
        ring,
        put: 0,
        taken: 0,
    };
    (feeder, taker)
}

impl Feeder {
    /// False where the ring is full.
    fn put(&mut self, item: Item) -> bool {
        if self.put - self.taken == SLOTS {
            self.taken = self.ring.taken.0.load(Acquire);
            if self.put - self.taken == SLOTS {
                return false;
            }
        }
        // SAFETY: the taker has left this slot, and does not read it before the store below.
        unsafe { (*self.ring.slots[self.put % SLOTS].get()).write(item) };
        self.put += 1;
        self.ring.put.0.store(self.put, Release);
        true
    }
}

impl Taker {
    /// None where the ring is empty.
    fn take(&mut self) -> Option<Item> {
        if self.put == self.taken {
            self.put = self.ring.put.0.load(Acquire);
            if self.put == self.taken {
                return None;
            }
        }
        // SAFETY: the feeder has written this slot, and does not write it again before the store below.
        let item = unsafe { (*self.ring.slots[self.taken % SLOTS].get()).assume_init() };
        self.taken += 1;
        self.ring.taken.0.store(self.taken, Release);
        Some(item)
    }
}

fn item(number: u64) -> Item {
    Item {
        worker: 0,
        number,
        stamp: number,
        signal: Signal::with(0, 0),
        sender: Pid::Null,
        to: None,
        route: 0,
    }
}

fn put_all(mut feeder: Feeder, items: u64) {
    for number in 0..items {
        while !feeder.put(black_box(item(number))) {
            thread::yield_now();
        }
    }
}

/// Takes as many items, and adds up what two of their fields say.
fn take_all(mut taker: Taker, items: u64) -> u64 {
    let mut sum = 0u64;
    let mut left = items;
    while left > 0 {
        match taker.take() {
            Some(item) => {
                sum = sum.wrapping_add(item.stamp).wrapping_add(item.route as u64);
                left -= 1;
            }
            None => thread::yield_now(),
        }
    }
    sum
}

fn main() -> ExitCode {
    let Some(items) = std::env::args().nth(1).and_then(|word| word.parse().ok()) else {
        eprintln!("usage: ring_handover ITEMS");
        return ExitCode::from(2);
    };
    let (feeder, taker) = open();
    let putting = thread::spawn(move || put_all(feeder, items));
    let sum = take_all(taker, items);
    let ended = putting.join().is_ok();
    println!("{sum}");
    if ended {
        ExitCode::SUCCESS
    } else {
        ExitCode::from(3)
    }
}
