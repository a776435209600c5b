//! A seat at a live service behind a safe type, and two threads that count under one monitor.

use std::cell::UnsafeCell;
use std::ffi::c_void;
use std::ptr;
use std::thread::{self, Thread};
use std::time::Duration;

use crate::{Call, ENTER, ENTERED, EXIT, EXITED, RANGE};

#[repr(C)]
struct LiveSlot {
    seat: *mut c_void,
    full: bool,
}

#[repr(C)]
#[derive(Clone, Copy, Default)]
struct Turned {
    standing: u32,
    reply: u32,
    cause: u32,
    granted: u32,
}

extern "C" {
    fn nadkhoy_live_open(
        lows: *const u8,
        objects: usize,
        monitors: u32,
        passes: u16,
        places: u32,
        slot: *mut LiveSlot,
    ) -> u32;
    fn nadkhoy_live_share(slot: *mut LiveSlot, other: *mut LiveSlot) -> u32;
    fn nadkhoy_live_begin(slot: *mut LiveSlot, call: *const Call, turned: *mut Turned) -> u32;
    fn nadkhoy_live_turn(slot: *mut LiveSlot, turned: *mut Turned) -> u32;
    fn nadkhoy_live_thread(slot: *mut LiveSlot, thread: *mut u32) -> u32;
    fn nadkhoy_live_leave(slot: *mut LiveSlot) -> u32;
}

const SAID: u32 = 1;
const PARKED: u32 = 4;
const LIVE_NO_OBJECT: u32 = 19;
const NO_PASS: u32 = 108;

/// A seat at a service. Each call takes it by `&mut`, so one call at a time has its slot.
struct Seat(LiveSlot);

// SAFETY: any thread may use a slot, and what sends the seat to another orders their calls.
unsafe impl Send for Seat {}

impl Seat {
    fn empty() -> Seat {
        Seat(LiveSlot { seat: ptr::null_mut(), full: false })
    }

    fn open(lows: &[u8], monitors: u32, passes: u16, places: u32) -> Result<Seat, u32> {
        let mut seat = Seat::empty();
        let (at, objects) = (lows.as_ptr(), lows.len());
        // SAFETY: the slice is whole, and the slot is an empty one.
        match unsafe { nadkhoy_live_open(at, objects, monitors, passes, places, &mut seat.0) } {
            0 => Ok(seat),
            status => Err(status),
        }
    }

    fn share(&mut self) -> Result<Seat, u32> {
        let mut other = Seat::empty();
        // SAFETY: the one slot is the library's own, the other an empty one.
        match unsafe { nadkhoy_live_share(&mut self.0, &mut other.0) } {
            0 => Ok(other),
            status => Err(status),
        }
    }

    fn thread(&mut self) -> Result<u32, u32> {
        let mut thread = 0;
        // SAFETY: the slot is the library's own, and this call alone has it.
        match unsafe { nadkhoy_live_thread(&mut self.0, &mut thread) } {
            0 => Ok(thread),
            status => Err(status),
        }
    }

    /// The reply of a call. `wake` wakes the thread that a turn made an owner, also this one.
    fn call(&mut self, kind: u32, target: u32, wake: impl Fn(u32)) -> Result<u32, u32> {
        let call = Call { kind, target, ..Call::default() };
        let mut turned = Turned::default();
        // SAFETY: as at `thread`.
        let mut status = unsafe { nadkhoy_live_begin(&mut self.0, &call, &mut turned) };
        loop {
            if status != 0 {
                return Err(status);
            }
            if turned.granted != 0 {
                wake(turned.granted);
            }
            match turned.standing {
                SAID => return Ok(turned.reply),
                PARKED => thread::park_timeout(Duration::from_millis(10)),
                _ => thread::yield_now(),
            }
            // SAFETY: as at `thread`.
            status = unsafe { nadkhoy_live_turn(&mut self.0, &mut turned) };
        }
    }
}

impl Drop for Seat {
    fn drop(&mut self) {
        // SAFETY: as at `thread`; an empty slot answers that it is.
        unsafe { nadkhoy_live_leave(&mut self.0) };
    }
}

const COUNTS: u32 = 10_000;

/// A number that the owner of the object alone reads and writes, by plain loads and stores.
struct Account(UnsafeCell<u32>);

// SAFETY: the monitor of the object excludes and orders its owners.
unsafe impl Sync for Account {}

/// Counts as the owner of the object. A thread that is woken before it parks does not park.
fn count_up(seat: &mut Seat, account: &Account, other: &Thread) -> Result<(), u32> {
    let me = seat.thread()?;
    let wake = |thread| if thread == me { thread::current().unpark() } else { other.unpark() };
    for _ in 0..COUNTS {
        assert_eq!(seat.call(ENTER, 0, wake), Ok(ENTERED));
        // SAFETY: this thread owns the object.
        unsafe { *account.0.get() += 1 };
        assert_eq!(seat.call(EXIT, 0, wake), Ok(EXITED));
    }
    Ok(())
}

pub fn run() {
    assert_eq!(Seat::open(&[0xA5], 1, 0, 9).err(), Some(RANGE));
    // A count uses three places at most; some more are for the bind, and free for an enter.
    let mut one = Seat::open(&[0xA5], 1, 2, 3 * 2 * COUNTS + 16).expect("memory");
    let mut two = one.share().expect("memory");
    assert_eq!(two.share().err(), Some(NO_PASS));
    assert_eq!((one.thread(), two.thread()), (Ok(2), Ok(1)));
    assert_eq!(one.call(ENTER, 1, |_| ()), Err(LIVE_NO_OBJECT));
    let account = Account(UnsafeCell::new(0));
    let first = thread::current();
    thread::scope(|scope| {
        let second = scope.spawn(|| count_up(&mut two, &account, &first));
        assert_eq!(count_up(&mut one, &account, second.thread()), Ok(()));
        assert_eq!(second.join().expect("its counts"), Ok(()));
    });
    assert_eq!(account.0.into_inner(), 2 * COUNTS);
}
