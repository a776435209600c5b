//! A world of the C library behind a safe type, and a scenario over it: enter, contend, exit, end.
//! Then the same of a seat at a live service.

mod live;

use std::ffi::c_void;
use std::ptr;

#[repr(C)]
struct Slot {
    world: *mut c_void,
    full: bool,
}

#[repr(C)]
#[derive(Clone, Copy, Default)]
struct Call {
    millis: i64,
    nanos: i32,
    kind: u32,
    target: u32,
}

#[repr(C)]
#[derive(Clone, Copy, Default)]
struct StepIn {
    kind: u32,
    thread: u32,
    moment: u64,
    call: Call,
}

#[repr(C)]
#[derive(Clone, Copy, Default)]
struct Atomic {
    kind: u32,
    object: u32,
    before: u32,
    after: u32,
    monitor: u32,
    cause: u32,
    action: u32,
    answer: u32,
}

#[repr(C)]
#[derive(Clone, Copy, Default)]
struct Move {
    kind: u32,
    thread: u32,
    reply: u32,
    cause: u32,
    has_chosen: u32,
    chosen: u32,
    moment: u64,
    call: Call,
}

#[repr(C)]
#[derive(Clone, Copy, Default)]
struct Did {
    atomic: Atomic,
    reply: u32,
    cause: u32,
    moves: [Move; 3],
}

#[link(name = "nadkhoy_c", kind = "static")]
#[link(name = "libc_c", kind = "static")]
extern "C" {
    fn nadkhoy_open(
        lows: *const u8,
        objects: usize,
        monitors: u32,
        indices: u16,
        split: u32,
        slot: *mut Slot,
    ) -> u32;
    fn nadkhoy_step(slot: *mut Slot, step: *const StepIn, did: *mut Did) -> u32;
    fn nadkhoy_free(slot: *mut Slot) -> u32;
}

const ATTACH: u32 = 1;
const BEGIN: u32 = 2;
const GO: u32 = 3;
const ENTER: u32 = 1;
const EXIT: u32 = 2;
const END: u32 = 10;
const ENTERED: u32 = 1;
const EXITED: u32 = 2;
const ENDED: u32 = 9;
const RANGE: u32 = 107;
const KNOWN: u32 = 3;

/// A world. It is one value, which one call at a time has: each takes it by `&mut`.
struct World(Slot);

impl World {
    fn open(lows: &[u8], monitors: u32, indices: u16) -> Result<World, u32> {
        let mut slot = Slot { world: ptr::null_mut(), full: false };
        // SAFETY: the slice is whole, and the slot is an empty one.
        match unsafe { nadkhoy_open(lows.as_ptr(), lows.len(), monitors, indices, 1, &mut slot) } {
            0 => Ok(World(slot)),
            status => Err(status),
        }
    }

    fn step(&mut self, step: StepIn) -> Result<Did, u32> {
        let mut did = Did::default();
        // SAFETY: the slot is the library's own, and this call alone has it.
        match unsafe { nadkhoy_step(&mut self.0, &step, &mut did) } {
            0 => Ok(did),
            status => Err(status),
        }
    }

    fn attach(&mut self, thread: u32) -> Result<Did, u32> {
        self.step(StepIn { kind: ATTACH, thread, ..StepIn::default() })
    }

    /// The reply of a call, or None where its thread parks or meets another.
    fn call(&mut self, thread: u32, kind: u32, target: u32) -> Result<Option<u32>, u32> {
        let call = Call { kind, target, ..Call::default() };
        self.step(StepIn { kind: BEGIN, thread, call, ..StepIn::default() })?;
        self.turn(thread)
    }

    fn turn(&mut self, thread: u32) -> Result<Option<u32>, u32> {
        for _ in 0..4 {
            let did = self.step(StepIn { kind: GO, thread, ..StepIn::default() })?;
            if did.reply != 0 {
                return Ok(Some(did.reply));
            }
        }
        Ok(None)
    }
}

impl Drop for World {
    fn drop(&mut self) {
        // SAFETY: as at `step`.
        unsafe { nadkhoy_free(&mut self.0) };
    }
}

fn main() {
    assert_eq!(World::open(&[0xA5], 1, 0).err(), Some(RANGE));
    let mut world = World::open(&[0xA5], 1, 2).expect("memory");
    world.attach(7).expect("an index");
    assert_eq!(world.attach(7).err(), Some(KNOWN));
    world.attach(8).expect("an index");
    assert_eq!(world.call(7, ENTER, 0), Ok(Some(ENTERED)));
    assert_eq!(world.call(8, ENTER, 0), Ok(None));
    assert_eq!(world.call(7, EXIT, 0), Ok(Some(EXITED)));
    assert_eq!(world.turn(8), Ok(Some(ENTERED)));
    assert_eq!(world.call(8, EXIT, 0), Ok(Some(EXITED)));
    assert_eq!(world.call(7, END, 0), Ok(Some(ENDED)));
    live::run();
    println!("as wanted");
}
