//! The stack that the calls need; planning at the most jobs.
use depot_host::{stack, MOST_JOBS};

pub fn measure() {
    println!("stack of the calls at {MOST_JOBS} jobs or 8 controllers, bytes");
    for (call, bytes) in stack::of_every_call() {
        println!("  {call:20} {bytes:>6}");
    }
}
