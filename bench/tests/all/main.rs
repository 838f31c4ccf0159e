//! Plain functions and the proved ones beside the reference.

use std::thread;

mod blocks;
mod complement;
mod session;
mod sketch;
mod strike;
mod tested;

/// Runs a test on a stack of 1.5 MiB, which no call may need more than: a host calls from threads.
fn on_small_stack(test: impl FnOnce() + Send + 'static) {
    let thread = thread::Builder::new().stack_size(1536 << 10).spawn(test).expect("a thread");
    if let Err(panic) = thread.join() {
        std::panic::resume_unwind(panic);
    }
}
