//! Every test of the host in one program, so that one summary speaks of them all.
//! Assumes that the library and the program have been built.

use std::thread;

mod complement;
mod count;
mod definition1;
mod frames;
mod maplist_inputs;
mod maplist_jaccard;
mod maplist_large;
mod maplist_random;
mod maplist_repeats;
mod maplist_strands;
mod maplist_vectors;
mod per_mille;
mod proved_vectors;
mod sample;
mod table;
mod vector_files;
mod vectors;

/// Runs a test on a stack of 1.5 MiB, which no call may need more than: a host calls from threads.
fn on_small_stack(test: impl FnOnce() + Send + 'static) {
    let thread = thread::Builder::new().stack_size(1536 << 10).spawn(test).expect("a thread");
    if let Err(panic) = thread.join() {
        std::panic::resume_unwind(panic);
    }
}
