//! Prints how many cases, lists and mappings were compared with the brute force and how many differ. Ends with status 1 where
//! something differs, where a part compared too little, or where a refusal of document 01's table was not met.

use std::process::ExitCode;
use std::thread;

fn main() -> ExitCode {
    // no call may need more: a host calls from threads
    let thread = thread::Builder::new().stack_size(1536 << 10).spawn(host::crosscheck::run).expect("a thread");
    match thread.join() {
        Ok(true) => ExitCode::SUCCESS,
        _ => ExitCode::FAILURE,
    }
}
