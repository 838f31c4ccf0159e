//! What the times were taken with: the processor and the compilers, by name.

use std::fs;
use std::process::Command;

fn processor() -> Option<String> {
    let about = fs::read_to_string("/proc/cpuinfo").ok()?;
    let (_, name) = about.lines().find(|line| line.starts_with("model name"))?.split_once(':')?;
    Some(name.trim().to_string())
}

/// The first line that a compiler says of its version.
fn version(compiler: &str) -> Option<String> {
    let said = Command::new(compiler).arg("--version").output().ok()?;
    let said = String::from_utf8(said.stdout).ok()?;
    said.lines().next().map(String::from)
}

/// Prints the processor and the versions of rustc, which made the plain functions, and of rt, which made the proved ones.
pub fn print() {
    let known = |name: Option<String>| name.unwrap_or_else(|| "not known".to_string());
    println!("Processor: {}. Plain: {}. Proved: {}.\n", known(processor()), known(version("rustc")), known(version("rt")));
}
