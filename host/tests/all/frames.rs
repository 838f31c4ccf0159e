//! The large stack frames of the compiled code. A frame of many pages is probed page by page, by way of the register r11. Where a function
//! can be left before it needs its frame, the compiler may probe behind the first checks, and it has been seen to keep a length in r11
//! over that probe: in proved code, a call then read outside of its buffers. `strike_read` makes its room before its checks for this
//! reason, and this file holds all compiled code to it.
//! Assumes that binutils' objdump is there, as it is beside the linker.

use std::path::{Path, PathBuf};
use std::process::Command;

use host::program::maplist;

/// Whether an instruction writes r11, whole or in part: it is the last operand then, and the instruction no mere test.
fn writes_r11(instruction: &str) -> bool {
    let last = instruction.rsplit([',', ' ']).next().unwrap_or_default();
    last.starts_with("%r11")
        && !instruction.starts_with("cmp")
        && !instruction.starts_with("test")
        && !instruction.starts_with("push")
}

/// Whether a probe begins at this instruction: r11 becomes the end of the frame.
fn begins_probe(instruction: &str, next: Option<&&str>) -> bool {
    let is = |text: &str, name: &str, operands: &str| text.starts_with(name) && text.ends_with(operands);
    is(instruction, "mov", "%rsp,%r11") && next.is_some_and(|next| is(next, "sub", ",%r11"))
}

/// The functions of a listing that probe their frame, and whether r11 is free there.
fn probes(listing: &str) -> Vec<(String, bool)> {
    let mut found = Vec::new();
    for function in listing.split("\n\n") {
        let Some((name, body)) = function.trim_start().split_once(">:\n") else { continue };
        let instructions: Vec<&str> =
            body.lines().filter_map(|line| line.split_once('\t')).map(|(_, text)| text.trim()).collect();
        for (at, instruction) in instructions.iter().enumerate() {
            if begins_probe(instruction, instructions.get(at + 1)) {
                let free = !instructions[..at].iter().any(|before| writes_r11(before));
                found.push((name.rsplit('<').next().unwrap_or_default().to_string(), free));
            }
        }
    }
    found
}

fn listing(file: &Path) -> String {
    let made = Command::new("objdump").args(["-d", "--no-show-raw-insn"]).arg(file).output().expect("objdump, of binutils");
    assert!(made.status.success(), "objdump reads {}", file.display());
    String::from_utf8(made.stdout).expect("a listing in ASCII")
}

#[test]
fn values_survive_the_probe_of_the_stack() {
    for file in [maplist(), PathBuf::from(env!("HUDDLEWOOL_ARCHIVE"))] {
        let probes = probes(&listing(&file));
        assert!(probes.iter().any(|(name, _)| name.contains("strike")), "striking has a large frame in {}", file.display());
        for (name, free) in probes {
            assert!(free, "{name} of {} keeps a value in r11 over the probe of its stack", file.display());
        }
    }
}

/// A listing with a function that is left before its frame is probed, and the same with another register in the place of r11.
#[test]
fn a_value_in_the_way_is_seen() {
    let with = |register: &str| {
        format!(
            "0000 <first>:\n 0:\tret\n\n0010 <second>:\n 10:\tmov    0x8(%rdx),{register}\n 14:\tcmp    0x8(%rcx),{register}\n 18:\tjne    40 <second+0x30>\n \
             1a:\tmov    %rsp,%r11\n 1d:\tsub    $0x10000,%r11\n 24:\tret\n"
        )
    };
    assert_eq!(probes(&with("%r11")), [("second".to_string(), false)]);
    assert_eq!(probes(&with("%r10")), [("second".to_string(), true)]);
}
