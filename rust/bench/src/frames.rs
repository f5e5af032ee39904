//! The frames of the library's functions, read off its x86-64 object code.

use std::collections::HashMap;
use std::process::Command;

/// What one call of a function takes of the stack, and what it calls itself.
#[derive(Default)]
struct Frame {
    bytes: usize,
    calls: Vec<String>,
}

type Frames = HashMap<String, Frame>;

/// The deepest chain of frames from a function down. C's memcpy and memset
/// count nothing.
pub fn depth(function: &str) -> usize {
    let frames = read(&disassembly());
    assert!(
        frames.contains_key(function),
        "no {function} in the library"
    );
    deepest(&frames, function, &[])
}

fn disassembly() -> String {
    let words = ["-d", "-r", "--no-show-raw-insn", ffi::LIBRARY];
    let said = Command::new("objdump").args(words).output();
    let said = said.expect("objdump reads the library");
    String::from_utf8(said.stdout).expect("objdump writes text")
}

/// A return address, the registers pushed, and what is taken off the stack
/// pointer at once.
fn read(text: &str) -> Frames {
    let mut frames = Frames::new();
    let mut name = String::new();
    for line in text.lines() {
        if let Some(function) = header(line) {
            name = function.to_string();
            frames.entry(name.clone()).or_default().bytes = 8;
        }
        let Some(frame) = frames.get_mut(&name) else {
            continue;
        };
        frame.bytes += taken(line);
        frame.calls.extend(target(line));
    }
    frames
}

fn header(line: &str) -> Option<&str> {
    line.strip_suffix(">:")?
        .split_once(" <")
        .map(|(_, name)| name)
}

fn taken(line: &str) -> usize {
    if line.contains("\tpush ") {
        return 8;
    }
    let bytes = || {
        let (_, operands) = line.split_once("\tsub ")?;
        let number = operands.trim().strip_prefix("$0x")?;
        usize::from_str_radix(number.strip_suffix(",%rsp")?, 16).ok()
    };
    bytes().unwrap_or(0)
}

/// What a relocation names: every function has a section of its own.
fn target(line: &str) -> Option<String> {
    let (_, named) = line.split_once(": R_X86_64_PLT32\t")?;
    let named = named.strip_suffix("-0x4").unwrap_or(named);
    Some(named.strip_prefix(".text.").unwrap_or(named).to_string())
}

/// A function that calls itself is counted once.
fn deepest(frames: &Frames, name: &str, above: &[&str]) -> usize {
    let Some(frame) = frames.get(name).filter(|_| !above.contains(&name)) else {
        return 0;
    };
    let above = [above, &[name]].concat();
    let calls = frame.calls.iter();
    let below = calls.map(|call| deepest(frames, call, &above)).max();
    frame.bytes + below.unwrap_or(0)
}
