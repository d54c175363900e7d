#!/usr/bin/env python3
"""Times frames whose bytes come one by one, and edits of a long text, and prints a table: streams.py [ROUNDS].

It copies the crates that it needs to a temporary folder, adds the program below, and lets `rt run` prove and build it there, which
takes a minute or two where the crates were checked before, and else some more. Each time is processor time, the least of the
rounds (3 unless given). "whole" is that of the program, "base" that of the same program without its work (no frame is read, no
edit is made). Each second row has twice the size of the row before, and growth is its time without the base by that one's: about 2
where the time is linear.
"""
import os
import shutil
import subprocess
import sys
import tempfile

TOP = os.path.join(os.path.dirname(os.path.abspath(__file__)), "..")
CRATES = ["lists", "outside", "json_rpc", "documents"]

# what is measured, the words for it, and those for its base
ROWS = [
    ("a body of %s bytes, one by one", ["frames", "1", "0", "8388608"]),
    ("a body of %s bytes, one by one", ["frames", "1", "0", "16777216"]),
    ("500 header parts of %s bytes, one by one", ["frames", "500", "4096", "1"]),
    ("500 header parts of %s bytes, one by one", ["frames", "500", "8192", "1"]),
    ("500 edits by turns at the top and the bottom of %s lines", ["edits", "500", "200000"]),
    ("1,000 edits by turns at the top and the bottom of %s lines", ["edits", "1000", "200000"]),
    ("1,000 edits by turns at the top and the bottom of %s lines", ["edits", "1000", "100000"]),
    ("1,000 edits by turns at the top and the bottom of %s lines", ["edits", "1000", "200000"]),
]

PROGRAM = r"""
// Reads frames whose bytes come one by one, or edits a text by turns at its top and its bottom.
#![tactic(auto)]

use documents::{Document, TextChange};
use json_rpc::Frames;
use lists::Text;
use outside::{FaultPlan, MemSource};
use std::alloc::{AllocError, Global};
use std::process::ExitCode;
use std::{env, io};

const LONGEST: usize = 16_777_216;

const LINE: &str = "    int value = compute(first, second);  \n";

/// The words after the program's name.
fn words(rt: &HostRuntime) -> io::Result<Vec<String>> {
    let mut all = Vec::new(rt.alloc());
    for word in env::args(rt)?.skip(1) {
        all.push(word)?;
    }
    Ok(all)
}

/// The number that a word spells, and 0 where it spells none.
fn number(words: &[String], i: usize) -> u32 {
    match words.get(i) {
        Some(word) => word.as_str().parse::<u32>().unwrap_or(0),
        None => 0,
    }
}

/// Adds a byte many times.
fn fill(bytes: &mut Vec<u8>, byte: u8, count: u32) -> Result<(), AllocError> {
    for _ in 0..count {
        bytes.push(byte)?;
    }
    Ok(())
}

/// Adds frames with a header part of so many bytes (where the body has one), or a short one, and a body.
fn add_frames(bytes: &mut Vec<u8>, count: u32, header: u32, body: &str) -> Result<(), AllocError> {
    let length = body.parse::<u32>().unwrap_or(0);
    for _ in 0..count {
        if header > 100 {
            bytes.extend_from_slice(b"X: ")?;
            fill(bytes, b'x', header.saturating_sub(26))?;
            bytes.extend_from_slice(b"\r\n")?;
        }
        bytes.extend_from_slice(b"Content-Length: ")?;
        bytes.extend_from_slice(body.as_bytes())?;
        bytes.extend_from_slice(b"\r\n\r\n")?;
        fill(bytes, b'y', length)?;
    }
    Ok(())
}

/// Whether each frame of an input is read, a byte at a time.
fn are_read(alloc: Global, bytes: &[u8], count: u32) -> bool {
    let mut source = MemSource::new(bytes, FaultPlan::none(alloc));
    source.most = 1;
    let mut frames = Frames::new(alloc);
    for _ in 0..count {
        if !matches!(frames.next(alloc, &mut source), Ok(Some(_))) {
            return false;
        }
    }
    true
}

/// Puts a letter into a line many times, by turns near the top and near the bottom.
fn edit(alloc: Global, document: &mut Document, lines: u32, count: u32) -> Result<bool, AllocError> {
    for k in 0..count {
        let line = if k % 2 == 0 { 1 } else { lines.saturating_sub(2) };
        let change = TextChange {
            range: Some(((line, 0), (line, 0))),
            text: Text::from_str(alloc, "x")?,
        };
        if document.apply(&change).is_err() {
            return Ok(false);
        }
    }
    Ok(true)
}

/// A text of so many lines, edited.
fn edited(alloc: Global, lines: u32, count: u32) -> Result<bool, AllocError> {
    let mut text = String::new(alloc);
    for _ in 0..lines {
        text.push_str(LINE)?;
    }
    if text.len() > LONGEST {
        return Ok(false);
    }
    let mut document = Document::from_text(alloc, text);
    edit(alloc, &mut document, lines, count)
}

/// Does what the words say, and answers whether all went well.
fn measure(alloc: Global, words: &[String]) -> Result<bool, AllocError> {
    let count = number(words, 1);
    match words.first() {
        Some(word) if word.as_str() == "edits" => edited(alloc, number(words, 2), count),
        _ => {
            let body = match words.get(3) {
                Some(body) => body.as_str(),
                None => "1",
            };
            let mut bytes = Vec::new(alloc);
            add_frames(&mut bytes, count, number(words, 2), body)?;
            let read = if words.len() > 4 { 0 } else { count };
            Ok(are_read(alloc, bytes.as_slice(), read))
        }
    }
}

fn main(rt: HostRuntime) -> ExitCode {
    match words(&rt) {
        Ok(words) => match measure(rt.alloc(), words.as_slice()) {
            Ok(true) => ExitCode::from(0),
            _ => ExitCode::from(1),
        },
        Err(_) => ExitCode::from(2),
    }
}
"""


def build(folder):
    """The program's path, proved and built in a folder."""
    for crate in CRATES:
        shutil.copytree(os.path.join(TOP, "crates", crate), os.path.join(folder, "crates", crate), symlinks=True)
    with open(os.path.join(TOP, "crates.txt")) as source:
        lines = [line for line in source if line.split(":")[0].strip() in CRATES]
    with open(os.path.join(folder, "crates.txt"), "w") as target:
        target.write("".join(lines) + "stream_times: lists outside json_rpc documents\n")
    shutil.copy(os.path.join(TOP, "HANDLES"), folder)
    crate = os.path.join(folder, "crates", "stream_times")
    os.makedirs(os.path.join(crate, "src"))
    with open(os.path.join(crate, "src", "main.rt"), "w") as source:
        source.write(PROGRAM.lstrip("\n"))
    subprocess.run(["rt", "run", "--", "edits", "1", "5"], cwd=crate, stdout=sys.stderr, check=True)
    return os.path.join(crate, "out", "stream_times")


def least(program, words, rounds):
    """The least processor time in seconds of so many runs."""
    times = []
    for _ in range(rounds):
        child = os.spawnv(os.P_NOWAIT, program, [program] + words)
        _, status, usage = os.wait4(child, 0)
        if status != 0:
            sys.exit("the program ended with %d" % status)
        times.append(usage.ru_utime + usage.ru_stime)
    return min(times)


def base_of(words):
    """The words for the same without the work."""
    return words + ["unread"] if words[0] == "frames" else [words[0], "0", words[2]]


def main():
    rounds = int(sys.argv[1]) if len(sys.argv) > 1 else 3
    with tempfile.TemporaryDirectory() as folder:
        program = build(folder)
        print("| what | whole s | base s | growth |")
        print("|---|---|---|---|")
        before = None
        for number, (name, words) in enumerate(ROWS):
            size = words[3] if words[0] == "frames" and words[2] == "0" else words[2]
            whole, base = least(program, words, rounds), least(program, base_of(words), rounds)
            growth = "%.1f" % ((whole - base) / before) if number % 2 else ""
            before = whole - base
            print("| %s | %.3f | %.3f | %s |" % (name % format(int(size), ","), whole, base, growth), flush=True)


if __name__ == "__main__":
    main()
