"""A program over the library that tells certificates: no command of insynthd tells those of a sheet, nor the environment of a hole.

It is built unproved from the text below, in a copy of the crates. `PROGRAM tell LIST` prints for each line of LIST a line of JSON:
the environment, in the form that tools/check-certificates reads, the certificates of the list's first eight items, and its floors.
`PROGRAM judge LIST` prints for each line what the crate `checker` answers to each certificate of the file that the line's
last word names: the number that it accepts and 1, or 0. The words of a line of LIST have tabs between them:
- `sheet PATH BOUND BINDER STEP`: the environment of a sheet, with these weights of variables, binders and coercions;
- `hole START PATH PLACE LIMIT`: that of the hole at a byte of a Java text, over the class files of a start text, at depth 1. Where
  the first line is one, the others are holes over its START too.
A certificate is a line of numbers: `i` and those of rows, or `f` and for each floor the number of its types, these, and three more.
"""
import shutil
import tempfile
from pathlib import Path

from unproved import built

NAME = "telling"
NEEDS = "certificates checker java_bodies java_tokens java_units listing lists outside reconstruction scopes sheets start_text version_board terms"


def build(top, program):
    """Builds the program for the crates of a repository, and puts it there."""
    with tempfile.TemporaryDirectory(prefix="teller-") as place:
        folder = Path(place)
        copy = folder / "copy"
        shutil.copytree(top / "crates", copy / "crates", ignore=shutil.ignore_patterns("out", "must-fail"))
        if (top / "HANDLES").exists():
            shutil.copy(top / "HANDLES", copy)
        crate = copy / "crates" / NAME
        (crate / "src").mkdir(parents=True)
        (crate / "src" / "main.rt").write_text(SOURCE, encoding="utf-8")
        listed = (top / "crates.txt").read_text(encoding="utf-8")
        (copy / "crates.txt").write_text(f"{listed}\n{NAME}: {NEEDS}\n", encoding="utf-8")
        shutil.copy(built(crate, ["--seconds", "600"], folder), program)


SOURCE = r'''// Tells environments, certificates, and what the checker says of certificates. Nothing here is proved.
#![tactic(auto)]

use certificates::{floors, item_rows};
use checker::{Floor, Row, check_floors, check_item};
use java_bodies::hole_at;
use java_tokens::tokens;
use java_units::read_unit;
use listing::Listing;
use lists::{Copies, Items};
use outside::FileShelf;
use reconstruction::Rebuild;
use scopes::environment;
use sheets::read_sheet;
use start_text::{read_start, read_text};
use std::alloc::AllocError;
use std::env;
use std::process::ExitCode;
use terms::{Arg, Decl, Env, Steps};
use version_board::Snapshot;

/// So many items of a list are told.
const FIRST: u64 = 8;

/// The number that a word spells.
fn number(word: &str) -> u32 {
    let mut found: u32 = 0;
    for digit in word.as_bytes() {
        found = found
            .wrapping_mul(10)
            .wrapping_add(u32::from(digit.wrapping_sub(48)));
    }
    found
}

fn numbers(rt: &HostRuntime, line: &str) -> Result<Vec<u32>, AllocError> {
    let mut found = Vec::new(rt.alloc());
    for word in line.split(' ').filter(|word| !word.is_empty()) {
        found.push(number(word))?;
    }
    Ok(found)
}

fn text_of(rt: &HostRuntime, path: &str) -> Result<String, AllocError> {
    let mut shelf = FileShelf::new(rt, rt.alloc());
    match read_text(rt.alloc(), &mut shelf, path) {
        Ok(text) => Ok(text),
        Err(_) => Err(AllocError),
    }
}

/// The environment of a sheet, with other steps.
fn sheet_env(rt: &HostRuntime, path: &str, steps: Steps) -> Result<Env, AllocError> {
    let sheet = text_of(rt, path)?;
    let Ok(env) = read_sheet(rt.alloc(), sheet.as_bytes()) else {
        return Err(AllocError);
    };
    let mut parts = env.parts().copy(rt.alloc())?;
    parts.steps = steps;
    match Env::checked(rt.alloc(), parts) {
        Ok(env) => Ok(env),
        Err(_) => Err(AllocError),
    }
}

/// The version of the start text that a line of a hole names.
fn version_of(rt: &HostRuntime, line: &str) -> Result<Option<Snapshot>, AllocError> {
    let mut words = line.split('\t');
    if words.next() != Some("hole") {
        return Ok(None);
    }
    let mut shelf = FileShelf::new(rt, rt.alloc());
    match read_start(rt.alloc(), &mut shelf, words.next().unwrap_or("")) {
        Ok(version) => Ok(Some(version)),
        Err(_) => Err(AllocError),
    }
}

/// The environment of the hole at a byte of a text, in a version.
fn hole_env(
    rt: &HostRuntime,
    version: &Snapshot,
    path: &str,
    place: u32,
    limit: u32,
) -> Result<Env, AllocError> {
    let alloc = rt.alloc();
    let text = text_of(rt, path)?;
    let tokens = tokens(alloc, text.as_str())?;
    let unit = read_unit(alloc, text.as_str(), tokens.as_slice())?;
    let Some(site) = hole_at(alloc, text.as_str(), tokens.as_slice(), &unit, place)? else {
        return Err(AllocError);
    };
    environment(alloc, &version.index, &unit, &site, limit, 1)
}

fn env_of(rt: &HostRuntime, version: &Option<Snapshot>, line: &str) -> Result<Env, AllocError> {
    let mut words = Vec::new(rt.alloc());
    for word in line.split('\t') {
        words.push(word)?;
    }
    let at = |place: usize| words.get(place).copied().unwrap_or("");
    if let Some(version) = version {
        return hole_env(rt, version, at(2), number(at(3)), number(at(4)));
    }
    let steps = Steps {
        bound: number(at(2)),
        binder: number(at(3)),
        step: number(at(4)),
    };
    sheet_env(rt, at(1), steps)
}

fn push_number(
    out: &mut String,
    rt: &HostRuntime,
    before: &str,
    number: u32,
) -> Result<(), AllocError> {
    out.push_str(before)?;
    let digits = number.to_string(rt.alloc())?;
    out.push_str(digits.as_str())?;
    Ok(())
}

fn push_numbers(out: &mut String, rt: &HostRuntime, numbers: &[u32]) -> Result<(), AllocError> {
    out.push_str("[")?;
    let mut before = "";
    for number in numbers {
        push_number(out, rt, before, *number)?;
        before = ",";
    }
    out.push_str("]")?;
    Ok(())
}

fn push_decl(out: &mut String, rt: &HostRuntime, decl: &Decl) -> Result<(), AllocError> {
    push_number(out, rt, "[", decl.weight)?;
    push_number(out, rt, ",", decl.result)?;
    out.push_str(",[")?;
    let mut before = "";
    for arg in decl.args.as_slice() {
        match arg {
            Arg::Plain(wanted) => push_number(out, rt, before, *wanted)?,
            Arg::Fun(params, wanted) => {
                out.push_str(before)?;
                out.push_str("[")?;
                push_numbers(out, rt, params.as_slice())?;
                push_number(out, rt, ",", *wanted)?;
                out.push_str("]")?;
            }
        }
        before = ",";
    }
    out.push_str("]]")?;
    Ok(())
}

/// An environment in the form that tools/check-certificates reads.
fn push_env(out: &mut String, rt: &HostRuntime, env: &Env) -> Result<(), AllocError> {
    let parts = env.parts();
    push_number(out, rt, "{\"types\":", parts.types.len() as u32)?;
    push_number(out, rt, ",\"goal\":", parts.goal)?;
    push_number(out, rt, ",\"limit\":", parts.limit)?;
    push_number(out, rt, ",\"depth\":", parts.depth)?;
    push_number(out, rt, ",\"bound\":", parts.steps.bound)?;
    push_number(out, rt, ",\"binder\":", parts.steps.binder)?;
    push_number(out, rt, ",\"step\":", parts.steps.step)?;
    out.push_str(",\"pairs\":[")?;
    let mut before = "[";
    for pair in parts.pairs.as_slice() {
        push_number(out, rt, before, pair.0)?;
        push_number(out, rt, ",", pair.1)?;
        out.push_str("]")?;
        before = ",[";
    }
    out.push_str("],\"decls\":[")?;
    let mut between = "";
    for decl in parts.decls.as_slice() {
        out.push_str(between)?;
        push_decl(out, rt, decl)?;
        between = ",";
    }
    out.push_str("]}")?;
    Ok(())
}

fn push_rows(out: &mut String, rt: &HostRuntime, rows: &[Row]) -> Result<(), AllocError> {
    out.push_str("[")?;
    let mut before = "";
    for row in rows {
        out.push_str(before)?;
        push_numbers(out, rt, [row.code, row.result, row.weight].as_slice())?;
        before = ",";
    }
    out.push_str("]")?;
    Ok(())
}

/// The first items of the list, by their rows and totals.
fn push_items(out: &mut String, rt: &HostRuntime, env: &Env, count: u64) -> Result<(), AllocError> {
    let mut listing: Listing<Rebuild> = Listing::new(rt.alloc(), env.copy(rt.alloc())?)?;
    let page = listing.page(rt.alloc(), 0, count)?;
    let mut before = "{\"rows\":";
    for item in listing.items(&page) {
        let rows = item_rows(rt.alloc(), env, &item.term)?;
        out.push_str(before)?;
        push_rows(out, rt, rows.as_slice())?;
        push_number(out, rt, ",\"weight\":", item.weight)?;
        out.push_str("}")?;
        before = ",{\"rows\":";
    }
    Ok(())
}

fn push_floors(out: &mut String, rt: &HostRuntime, env: &Env) -> Result<(), AllocError> {
    let told = floors(rt.alloc(), env)?;
    let mut before = "[";
    for floor in told.as_slice() {
        out.push_str(before)?;
        push_numbers(out, rt, floor.set.as_slice())?;
        push_number(out, rt, ",", floor.left)?;
        push_number(out, rt, ",", floor.goal)?;
        push_number(out, rt, ",", floor.floor)?;
        out.push_str("]")?;
        before = ",[";
    }
    Ok(())
}

/// A line of the environment, the certificates of its first items, and its floors.
fn tell(rt: &HostRuntime, version: &Option<Snapshot>, line: &str) -> Result<(), AllocError> {
    let env = env_of(rt, version, line)?;
    let mut out = String::from_str(rt.alloc(), "{\"env\":")?;
    push_env(&mut out, rt, &env)?;
    out.push_str(",\"items\":[")?;
    push_items(&mut out, rt, &env, FIRST)?;
    out.push_str("],\"floors\":[")?;
    push_floors(&mut out, rt, &env)?;
    out.push_str("]}\n")?;
    let _printed = print!(rt; "{out}");
    Ok(())
}

fn rows_of(rt: &HostRuntime, numbers: &[u32]) -> Result<Vec<Row>, AllocError> {
    let mut rows = Vec::new(rt.alloc());
    let mut at: usize = 0;
    while at + 2 < numbers.len() {
        rows.push(Row {
            code: numbers[at],
            result: numbers[at + 1],
            weight: numbers[at + 2],
        })?;
        at += 3;
    }
    Ok(rows)
}

/// Floors, each told by the number of its types, these, and three numbers.
fn floors_of(rt: &HostRuntime, numbers: &[u32]) -> Result<Vec<Floor>, AllocError> {
    let mut floors = Vec::new(rt.alloc());
    let mut at: usize = 0;
    while at < numbers.len() {
        let count = numbers[at] as usize;
        let set = Items::from_slice(rt.alloc(), &numbers[at + 1..at + 1 + count])?;
        at += 1 + count;
        floors.push(Floor {
            set,
            left: numbers[at],
            goal: numbers[at + 1],
            floor: numbers[at + 2],
        })?;
        at += 3;
    }
    Ok(floors)
}

/// What the checker answers: one more than the number, 0 for none.
fn answer(rt: &HostRuntime, env: &Env, line: &str) -> Result<u32, AllocError> {
    let is_item = line.as_bytes().first().copied() == Some(105);
    let numbers = numbers(rt, line.get(1..).unwrap_or(""))?;
    let said = if is_item {
        let rows = rows_of(rt, numbers.as_slice())?;
        check_item(rt.alloc(), env, rows.as_slice())?
    } else {
        let floors = floors_of(rt, numbers.as_slice())?;
        check_floors(rt.alloc(), env, floors.as_slice())?
    };
    match said {
        Some(number) => Ok(number.wrapping_add(1)),
        None => Ok(0),
    }
}

/// A line of what the checker answers to each certificate of a file.
fn judge(rt: &HostRuntime, version: &Option<Snapshot>, line: &str) -> Result<(), AllocError> {
    let env = env_of(rt, version, line)?;
    let path = line.split('\t').last().unwrap_or("");
    let text = text_of(rt, path)?;
    let mut out = String::new(rt.alloc());
    let mut before = "[";
    for certificate in text.as_str().lines() {
        let said = answer(rt, &env, certificate)?;
        push_number(&mut out, rt, before, said)?;
        before = ",";
    }
    out.push_str("]\n")?;
    let _printed = print!(rt; "{out}");
    Ok(())
}

fn work(rt: &HostRuntime) -> Result<(), AllocError> {
    let Ok(arguments) = env::args(rt) else {
        return Err(AllocError);
    };
    let Ok(words) = arguments.skip(1).collect::<Vec<String>>(rt.alloc()) else {
        return Err(AllocError);
    };
    if words.len() < 2 {
        return Ok(());
    }
    let is_tell = words[0].as_str() == "tell";
    let list = text_of(rt, words[1].as_str())?;
    let version = version_of(rt, list.as_str().lines().next().unwrap_or(""))?;
    for line in list.as_str().lines() {
        if is_tell {
            tell(rt, &version, line)?;
        } else {
            judge(rt, &version, line)?;
        }
    }
    Ok(())
}

fn main(rt: HostRuntime) -> ExitCode {
    match work(&rt) {
        Ok(()) => ExitCode::from(0),
        Err(_) => {
            let _printed = eprintln!(rt; "no memory, or no such environment");
            ExitCode::from(1)
        }
    }
}
'''
