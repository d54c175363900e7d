"""A program over the library that tells the summaries of classes, as a version keeps them: no command of insynthd tells a class whole.

It is built unproved from the text below, in a copy of the crates. `PROGRAM classes LIST` prints a line for the class of each class file
that LIST names, one a line; `PROGRAM sources LIST KNOWN` prints one for each class of the source files that LIST names, where the names of
KNOWN, one a line, are known. A line has tabs between the name, the flags, the nesting's flags, outer class and simple name (or `-` thrice),
and then the supers, each behind `s `, the fields, each behind `f `, and the methods, each behind `m `, with flags and descriptor.
"""
import shutil
import tempfile
from pathlib import Path

from unproved import built

NAME = "summarising"
NEEDS = "class_pool class_shape class_summary lists outside source_classes type_names"


def build(top, program):
    """Builds the program for the crates of a repository, and puts it there."""
    with tempfile.TemporaryDirectory(prefix="summaries-") as place:
        folder = Path(place)
        copy = folder / "copy"
        shutil.copytree(top / "crates", copy / "crates", ignore=shutil.ignore_patterns("out", "must-fail"))
        if (top / "HANDLES").exists():
            shutil.copy(top / "HANDLES", copy)
        crate = copy / "crates" / NAME
        (crate / "src").mkdir(parents=True)
        (crate / "src" / "main.rt").write_text(SOURCE, encoding="utf-8")
        listed = (top / "crates.txt").read_text(encoding="utf-8")
        (copy / "crates.txt").write_text(f"{listed}\n{NAME}: {NEEDS}\n", encoding="utf-8")
        shutil.copy(built(crate, ["--seconds", "600"], folder), program)


SOURCE = r'''// Tells summaries of classes. Nothing here is proved.
#![tactic(auto)]

use class_shape::read_class;
use class_summary::{ClassSummary, FieldSummary, MethodSummary, from_shape};
use lists::{Items, Text};
use outside::{FileShelf, Loaded, Shelf};
use source_classes::with_source_classes;
use std::alloc::AllocError;
use std::env;
use std::process::ExitCode;
use std::thread::Threads;
use type_names::descriptor;

fn bytes_of(rt: &HostRuntime, path: &str) -> Result<Vec<u8>, AllocError> {
    let mut shelf = FileShelf::new(rt, rt.alloc());
    let mut bytes = Vec::new(rt.alloc());
    match shelf.load(path, &mut bytes) {
        Ok(Loaded::Bytes) => Ok(bytes),
        _ => Err(AllocError),
    }
}

fn text_of(rt: &HostRuntime, path: &str) -> Result<String, AllocError> {
    match String::from_utf8(bytes_of(rt, path)?) {
        Ok(text) => Ok(text),
        Err(_) => Err(AllocError),
    }
}

fn words_of(rt: &HostRuntime, path: &str) -> Result<Items<Text>, AllocError> {
    let text = text_of(rt, path)?;
    let mut words = Items::new(rt.alloc());
    for line in text.as_str().lines() {
        words.push(Text::from_str(rt.alloc(), line)?)?;
    }
    Ok(words)
}

fn field(rt: &HostRuntime, line: &mut String, field: &FieldSummary) -> Result<(), AllocError> {
    let kind = descriptor(rt.alloc(), &field.kind)?;
    let word = format!(in rt.alloc(); "\tf {} {} {}", field.flags, field.name.as_str(), kind.as_str())?;
    line.push_str(word.as_str())
}

fn method(rt: &HostRuntime, line: &mut String, method: &MethodSummary) -> Result<(), AllocError> {
    let word = format!(in rt.alloc(); "\tm {} {} (", method.flags, method.name.as_str())?;
    line.push_str(word.as_str())?;
    for param in method.params.as_slice() {
        line.push_str(descriptor(rt.alloc(), param)?.as_str())?;
    }
    line.push_str(")")?;
    match &method.result {
        Some(kind) => line.push_str(descriptor(rt.alloc(), kind)?.as_str()),
        None => line.push_str("V"),
    }
}

fn part(text: &Option<Text>) -> &str {
    match text {
        Some(text) => text.as_str(),
        None => "-",
    }
}

fn tell(rt: &HostRuntime, class: &ClassSummary) -> Result<(), AllocError> {
    let mut line = format!(in rt.alloc(); "{}\t{}", class.name.as_str(), class.flags)?;
    match &class.nesting {
        Some(nesting) => {
            let word = format!(in rt.alloc(); "\t{}\t{}\t{}", nesting.flags, part(&nesting.outer), part(&nesting.simple))?;
            line.push_str(word.as_str())?;
        }
        None => line.push_str("\t-\t-\t-")?,
    }
    for name in class.supers.as_slice() {
        line.push_str("\ts ")?;
        line.push_str(name.as_str())?;
    }
    for it in class.fields.as_slice() {
        field(rt, &mut line, it)?;
    }
    for it in class.methods.as_slice() {
        method(rt, &mut line, it)?;
    }
    line.push_str("\n")?;
    let _printed = print!(rt; "{line}");
    Ok(())
}

fn tell_files(rt: &HostRuntime, list: &str) -> Result<(), AllocError> {
    for path in words_of(rt, list)?.as_slice() {
        let bytes = bytes_of(rt, path.as_str())?;
        let Ok(shape) = read_class(rt.alloc(), bytes.as_slice()) else {
            return Err(AllocError);
        };
        tell(rt, &from_shape(rt.alloc(), &shape)?)?;
    }
    Ok(())
}

fn tell_sources<T: Threads + Sync>(rt: &HostRuntime, threads: &T, list: &str, known: &str) -> Result<(), AllocError> {
    let mut texts = Items::new(rt.alloc());
    for path in words_of(rt, list)?.as_slice() {
        texts.push(Text::from_string(text_of(rt, path.as_str())?))?;
    }
    let names = words_of(rt, known)?;
    let puts = Items::new(rt.alloc());
    let all = with_source_classes(threads, rt.alloc(), puts, names.as_slice(), texts.as_slice())?;
    for class in all.as_slice() {
        tell(rt, class)?;
    }
    Ok(())
}

fn work<T: Threads + Sync>(rt: &HostRuntime, threads: &T) -> Result<(), AllocError> {
    let Ok(arguments) = env::args(rt) else {
        return Err(AllocError);
    };
    let Ok(words) = arguments.skip(1).collect::<Vec<String>>(rt.alloc()) else {
        return Err(AllocError);
    };
    if words.len() == 2 {
        return tell_files(rt, words[1].as_str());
    }
    if words.len() == 3 {
        return tell_sources(rt, threads, words[1].as_str(), words[2].as_str());
    }
    Ok(())
}

fn main(rt: HostRuntime) -> ExitCode {
    match work(&rt, &rt) {
        Ok(()) => ExitCode::from(0),
        Err(_) => {
            let _printed = eprintln!(rt; "no memory, or no such file");
            ExitCode::from(1)
        }
    }
}
'''
