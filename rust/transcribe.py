#!/usr/bin/env python3
"""transcribe.py CRATE MODULE FOLDER: writes the crate and those it depends on as Rust packages, so that rustc compiles the same text.
Contracts and ghost imports are left out, and every type is Copy, as it is in Rattle. The package in FOLDER/front has the call `search`
and the struct `Outcome` of CRATE; MODULE is where the calls stand in it."""
import pathlib
import re
import sys

TOP = pathlib.Path(__file__).resolve().parent.parent
CLAUSE = re.compile(r"\b(requires|ensures)\*?(\s+\w+)?\s*\{")
# What the language's own library has as a function, Rust has as a method.
WRAPPING = re.compile(r"(?m)^use std::num::(wrapping_(\w+)_(u\d+));\n")


def without_contracts(text):
    kept, at = "", 0
    while found := CLAUSE.search(text, at):
        kept += text[at : found.start()]
        at, depth = found.end(), 1
        while depth:
            depth += (text[at] == "{") - (text[at] == "}")
            at += 1
    return kept + text[at:]


def others_derived(found):
    """A derive without what every type gets here, and without Drop, which Rust derives of itself."""
    others = [it for it in re.split(r"\s*,\s*", found[1]) if it not in ("Clone", "Copy", "Drop", "")]
    return f"#[derive({', '.join(others)})]\n" if others else ""


def as_rust(text):
    text = without_contracts(re.sub(r"(?m)^ *ghost use .*?;\n", "", text))
    text = re.sub(r"(?m)^ *#!?\[(tactic|cycle)\(.*?\)\]\n", "", text)
    text = re.sub(r"(?m)^#\[derive\((.*?)\)\]\n", others_derived, text)
    text = WRAPPING.sub(r"fn \1(a: \3, b: \3) -> \3 {\n    a.wrapping_\2(b)\n}\n", text)
    text = re.sub(r"(?m)^((?:pub(?:\(crate\))? )?(?:struct|enum) )", r"#[derive(Clone, Copy)]\n\1", text)
    return text.replace("#[unsafe(no_mangle)]\n", "").replace('extern "C" fn', "fn")


def dependencies():
    lines = (line.split("#")[0] for line in (TOP / "crates.txt").read_text().splitlines())
    return {name.split()[0]: needed.split() for name, _, needed in (line.partition(":") for line in lines if ":" in line)}


def write(path, text):
    path.parent.mkdir(parents=True, exist_ok=True)
    if not path.exists() or path.read_text() != text:
        path.write_text(text)


def package(folder, name, needed, lib):
    paths = "".join(f'{other} = {{ package = "rattle-{other}", path = "../{other}" }}\n' for other in needed)
    write(folder / "Cargo.toml", f'[package]\nname = "rattle-{name}"\nversion = "0.1.0"\nedition = "2021"\n\n[lib]\nname = "{lib}"\n\n[dependencies]\n{paths}')


def transcribe(name, folder, needed_by):
    for other in needed_by[name]:
        transcribe(other, folder, needed_by)
    package(folder / name, name, needed_by[name], name)
    sources = TOP / "crates" / name / "src"
    for source in sources.rglob("*.rt"):
        text = as_rust(source.read_text())
        lead = "#![allow(warnings)]\n" if source == sources / "lib.rt" else ""
        write(folder / name / "src" / source.relative_to(sources).with_suffix(".rs"), lead + text)


crate, module, folder = sys.argv[1], sys.argv[2], pathlib.Path(sys.argv[3])
transcribe(crate, folder, dependencies())
package(folder / "front", "front", [crate], "transcribed")
write(folder / "front/src/lib.rs", f"pub use {crate}::Outcome;\npub use {module}::search;\n")
