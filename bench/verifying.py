#!/usr/bin/env python3
"""Times the verifier as plain Rust, on its own or beside that of another checkout.

    bench/verifying.py [--beside FOLDER] [--turns N] [PROGRAM ..]

takes the contracts out of the text of the crates up to `verifier`, here and in FOLDER, compiles both with rustc, and runs
them in turn, N times (3 where none is said), on the programs of the benchmark and on each PROGRAM, a file of a checker.
It prints for each program the best microseconds of both, and how often the time of FOLDER's goes into that of ours. What
it makes is left in bench/out/. Needs rustc 1.95 or newer; `chrt` and `taskset` are used where they work.
"""
import os
import re
import shutil
import struct
import subprocess
import sys
from pathlib import Path

TOP = Path(__file__).resolve().parent.parent
# `limits` is a crate of older checkouts.
CRATES = "base limits lanes bpf_isa helpers arithmetic intervals ranges bpf_shape verifier".split()
RUSTC = ["rustc", "--edition", "2024", "-A", "warnings", "-C", "opt-level=3", "-C", "target-cpu=x86-64-v2", "-C", "codegen-units=1"]
ALONE = ["chrt", "-f", "10", "taskset", "-c", "0"]
TURNS = 1_048_576
# the kernels of `lanes` are written with std::simd, for which stable compilers want this switch
ENVIRONMENT = {**os.environ, "RUSTC_BOOTSTRAP": "1"}


def end_of(text, start, opening, closing):
    """Returns the place after the bracket that closes the first one from a place on."""
    depth = 0
    for place in range(start, len(text)):
        depth += (text[place] == opening) - (text[place] == closing)
        if depth == 0 and text[place] == closing:
            return place + 1
    raise ValueError("a bracket is open")


def without(text, begin, opening, closing, tail=""):
    """Takes out each piece that begins as said, up to the bracket that closes its first one and what follows of tail."""
    while found := re.search(begin, text):
        start = text.index(opening, found.end() - 1 if text[found.end() - 1] == opening else found.end())
        end = end_of(text, start, opening, closing)
        while tail and end < len(text) and text[end] in tail:
            end += 1
        text = text[: found.start()] + text[end:]
    return text


def derived(found):
    """Returns a derive without what plain Rust has no use for."""
    names = [it for it in re.split(r",\s*", found[1]) if it and it not in ("Drop", "Error")]
    return f"#[derive({', '.join(names)})]" if names else ""


def plain(text):
    """Returns the text of a file without its contracts, as plain Rust."""
    text = re.sub(r"(?m)^\s*//.*\n", "", text)
    text = re.sub(r"//[^\n\"]*\n", "\n", text)
    text = re.sub(r"(?m)^\s*(pub )?ghost use [^;]*;\n?", "", text)
    text = without(text, r"#!?\[tactic\(", "(", ")", "]")
    text = without(text, r"(?m)^\s*impl(<[^>{]*>)? Model for [^{]*", "{", "}")
    text = without(text, r"(?m)^\s*(pub )?ghost \w+\s*:\s*(?=\{)", "{", "}", ",;")
    text = without(text, r"(?m)^\s*ghost \w+[^;{]*", "{", "}", ";")
    text = without(text, r"(?m)^\s*(requires|ensures)\b[^{]*", "{", "}")
    text = without(text, r"prove!\(", "(", ")", ";")
    text = re.sub(r"#\[error\([^\]]*\)\]\n?", "", text)
    text = re.sub(r"#\[derive\(([^)]*)\)\]", derived, text)
    text = re.sub(r"(?m)^use (thiserror::Error|std::marker::Model);\n", "", text)
    text = text.replace("use std::alloc::", "use shim::").replace("use std::simd::prelude::*;", "use std::simd::{ToBytes, prelude::*};")
    if re.search(r"\bVec\b", text):
        text = re.sub(r"(?m)^(use |mod |pub |const |fn |#\[)", r"use shim::Vec;\n\1", text, count=1)
    return text


def built(top, to):
    """Compiles the verifier of a checkout, and returns the program that times it."""
    shutil.rmtree(to, ignore_errors=True)
    to.mkdir(parents=True)
    made = []

    def compiled(name, source, kind):
        out = to / (f"lib{name}.rlib" if kind == "rlib" else name)
        lto = [] if kind == "rlib" else ["-C", "lto=fat"]
        names = [word for it in made for word in ("--extern", f"{it}={to}/lib{it}.rlib")]
        ran = subprocess.run([*RUSTC, *lto, "-L", to, *names, "--crate-type", kind, "--crate-name", name, "-o", out, source], env=ENVIRONMENT)
        if ran.returncode:
            sys.exit(f"{source}: not compiled")
        made.append(name)
        return out

    for name in ("shim", "byteorder", "arrayvec"):
        compiled(name, TOP / f"bench/plain/{name}.rs", "rlib")
    for name in CRATES:
        source = top / f"crates/{name}/src"
        for file in source.rglob("*.rt") if source.is_dir() else ():
            target = to / name / file.relative_to(source).with_suffix(".rs")
            target.parent.mkdir(parents=True, exist_ok=True)
            head = "#![feature(portable_simd)]\n" if file.name == "lib.rt" else ""
            target.write_text(head + plain(file.read_text()))
        if source.is_dir():
            compiled(name, to / name / "lib.rs", "rlib")
    return compiled("verifying", TOP / "bench/plain/verifying.rs", "bin")


def slot(opcode, dst=0, src=0, offset=0, immediate=0):
    return struct.pack("<BBhi", opcode, dst | src << 4, offset, immediate)


def programs():
    """Returns the programs of the benchmark (bench/crate, `running`), their loops ended by `again`, and some with more loops."""
    put, copy, end = (lambda r, n: slot(0xB7, r, 0, 0, n)), (lambda r, s: slot(0xBF, r, s)), slot(0x95)
    again = lambda turns, back: [put(1, turns), slot(0x85, 0, 0, 0, 3), slot(0x55, 0, 0, back)]
    add, turn = (lambda r, n: slot(0x07, r, 0, 0, n)), slot(0x17, 7, 0, 0, 1)
    count = [add(6, 3), slot(0xAF, 6, 7), copy(8, 6), turn]
    memory = [slot(0x79, 2, 9, 8), slot(0x0F, 2, 7), slot(0x7B, 10, 2, -8), slot(0x79, 4, 10, -8), slot(0x0F, 6, 4), slot(0x71, 5, 10, -8), turn]
    loop = [put(9, 0), add(6, 1), add(7, 1), add(8, 1), *again(1, -6)]
    nested = lambda n: [put(6, 0), *[add(6, 1)] * n, *[it for k in range(n) for it in again(1, -(4 * k + 4))], put(0, 0), end]
    row = [slot(0x07, 0, 0, 0, 3), slot(0xAF, 0, 1), copy(2, 0), slot(0x17, 1, 0, 0, 1)]
    return {
        "count": [put(6, 0), put(7, TURNS), put(8, 0), *count, *again(TURNS, -7), copy(0, 6), end],
        "memory": [copy(9, 1), put(6, 0), put(7, TURNS), slot(0x7B, 10, 6, -8), *memory, *again(TURNS, -10), copy(0, 6), end],
        "calls": [put(6, 0), put(7, TURNS), slot(0x85, 0, 1, 0, 6), turn, *again(TURNS, -5), copy(0, 6), end, put(0, 7), end],
        "row": [put(0, 0), put(1, 7), *row * 999, end],
        "short": [put(0, 0), end],
        "loop400": [put(6, 0), put(7, 0), add(6, 1), *[copy(8, 7)] * 396, *again(TURNS, -400), copy(0, 6), end],
        "loops500": [put(6, 0), put(7, 0), put(8, 0), *loop * 500, put(0, 0), end],
        "nested20": nested(20),
        "nested60": nested(60),
    }


def main(words):
    beside, turns, files = None, 3, []
    while words:
        word = words.pop(0)
        if word == "--beside":
            beside = Path(words.pop(0)).resolve()
        elif word == "--turns":
            turns = int(words.pop(0))
        elif word.startswith("-"):
            sys.exit(__doc__)
        else:
            files.append(word)
    out = TOP / "bench/out"
    ours = {"ours": built(TOP, out / "ours")}
    timed = {"beside": built(beside, out / "beside"), **ours} if beside else ours
    for name, slots in reversed(programs().items()):
        path = out / f"{name}.bpf"
        path.write_bytes(b"".join(slots))
        files.insert(0, str(path))
    alone = ALONE if subprocess.run([*ALONE, "true"], stderr=subprocess.DEVNULL).returncode == 0 else []
    best, said = {}, {}
    for _ in range(turns):
        for name, program in timed.items():
            ran = subprocess.run([*alone, program, *files], stdout=subprocess.PIPE, text=True, check=True)
            for line in ran.stdout.splitlines():
                file, time, answer = line.split("\t")
                best[name, file] = min(best.get((name, file), float("inf")), float(time))
                said[name, file] = answer
    for file in files:
        row = f"{Path(file).stem:24}" + "".join(f"{best[it, file]:12.2f}" for it in timed)
        ratio = f"{best['ours', file] / best['beside', file]:8.2f}" if beside and best["beside", file] else ""
        answers = " | ".join(dict.fromkeys(said[it, file] for it in timed))
        print(f"{row}{ratio}  {answers}")


if __name__ == "__main__":
    main(sys.argv[1:])
