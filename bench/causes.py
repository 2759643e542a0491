#!/usr/bin/env python3
"""Times `why`, `page` and `cure` beside `explore`, on runs in which thousands of images fail.

    python3 bench/causes.py [PROGRAM]

PROGRAM is the built program, crates/crashbpf/out/crashbpf where it isn't given. For each run it prints how many images fail,
and processor times in milliseconds, the best of nine; of `cure` beside the sum of the runs that it makes, each by `explore`.
"""
import re
import resource
import subprocess
import sys
import tempfile
from pathlib import Path

TOP = Path(__file__).resolve().parent.parent
PROGRAM = TOP / "crates/crashbpf/out/crashbpf"
TURNS = 9


def program(first, others):
    """The text of a checker: where byte 0 of sector 0 is what `first` says, that of each other sector has to be as given."""
    lines = ["mov64 r1, 0", "call 1", "jeq r0, 0, bad", "ldxb r1, [r0+0]", first]
    for sector, byte in others:
        lines += [f"mov64 r1, {sector}", "call 1", "jeq r0, 0, bad", "ldxb r1, [r0+0]", f"jne r1, {byte}, bad"]
    return "\n".join(lines + ["good:", "mov64 r0, 0", "exit", "bad:", "mov64 r0, 1", "exit"]) + "\n"


def eleven_writes():
    """Eleven writes and a commit, between which a flush is missing."""
    trace = [f"write {i} 1 fill {i}" for i in range(1, 12)] + ["write 0 1 fill 1", "flush"]
    checker = program("jne r1, 1, good", [(i, i) for i in range(1, 12)])
    return trace, checker, ["--sectors", "12", "--cuts", "flush", "--bound", "2", "--tears"]


def all_fail():
    """Thirty commits of five writes; from the first one on every image fails."""
    trace = []
    for commit in range(30):
        trace += [f"write {1 + (commit * 4 + i) % 40} 1 fill {commit + 1}" for i in range(4)]
        trace += [f"write 0 1 fill {commit + 1}", "flush"]
    return trace, program("jne r1, 0, bad", []), ["--sectors", "41", "--bound", "2", "--tears"]


def spent(words):
    """The processor time of a command, in milliseconds."""
    before = resource.getrusage(resource.RUSAGE_CHILDREN)
    subprocess.run(words, stdout=subprocess.DEVNULL, stderr=subprocess.DEVNULL, check=False)
    after = resource.getrusage(resource.RUSAGE_CHILDREN)
    return 1000 * (after.ru_utime + after.ru_stime - before.ru_utime - before.ru_stime)


def best(words):
    return min(spent(words) for _turn in range(TURNS))


def flushes_of(text):
    """The entries before which each run of a cure has flushes, but for its first run."""
    rounds, so_far = {}, []
    for number, entry in re.findall(r"^round (\d+) flush before (\d+) ", text, re.M):
        rounds.setdefault(int(number), []).append(entry)
    for number in sorted(rounds):
        so_far += rounds[number]
        yield ",".join(so_far)


def measure(built, name, run, folder):
    """Prints what explore, why, page and cure take on a run, and what the runs take that cure makes."""
    trace, checker, options = run
    Path(folder, "trace").write_text("\n".join(trace) + "\n")
    Path(folder, "checker.s").write_text(checker)
    log, checker = f"{folder}/log", f"{folder}/checker"
    subprocess.run([sys.executable, TOP / "commands/record/trace_log.py", f"{folder}/trace", log], check=True)
    Path(checker).write_bytes(subprocess.run([built, "asm", f"{folder}/checker.s"], capture_output=True, check=True).stdout)

    def of(command, *more):
        return [built, command, log, checker, *options, *more]

    report = subprocess.run(of("explore"), capture_output=True, text=True, check=False).stdout
    cured = subprocess.run(of("cure"), capture_output=True, text=True, check=False).stdout
    times = {command: best(of(command)) for command in ("explore", "why", "page", "cure")}
    runs = times["explore"] + sum(best(of("explore", "--flush", flushes)) for flushes in flushes_of(cured))
    print(f"{name}: {report.splitlines()[-1]}")
    for command in ("explore", "why", "page"):
        print(f"    {command} {times[command]:.0f} ms, {times[command] / times['explore']:.2f}")
    print(f"    cure {times['cure']:.0f} ms, its runs {runs:.0f} ms, {times['cure'] / runs:.2f}")


def main():
    built = str(Path(sys.argv[1] if len(sys.argv) > 1 else PROGRAM).resolve())
    with tempfile.TemporaryDirectory() as folder:
        measure(built, "a flush is missing", eleven_writes(), folder)
        measure(built, "every image fails", all_fail(), folder)


if __name__ == "__main__":
    main()
