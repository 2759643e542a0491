#!/usr/bin/env python3
"""Tests the Debian package and the tar file that tools/package makes.

    python3 tests/gate/package.py [PROGRAM]

PROGRAM is as in run.py. Both are made twice, the second time from a copy of the repository elsewhere, with other times of
its files and another mask of modes, and have to be the same bytes.

Then each is installed in a clean root, a folder with nothing else but the C libraries that the package asks for: the Debian
package by dpkg, or unpacked where there is no dpkg, and the tar file below usr/local. From the installed files alone the commands
of README.md on its tree are run there, by chroot. Each line that README.md shows of them has to be printed. Where clang is there
the checker is compiled once more by the installed `crashbpf-cc`, and has to find the same: only its numbers of slots and steps are
the compiler's. Where there is no right to call chroot the program is run by its path.

The tar file is unpacked once more, and its own README.md is followed in an empty folder: all commands that it has to begin with, by
`sh`, with the programs of the package on the path and links to NEEDED of the system alone. What README.md shows of the program that
saves settings has to be printed. Where there is no strace that is left out.

Of the completions bash is asked what it completes; zsh and fish, where they are there, read theirs alone. In each man page, as man shows
it, stand the options of the program's help. For what isn't there a line says so.

Prints a line for each row that failed, and last `N passed, M failed`. It takes some ten seconds.
"""
import gzip
import io
import os
import re
import shutil
import subprocess
import sys
import tarfile
import tempfile
from pathlib import Path

sys.dont_write_bytecode = True

import rooms

rooms.enter()

from notation import TOP

# The folders of the repository that tools/package reads, beside README.md and CONTRIBUTING.md.
READ = ("docs", "bench", "commands", "include", "examples", "tools")
# The programs of a package, and what each has there; of zsh's folders that of the tar file.
NAMES = ("crashbpf", "crashbpf-cc", "crashbpf-each", "crashbpf-files", "crashbpf-record", "crashbpf-test")
OF_EACH = ("bin/{}", "share/man/man1/{}.1.gz", "share/bash-completion/completions/{}", "share/fish/vendor_completions.d/{}.fish", "share/zsh/site-functions/_{}")
PATH = f"{os.environ['PATH']}:/usr/sbin:/sbin"
INSTALLED = """\
Package: {name}
Status: install ok installed
Architecture: {architecture}
Multi-Arch: same
Version: {version}
Maintainer: nobody
Description: a library that this root has

"""


def run(words, **how):
    return subprocess.run([str(it) for it in words], stdin=subprocess.DEVNULL, capture_output=True, text=True, **how)


def differs(what, found, wanted):
    return [] if found == wanted else [f"{what} is {found!r}, and {wanted!r} is right"]


def packages(top, folder, program, **how):
    """Makes both files by the tool of a copy of the repository, and returns their paths by kind."""
    done = run([top / "tools/package", folder, program], **how)
    if done.returncode:
        sys.exit(f"tools/package ended with {done.returncode}: {done.stderr}")
    return {"".join(it.suffixes[-1:]): it for it in Path(folder).iterdir()}


def same_again(made, folder, program):
    """What is wrong with the packages that a copy of the repository makes of the program."""
    top = Path(folder, "copy")
    top.mkdir()
    for name in ("README.md", "CONTRIBUTING.md"):
        shutil.copyfile(TOP / name, top / name)
    for name in READ:
        shutil.copytree(TOP / name, top / name)
    for path in top.rglob("*"):
        os.utime(path, (1, 1))
        path.chmod(0o700 if path.is_dir() or path.parent.name == "tools" else 0o600)
    again = packages(top, Path(folder, "again"), program, cwd="/", preexec_fn=lambda: os.umask(0o077), env={**os.environ, "TZ": "Asia/Tokyo"})
    found = differs("the names", sorted(it.name for it in again.values()), sorted(it.name for it in made.values()))
    return found + [f"{path.name} is other bytes" for kind, path in made.items() if path.read_bytes() != again[kind].read_bytes()]


def parts_of_ar(data):
    """Returns the members of an archive of the form of ar, by name."""
    parts, at = {}, 8
    while at < len(data):
        name, size = data[at : at + 16].decode().strip(), int(data[at + 48 : at + 58])
        parts[name] = data[at + 60 : at + 60 + size]
        at += 60 + size + size % 2
    return parts


def tar_of(path):
    """Returns the packed tar file of the files that are installed."""
    data = path.read_bytes()
    return gzip.decompress(parts_of_ar(data)["data.tar.gz"] if path.suffix == ".deb" else data)


def holds(made):
    """What is wrong with the order, owners, times, modes and names of what both hold."""
    found, names = [], {}
    for kind, path in made.items():
        with tarfile.open(fileobj=io.BytesIO(tar_of(path))) as archive:
            members = archive.getmembers()
        found += [] if members == sorted(members, key=lambda it: it.name) else [f"{kind} isn't sorted"]
        found += differs(f"of {kind} the owners", {(it.uid, it.gid, it.uname, it.gname) for it in members}, {(0, 0, "root", "root")})
        found += differs(f"of {kind} the number of times", len({it.mtime for it in members}), 1)
        modes = {True: (0o755,), False: (0o644, 0o755)}
        found += [f"{it.name} has mode {it.mode:o}" for it in members if it.mode not in modes[it.isdir() or "/bin/" in it.name]]
        begin = "./usr/" if kind == ".deb" else f"{path.name.removesuffix('.tar.gz')}/"
        names[kind] = {it.name.removeprefix(begin).replace("vendor-completions", "site-functions") for it in members if it.isfile()}
    found += differs("what one of both alone holds", names[".deb"] ^ names[".gz"], {"README.md"})
    wanted = {form.format(name) for form in OF_EACH for name in NAMES} | {"share/doc/crashbpf/copyright"}
    shown = ("README.md", "CONTRIBUTING.md", "docs/COMMANDS.md", "docs/OUTPUT.md", "docs/REFUSALS.md", "docs/page.png", "include/checker.h", "examples/tree/root.c", "examples/tree/wrong.log", "examples/saving/save.sh", "commands/record/trace_log.py")
    shown += tuple(f"examples/many_machines/{it}" for it in ("README.md", "lay_out", "run_part", "join_all", "array.sh"))
    wanted |= {f"share/crashbpf/{it}" for it in shown} | {"share/crashbpf/commands/each/stream.py"}
    wanted |= {"README.md", "share/doc/crashbpf/README.md"}
    found += differs("what is of the source", [it for it in names[".gz"] if it.endswith((".rt", ".antt"))], [])
    return found + differs("what is missing", wanted - names[".gz"], set()) + dead_links(names[".gz"])


def dead_links(names):
    """Returns the links of the pages that are installed to files that aren't."""
    pages = [it.removeprefix("share/crashbpf/") for it in names if it.startswith("share/crashbpf/") and it.endswith(".md")]
    kept = {str(it) for name in names for it in (Path(name), *Path(name).parents)}
    found = []
    for page in sorted(pages):
        text = re.sub(r"`[^`]*`", "", (TOP / page).read_text())
        for link in re.findall(r"\]\((?!\w+:)([^)#]+)", text):
            if os.path.normpath(f"share/crashbpf/{Path(page).parent}/{link}") not in kept:
                found.append(f"{page} has a link to {link}, which isn't installed")
    return found


def libraries(program):
    """Returns the paths of the libraries with which a program is loaded, or none where there is no ldd."""
    return re.findall(r"(/\S+) \(0x", run(["ldd", program]).stdout) if shutil.which("ldd") else []


def fields_of(path):
    """Returns the fields of a Debian package."""
    with tarfile.open(fileobj=io.BytesIO(gzip.decompress(parts_of_ar(path.read_bytes())["control.tar.gz"]))) as archive:
        text = archive.extractfile("./control").read().decode()
    return dict(re.findall(r"(?m)^(\S+): (.*)", text))


def install_deb(path, root):
    """Installs the Debian package in a root that has the packages on which it depends, and nothing else."""
    if not shutil.which("dpkg"):
        print("not run: dpkg, since it isn't there; the package is unpacked")
        with tarfile.open(fileobj=io.BytesIO(tar_of(path))) as archive:
            archive.extractall(root)
        return []
    fields = fields_of(path)
    state = root / "var/lib/dpkg"
    for name in ("info", "updates", "triggers", "alternatives"):
        (state / name).mkdir(parents=True)
    text = ""
    for need in fields["Depends"].split(", "):
        name, version = re.fullmatch(r"(\S+)(?: \(>= (\S+)\))?", need).groups()
        text += INSTALLED.format(name=name, architecture=fields["Architecture"], version=version or "1")
    (state / "status").write_text(text)
    done = run(["dpkg", f"--root={root}", "--force-not-root", "--log=/dev/null", "--install", path], env={**os.environ, "PATH": PATH})
    listed = run(["dpkg-query", f"--admindir={state}", "-W", "-f", "${Status}", "crashbpf"])
    return differs("dpkg's status", done.returncode, 0) + differs("what dpkg says of the package", listed.stdout, "install ok installed")


def install_tar(path, root):
    (root / "usr/local").mkdir(parents=True)
    done = run(["tar", "-xzf", path, "--strip-components=1", "-C", root / "usr/local"])
    return differs("tar's status", done.returncode, 0)


def column(head):
    """Returns the code in the first column of the table of README.md with this head."""
    rows = re.search(rf"(?m)^\| {head} \|.*\n\|--.*\n((?:\|.*\n)+)", (TOP / "README.md").read_text())
    found = re.findall(r"(?m)^\| `(.*?)` \|", rows[1]) if rows else []
    return found or sys.exit(f"README.md has no table as this test looks for it, with the head {head}")


def unprinted(lines, printed):
    """What is wrong where not all lines were printed. One that ends in two dots is the beginning of what was."""
    there = printed.splitlines()
    begun = {it: it.removesuffix("..") for it in lines}
    return [f"nothing prints {it!r}" for it, text in begun.items() if not any(line == text or text != it and line.startswith(text) for line in there)]


def commands_on_tree():
    """Returns the words of the commands of README.md on its tree, after the program's name."""
    text = (TOP / "README.md").read_text()
    checker = re.search(r"```c\n(.*?)```", text, re.S)
    found = re.findall(r"(?m)^    crashbpf (\w+ wrong\.log .*?)(?: > \S*)?$", text)
    if not checker or not found:
        sys.exit("README.md has no commands on its tree as this test looks for them")
    if checker[1] not in (TOP / "examples/tree/root.c").read_text():
        sys.exit("the checker of README.md isn't that of examples/tree/root.c")
    return [it.split() for it in found]


def in_root(root, words):
    """Returns the words that run a command in a root, or without its own root where that isn't allowed."""
    chroot, unshare = (shutil.which(it, path=PATH) or it for it in ("chroot", "unshare"))
    for begin in ([chroot], [unshare, "--user", "--map-root-user", chroot]):
        if os.access(begin[0], os.X_OK) and run([*begin, root, words[0], "--version"]).returncode == 0:
            return [*begin, root, *words]
    print("not run: chroot, since it isn't allowed; the program is run by its path")
    return [root / words[0][1:], *(root / it[1:] if it.startswith("/") else it for it in words[1:])]


def runs(path, install, prefix, folder):
    """What is wrong with the first crash of README.md in a clean root with a package."""
    root = Path(folder, "root")
    root.mkdir()
    found = install(path, root)
    program = root / prefix / "bin/crashbpf"
    if found or not program.exists():
        return [*found, "the program wasn't installed"]
    for library in libraries(program):
        (root / library[1:]).parent.mkdir(parents=True, exist_ok=True)
        shutil.copy(library, root / library[1:])
    examples = f"/{prefix}/share/crashbpf/examples"
    (root / "home").mkdir()

    def tell(checker):
        """What the commands print with a checker, and what is wrong with their statuses."""
        places = {"wrong.log": f"{examples}/tree/wrong.log", "root.bpf": checker}
        told, wrong = "", []
        for words in commands_on_tree():
            done = run(in_root(root, [f"/{prefix}/bin/crashbpf", *(places.get(it, it) for it in words)]), env={})
            wrong += differs(f"the status of {words[0]}", done.returncode, int(words[0] != "show"))
            told += done.stdout
        return told, wrong + unprinted(column("They print"), told)

    told, wrong = tell(f"{examples}/tree/root.bpf")
    found += wrong
    if not shutil.which("clang"):
        print("not run: crashbpf-cc, since there is no clang")
        return found
    tool, source = root / prefix / "bin/crashbpf-cc", root / examples[1:] / "tree/root.c"
    done = run([tool, source, "check", root / "home/check.bpf"], cwd=folder)
    if done.returncode:
        return [*found, f"crashbpf-cc ended with {done.returncode}: {done.stderr}"]
    again, wrong = tell("/home/check.bpf")
    slots = re.compile(r"(?m)^program 0 slots .*|^<.*")
    return found + wrong + differs("what is told with the checker compiled anew", slots.sub("", again), slots.sub("", told))


def shown_of_settings():
    """The lines that README.md shows of the program that saves settings, in the form of `unprinted`."""
    block = (TOP / "README.md").read_text().partition("    crashbpf-test --check ")[2].partition("```\n")[2].partition("```")[0]
    return [re.sub(r" \.\.\.$", "..", it) for it in block.splitlines() if it.strip(".")]


# What of the system the package's own README.md may use.
NEEDED = ("sh", "python3", "strace", "cp", "dirname", "readlink", "env", "yes", "head", "mv", "sync", "tr", "cmp", "cat")


def begins(path, folder):
    """What is wrong with the commands of the package's own README.md, in an empty folder and with nothing else on the path."""
    absent = [it for it in NEEDED if not shutil.which(it, path=PATH)]
    if absent:
        print(f"not run: the package's README.md, since there is no {', '.join(absent)}")
        return []
    room, tools, empty = (Path(folder, it) for it in ("room", "tools", "empty"))
    for it in (room, tools, empty):
        it.mkdir()
    run(["tar", "-xzf", path, "-C", room])
    for it in NEEDED:
        (tools / it).symlink_to(sys.executable if it == "python3" else shutil.which(it, path=PATH))
    (page,) = room.glob("*/README.md")
    text = page.read_text()
    found = [f"README.md of the package says {it}" for it in re.findall(r"\b(?:VERSION|NAME|DEB|MACHINE|NEEDS)\b", text)]
    begin = text.partition("\n## Begin")[2].partition("\n## Go on")[0]
    commands = re.findall(r"(?m)^    ((?:.*\\\n)*.*)$", begin)
    environment = {"PATH": f"{page.parent}/bin:{tools}", "HOME": str(empty), "TMPDIR": str(empty)}
    told = ""
    # The second time with the two syncs: then nothing fails, and `why` has nothing to tell.
    for word, failing in (("", 1), (" sync", 0)):
        for command in commands:
            if failing or "examples/saving" in command or "loose" in command:
                command = re.sub(r"save\.sh", f"save.sh{word}", command).replace("loose", f"loose{word.strip()}")
                done = run(["sh", "-c", command], cwd=empty, env=environment)
                failing_now = 0 if command.startswith(("cp ", "crashbpf-record ")) else failing
                found += differs(f"the status of {command}", done.returncode, failing_now)
                found += [f"{command} says {done.stderr[-300:]}"] if done.returncode > 1 else []
                told += done.stdout
        told += (empty / "report").read_text()
    return found + unprinted(shown_of_settings(), told)


# What bash completes after words, the last of which is begun; as the help of the commands has it.
COMPLETED = {
    ("crashbpf", "expl"): "explore",
    ("crashbpf", "help", "ver"): "verify",
    ("crashbpf", "explore", "--cuts", ""): "all flush mark",
    ("crashbpf", "image", "--by", "=", "w"): "write",
    ("crashbpf", "list", "--sl"): "--slots",
    ("crashbpf", "explore", "--sectors", ""): "",
    ("crashbpf", "explore", "gi"): "given",
    ("crashbpf-test", "--reco"): "--recording",
    ("crashbpf-test", "--base", "gi"): "given",
    ("crashbpf-test", "--bound", ""): "",
    ("crashbpf-test", "--check", "true", "--", "--reco"): "",
    ("crashbpf-record", "--files", "x"): "xfs",
    ("crashbpf-each", "--tim"): "--timeout",
    ("crashbpf-each", "gi"): "given",
    ("crashbpf-cc", "--mut"): "--mutants",
    ("crashbpf-files", "gi"): "given",
}
COMPLETE = """\
source "$1/$2"; shift; compopt() { :; }
COMP_WORDS=("$@"); COMP_CWORD=$(($# - 1)); "_${1//-/_}"; printf %s "${COMPREPLY[*]}"
"""


def completes(path, folder):
    """What is wrong with what the shells that are there make of the files of completions."""
    root = Path(folder, "root")
    root.mkdir()
    install_tar(path, root)
    share = root / "usr/local/share"
    Path(folder, "given").touch()
    found = []
    for shell, form in (("zsh", "zsh/site-functions/_{}"), ("fish", "fish/vendor_completions.d/{}.fish")):
        for name in NAMES if shutil.which(shell) else ():
            found += differs(f"the status of {shell} -n for {name}", run([shell, "-n", share / form.format(name)]).returncode, 0)
    if not shutil.which("bash"):
        print("not run: completions, since there is no bash")
        return found
    for words, wanted in COMPLETED.items():
        done = run(["bash", "-c", COMPLETE, "bash", share / "bash-completion/completions", *words], cwd=folder)
        found += differs(f"what bash completes of {' '.join(words)!r}", done.stdout + done.stderr, wanted)
    return found


def are_read(path, folder):
    """What is wrong with the man pages: each option of a program's help has to stand in what man shows, and man has no complaint."""
    if not shutil.which("man"):
        print("not run: man pages, since there is no man")
        return []
    root = Path(folder, "root")
    root.mkdir()
    install_tar(path, root)
    found = []
    for name in NAMES:
        page = root / f"usr/local/share/man/man1/{name}.1.gz"
        shown = run(["man", "--warnings", "-l", page], env={**os.environ, "MANWIDTH": "100", "LC_ALL": "C"})
        options = set(re.findall(r"(?m)^ +(--?[a-z][\w-]*)", run([root / "usr/local/bin" / name, "--help"]).stdout))
        found += [f"man says of {name}: {shown.stderr[-300:]}"] if shown.stderr or shown.returncode else []
        found += [f"the page of {name} lacks {it}" for it in sorted(options) if not re.search(rf"(?<![\w-]){it}(?![\w-])", shown.stdout)]
    return found


def main(words):
    program = Path(words[0] if words else TOP / "crates/crashbpf/out/crashbpf").resolve()
    if not os.access(program, os.X_OK):
        sys.exit(f"there is no program {program}: `rt run` in crates/crashbpf builds it")
    with tempfile.TemporaryDirectory() as folder:
        made = packages(TOP, Path(folder, "made"), program)
        rows = {
            "the same bytes again": lambda room: same_again(made, room, program),
            "what both hold": lambda room: holds(made),
            "what shells complete": lambda room: completes(made[".gz"], room),
            "man pages": lambda room: are_read(made[".gz"], room),
            "the Debian package in a clean root": lambda room: runs(made[".deb"], install_deb, "usr", room),
            "the tar file in a clean root": lambda room: runs(made[".gz"], install_tar, "usr/local", room),
            "the tar file's own README.md": lambda room: begins(made[".gz"], room),
        }
        failed = 0
        for name, check in rows.items():
            with tempfile.TemporaryDirectory() as room:
                found = check(room)
            if found:
                failed += 1
                print(f"FAILED {name}: {'; '.join(found)[:2000]}")
    print(f"{len(rows) - failed} passed, {failed} failed")
    return 1 if failed else 0


if __name__ == "__main__":
    sys.exit(main(sys.argv[1:]))
