"""Files that `cuvolemin` writes: pieces of bytes, and texts that are written anew or shown as they would change."""
import os
import pathlib
import re
import resource
import signal
import subprocess
import time

from program_files import SECONDS, Wrong, wants

RULES = b"macro_rules! m { () => { 1 + 2 }; }\n"
CALLS = RULES + b"const A: u8 = 2 * m!();\n"
CALLED = RULES + b"const A: u8 = 2 * (1 + 2);\n"
FAULTY = RULES + b"const A: u8 = m!(3);\n"


def limited(size):
    """A function for a new process, which may then write files of so many bytes only."""
    def limits():
        signal.signal(signal.SIGXFSZ, signal.SIG_IGN)
        resource.setrlimit(resource.RLIMIT_FSIZE, (size, size))
    return limits


def holds(path, contents):
    """Refuses a file that does not hold these bytes."""
    wants(f"{path}", pathlib.Path(path).read_bytes(), contents)


def new_files(files):
    """The names of new files that a run left behind."""
    return [path.name for path in files.room.iterdir() if ".new" in path.name]


# ---- pieces of bytes

def try_limited(files):
    """A file that may have only ten bytes cannot be written whole: it stays as it was."""
    out = files.made("kept", b"kept")
    done = subprocess.run([files.program, "pack", "-", "-o", out], input=b"fn main() {}", capture_output=True,
                          timeout=SECONDS, check=False, preexec_fn=limited(10))
    told = f"error: couldn't write {out}: File too large (os error 27)\n".encode()
    wants("the run", (done.returncode, done.stdout, done.stderr), (1, b"", told))
    wants("the file", pathlib.Path(out).read_bytes(), b"kept")
    wants("what is beside it", new_files(files), [])


def try_own_input(files):
    """The program does not write over its own input, whatever path leads there."""
    name = files.made("own.rs", b"fn main() {}")
    link = files.room / "own_link"
    link.symlink_to(name)
    for out in (name, str(files.room / "." / "own.rs"), str(link)):
        files.tells(f"error: {out}: this is the input, so it is not written\n", "pack", name, "-o", out)
    wants("the file", pathlib.Path(name).read_bytes(), b"fn main() {}")


def try_replaced(files):
    """A link stays; its target is replaced and keeps its permissions. A file of an earlier run stays too."""
    piece = files.room / "piece"
    files.gives(b"", "pack", "-", "-o", str(piece), given=b"fn main() {}")
    target = pathlib.Path(files.made("target", b"old"))
    target.chmod(0o640)
    link = files.room / "target_link"
    link.symlink_to(target)
    earlier = pathlib.Path(files.made("target.new0", b"earlier"))
    files.gives(b"", "pack", "-", "-o", str(link), given=b"fn main() {}")
    wants("the link", link.is_symlink(), True)
    wants("the target", target.read_bytes(), piece.read_bytes())
    wants("its permissions", target.stat().st_mode & 0o777, 0o640)
    wants("the earlier file", earlier.read_bytes(), b"earlier")
    earlier.unlink()
    wants("what is beside it", new_files(files), [])


def try_device(files):
    """The program writes to a pipe as it is."""
    piece = files.room / "piece"
    files.gives(b"", "pack", "-", "-o", str(piece), given=b"fn main() {}")
    files.gives(piece.read_bytes(), "pack", "-", "-o", "/dev/stdout", given=b"fn main() {}")


# ---- texts that are written anew

def try_written(files):
    """`expand --write` replaces each text that has calls and keeps its first line, its byte order mark and its permissions."""
    plain = files.made("plain.rs", RULES)
    inode = os.stat(plain).st_ino
    calls = files.made("calls.rs", CALLS)
    os.chmod(calls, 0o600)
    marked = files.made("marked.rs", b"\xef\xbb\xbf#!/usr/bin/env x\n" + CALLS)
    target = files.made("target.rs", CALLS)
    link = files.room / "link.rs"
    link.symlink_to(target)
    files.gives(b"", "expand", "--write", plain, calls, marked, str(link), calls)
    holds(plain, RULES)
    wants("the file without calls", os.stat(plain).st_ino, inode)
    holds(calls, CALLED)
    wants("its permissions", os.stat(calls).st_mode & 0o777, 0o600)
    holds(marked, b"\xef\xbb\xbf#!/usr/bin/env x\n" + CALLED)
    wants("the link", link.is_symlink(), True)
    holds(target, CALLED)
    wants("what is beside them", new_files(files), [])


def try_written_without_rules(files):
    """The other options of `expand` hold too."""
    name = files.made("rules.rs", CALLS)
    files.gives(b"", "expand", "--write", "--drop-rules", name)
    holds(name, b"const A: u8 = 2 * (1 + 2);\n")


def try_unwritten(files):
    """If one text has an error or cannot be read, none is written."""
    calls, faulty = files.made("good.rs", CALLS), files.made("faulty.rs", FAULTY)
    for other in (faulty, "/no/file", files.made("no_text.rs", b"\xff")):
        status, written, told = files.run("expand", "--write", calls, other)
        wants("the run", (status, written, told[:7]), (1, b"", b"error: "))
        holds(calls, CALLS)
    holds(faulty, FAULTY)
    wants("what is beside them", new_files(files), [])


def try_unwritten_whole(files):
    """If one file cannot be written whole, all stay as they are."""
    first, second = files.made("first.rs", CALLS), files.made("second.rs", CALLS + b"// long\n" * 100)
    done = subprocess.run([files.program, "expand", "--write", first, second], capture_output=True, timeout=SECONDS, check=False,
                          preexec_fn=limited(len(CALLED)))
    told = f"error: couldn't write {second}: File too large (os error 27)\n".encode()
    wants("the run", (done.returncode, done.stdout, done.stderr), (1, b"", told))
    holds(first, CALLS)
    holds(second, CALLS + b"// long\n" * 100)
    wants("what is beside them", new_files(files), [])


def opened(pipe, started):
    """The pipe, opened for writing as soon as the program reads it."""
    until = time.monotonic() + SECONDS
    while started.poll() is None and time.monotonic() < until:
        try:
            return os.fdopen(os.open(pipe, os.O_WRONLY | os.O_NONBLOCK), "wb")
        except OSError:
            time.sleep(0.01)
    raise Wrong("the program does not read the pipe")


def try_changed_meanwhile(files):
    """A file that changes while the program reads another one stays, and a pipe is not replaced."""
    name, pipe = files.made("meanwhile.rs", CALLS), str(files.room / "pipe.rs")
    os.mkfifo(pipe)
    for given, told in ((b"fn f() {}", f"{name}: it changed meanwhile"), (CALLS, f"{pipe}: it is no regular file")):
        pathlib.Path(name).write_bytes(CALLS)
        with subprocess.Popen([files.program, "expand", "--write", name, pipe], stdout=subprocess.PIPE,
                              stderr=subprocess.PIPE) as started:
            # The program opens the pipe when it has read the file.
            with opened(pipe, started) as writer:
                if given != CALLS:
                    pathlib.Path(name).write_bytes(CALLS + b"\n")
                writer.write(given)
            written, errors = started.communicate(timeout=SECONDS)
        told = f"error: couldn't write {told}\n".encode()
        wants("the run", (started.returncode, written, errors), (1, b"", told))
        holds(name, CALLS if given == CALLS else CALLS + b"\n")
    wants("what is beside them", new_files(files), [])


def try_no_files(files):
    """`--write` wants files, and several files want an option that says where they go."""
    for words, told in (
        (("--write",), "--write wants files"), (("--write", "-"), "--write wants files"),
        (("a", "b"), "several files want --write or --diff"),
    ):
        wants("the run", files.run("expand", *words), (2, b"", f"error: {told}\n".encode()))


# ---- diffs

def patched(text, diff):
    """The text with a unified diff applied to it."""
    old, new, at = text.splitlines(keepends=True), [], 0
    lines = diff.splitlines(keepends=True)[2:]
    for place, line in enumerate(lines):
        if line.startswith(b"\\"):
            continue
        if place + 1 < len(lines) and lines[place + 1].startswith(b"\\"):
            line = line[:-1]
        if line.startswith(b"@@"):
            start, count = re.match(rb"@@ -(\d+)(?:,(\d+))? ", line).groups()
            start = int(start) - (count != b"0")
            new += old[at:start]
            at = start
        elif line.startswith(b"+"):
            new.append(line[1:])
        else:
            wants("a line of the diff", line[1:], old[at])
            new += old[at:at + 1] if line.startswith(b" ") else []
            at += 1
    return b"".join(new + old[at:])


def try_diff(files):
    """`expand --diff` shows the lines that change, three lines around them, and writes no file."""
    name = files.made("shown.rs", CALLS)
    other = files.made("unchanged.rs", RULES)
    told = (
        f"--- {name}\n+++ {name}\n@@ -1,2 +1,2 @@\n macro_rules! m {{ () => {{ 1 + 2 }}; }}\n"
        "-const A: u8 = 2 * m!();\n+const A: u8 = 2 * (1 + 2);\n"
    )
    files.gives(told.encode(), "expand", "--diff", name, other)
    files.gives(told.replace(name, "<stdin>").encode(), "expand", "--diff", given=CALLS)
    holds(name, CALLS)
    status, written, _ = files.run("expand", "--diff", files.made("wrong.rs", FAULTY), name)
    wants("the run with an error", (status, written), (1, told.encode()))


def try_diffs(files, examples):
    """A diff of an example, applied to it, gives the text that `expand` writes."""
    tried = 0
    for example in sorted(examples.glob("**/*.rs")):
        status, expanded, _ = files.run("expand", str(example))
        if status == 0:
            status, diff, _ = files.run("expand", "--diff", str(example))
            wants(f"{example.name}", (status, patched(example.read_bytes(), diff)), (0, expanded))
            tried += bool(diff)
    if tried < 10:
        raise Wrong(f"only {tried} examples change")


def tried(files, examples):
    """Each thing that is tried, by its name."""
    for try_one in (
        try_limited, try_own_input, try_replaced, try_device, try_written, try_written_without_rules, try_unwritten, try_unwritten_whole,
        try_changed_meanwhile, try_no_files, try_diff,
    ):
        yield try_one.__name__.removeprefix("try_").replace("_", " "), lambda try_one=try_one: try_one(files)
    yield "diffs of examples", lambda: try_diffs(files, examples)
