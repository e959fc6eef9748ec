"""Judges the library for other languages: by a program in C, the tests of the crate in rust/ and those of the module in python/, by bytes that
are cut and changed, by several threads, and by README's example in each of the three languages. The first argument is lib/build.

It prints a line for each thing that it tries. One that begins with `skipped` says that something for it is missing here."""

import concurrent.futures
import os
import pathlib
import random
import re
import shutil
import subprocess
import sys
import tempfile

ROOT = pathlib.Path(__file__).resolve().parent.parent
LIBRARIES = ROOT / "lib" / "out"
SECONDS = 600
# How long the library may take to be proved and built, if nothing of that is kept.
BUILD_SECONDS = 7200
THREADS = 8
# Lines of a long text.
LINES = 160_000
DEPTH = 300000

sys.path.insert(0, str(ROOT / "python"))

# Texts of all sorts of tokens, with brackets in one another.
TEXTS = (
    "",
    "a",
    "fn main() { print!(\"é\", 'x', b\"\\x41\", 1.5e3f32); }",
    "/// told\nstruct S<'a> { r#in: &'a [u8; 0x10_usize] } // left out",
    "macro_rules! m { ($($x:expr),* $(,)?) => { [$($x),*] } } m!(1 + 2, (3))",
    "a->b=>c..=d::e&&f||g<<=h",
)


class Wrong(Exception):
    """Something is not as it has to be."""


class Missing(Exception):
    """Something is missing here that a thing needs to be tried."""


def run(*words, folder=ROOT, seconds=SECONDS, **more):
    """The lines of what a program prints that must end well."""
    done = subprocess.run(words, cwd=folder, capture_output=True, text=True, timeout=seconds, check=False, **more)
    if done.returncode != 0:
        raise Wrong(f"{words[0]} ended with status {done.returncode}: {(done.stderr or done.stdout)[-400:]}")
    return done.stdout.splitlines() + done.stderr.splitlines()


def compiler():
    """A C compiler."""
    found = shutil.which("cc") or shutil.which("clang")
    if not found:
        raise Missing("neither cc nor clang is on PATH")
    return found


def cargo(room, *words, **more):
    """What cargo prints if it builds in a folder of its own and asks no network."""
    if not shutil.which("cargo"):
        raise Missing("cargo is not on PATH")
    environment = {**os.environ, "CARGO_TARGET_DIR": str(room / "target"), "CUVOLEMIN_LIB_DIR": str(LIBRARIES)}
    return run("cargo", words[0], "--offline", "--quiet", *words[1:], folder=ROOT / "rust", env=environment, **more)


def c_program(room, source):
    """A program in C that is linked with the static library."""
    made = room / pathlib.Path(source).stem
    run(compiler(), "-std=c11", "-O2", "-Wall", "-Wextra", "-Werror", f"-I{ROOT}/include", str(ROOT / source), str(LIBRARIES / "libcuvolemin.a"),
        "-lpthread", "-o", str(made))
    return made


def try_build(_room):
    """The library is built."""
    run(*sys.argv[1:], seconds=BUILD_SECONDS)


def try_c(room):
    """What the program in C finds, and that it ends well."""
    return run(str(c_program(room, "checks/library.c")))


def try_shared_c(room):
    """The same program with the shared library."""
    made = room / "shared"
    run(compiler(), "-std=c11", f"-I{ROOT}/include", str(ROOT / "checks/library.c"), f"-L{LIBRARIES}", f"-Wl,-rpath,{LIBRARIES}", "-lcuvolemin",
        "-lpthread", "-o", str(made))
    if not all(line.startswith("ok ") for line in run(str(made))):
        raise Wrong("the program in C with the shared library")


def try_rust(room):
    """The tests of the crate."""
    for line in cargo(room, "test", "--", "--format", "pretty"):
        if told := re.match(r"test (\S+) \.\.\. (\S+)", line):
            yield f"{'ok' if told[2] == 'ok' else 'FAILED'} Rust: {told[1].replace('_', ' ')}"


def try_python(_room):
    """The tests of the module."""
    for line in run(sys.executable, "-m", "unittest", "-v", "test_cuvolemin", folder=ROOT / "python"):
        if told := re.match(r"test_(\w+).* \.\.\. (\S+)", line):
            yield f"{'ok' if told[2] == 'ok' else 'FAILED'} Python: {told[1].replace('_', ' ')}"


# Where the faults are listed: the sentence of each, its name and its number. The first table is the source of the others.
FAULT_TABLES = {
    "crates/app_c/src/fault.rt": r"^    /// (?P<sentence>.+)\n    (?P<name>\w+) = (?P<number>\d+),",
    "include/cuvolemin.h": r"^    /\* (?P<sentence>.+) \*/\n    CUVOLEMIN_(?P<name>\w+) = (?P<number>[1-9]\d*),",
    "rust/src/fault.rs": r'^    (?P<name>\w+) = (?P<number>\d+), "(?P<sentence>.+)";',
    "python/cuvolemin.py": r"^    (?P<number>\d+): \('(?P<name>\w+)', (?:'|\")(?P<sentence>.+)(?:'|\")\),",
}


def table(file, pattern):
    """The faults of a file by number: the name without marks between words, and the sentence without spaces and backslashes."""
    rows = re.finditer(pattern, (ROOT / file).read_text(), re.MULTILINE)
    return {int(row["number"]): (row["name"].replace("_", "").lower(), re.sub(r"[ \\]", "", row["sentence"])) for row in rows}


def try_tables(_room):
    """The tables of faults have the same names, numbers and sentences everywhere."""
    wanted, *others = (table(file, pattern) for file, pattern in FAULT_TABLES.items())
    if len(wanted) < 60:
        raise Wrong("fault.rt has no table")
    for file, found in zip(list(FAULT_TABLES)[1:], others):
        if found != wanted:
            raise Wrong(f"{file} has another table: {sorted(set(found.items()) ^ set(wanted.items()))}")


def judge_tokens(tree):
    """Each token that closes a subtree belongs to the last one that is open."""
    inner = []
    for token in tree.tokens():
        if token.sort == "open":
            inner.append(token.kind)
        elif token.sort == "close" and (not inner or inner.pop() != token.kind):
            raise Wrong(f"{bytes(tree).hex()} has a token that closes no subtree")
    if inner:
        raise Wrong(f"{bytes(tree).hex()} has a subtree that no token closes")


def judge_bytes(data):
    """Bytes are a tree's, and then its text reads back, or they are refused at one of them, by each function alike."""
    import cuvolemin

    arms, fine = cuvolemin.parse("(a) => {}"), cuvolemin.parse("a")
    try:
        tree = cuvolemin.Tree(data)
    except cuvolemin.Error as error:
        if not 60 <= error.number <= 64 or error.at > len(data):
            raise Wrong(f"{data.hex()} refused by {error.number} at {error.at}") from error
        unchecked = cuvolemin.Tree._of(data)
        for add, call in (
            (0, unchecked.to_text), (0, unchecked.tokens), (0, lambda: unchecked.expand(fine)), (10, lambda: arms.expand(unchecked))
        ):
            try:
                call()
            except cuvolemin.Error as other:
                if (other.number, other.at) == (error.number + add, error.at):
                    continue
            raise Wrong(f"{data.hex()} is not refused by each function alike") from error
        return False
    judge_tokens(tree)
    try:
        text = tree.to_text()
    except cuvolemin.Error as error:
        if error.number != 105:
            raise Wrong(f"{data.hex()} is not written for {error.number}") from error
        return True
    once = cuvolemin.parse(text).to_text()
    if cuvolemin.parse(once).to_text() != once:
        raise Wrong(f"{data.hex()} has a text that reads back as another")
    return True


def pieces():
    """The bytes of the trees of the texts."""
    import cuvolemin

    return [bytes(cuvolemin.parse(text)) for text in TEXTS]


def try_cut_bytes(_room):
    """No front of a tree's bytes is a tree's, nor is what has more behind it."""
    for data in pieces():
        if not judge_bytes(data):
            raise Wrong(f"{data.hex()} is refused")
        for end in range(len(data)):
            if judge_bytes(data[:end]):
                raise Wrong(f"{data[:end].hex()} is taken")
        if judge_bytes(data + b"\0"):
            raise Wrong(f"{data.hex()}00 is taken")


def try_changed_bytes(_room):
    """Each byte of a tree's changed: by each bit, to the lowest and to the highest."""
    for data in pieces():
        for at, byte in enumerate(data):
            for other in {byte ^ 1 << bit for bit in range(8)} | {0, 255}:
                judge_bytes(data[:at] + bytes([other]) + data[at + 1 :])


def try_random_bytes(_room):
    """Bytes by chance, behind a right mark and behind none."""
    chance = random.Random(20)
    for _ in range(3000):
        data = chance.randbytes(chance.randrange(60))
        judge_bytes(data)
        judge_bytes(b"tt\1\0" + bytes(chance.choice((0, 1, 2, 255)) for _ in range(12)) + data)


def try_random_texts(_room):
    """Bytes by chance as a text: refused at one of them, or a tree whose text reads back."""
    import cuvolemin

    chance = random.Random(21)
    marks = [b"a", b"'", b'"', b"(", b")", b"{", b"}", b"#", b"/", b"*", b"r", b"0", b"x", b"\\", b" ", b"\xff", "é".encode(), b"$", b"!"]
    for _ in range(5000):
        text = b"".join(chance.choices(marks, k=chance.randrange(12)))
        try:
            if cuvolemin.expand(text).encode() != text:
                raise Wrong(f"{text} defines no macro, and is changed")
            judge_bytes(bytes(cuvolemin.parse(text)))
        except cuvolemin.Error as error:
            if not (error.number == 3 or 10 <= error.number <= 44) or error.at > len(text):
                raise Wrong(f"{text} refused by {error.number} at {error.at}") from error
            if (error.number == 3) == is_utf8(text):
                raise Wrong(f"{text} is UTF-8, or is not") from error


def is_utf8(text):
    """Whether bytes are UTF-8."""
    try:
        text.decode()
    except UnicodeDecodeError:
        return False
    return True


def try_deep(_room):
    """A text with many brackets one in the other, on the stack that the interpreter has."""
    import cuvolemin

    text = "(" * DEPTH + "a" + ")" * DEPTH
    tree = cuvolemin.parse(text)
    if tree.to_text() != text or len(tree.tokens()) != len(text):
        raise Wrong("brackets one in the other are written otherwise, or have other tokens")
    try:
        cuvolemin.parse("(" * DEPTH)
    except cuvolemin.Error as error:
        if (error.name, error.at) == ("Unclosed", DEPTH - 1):
            return
    raise Wrong("brackets that are open at the end give no fault")


def try_threads(_room):
    """Several threads read, write and expand at once, and each gets what one alone gets."""
    import cuvolemin

    arms = cuvolemin.parse("($($x:tt),*) => { [$($x)*] }")
    text = ", ".join(str(number) for number in range(2000))
    alone = arms.expand(cuvolemin.parse(text))

    def work(_):
        return all(arms.expand(cuvolemin.parse(text)) == alone for _ in range(5))

    with concurrent.futures.ThreadPoolExecutor(THREADS) as pool:
        if not all(pool.map(work, range(THREADS))):
            raise Wrong("a thread made something else than one alone")


def example():
    """README's example: a text, and what it becomes."""
    section = (ROOT / "README.md").read_text().split("## From C, Rust and Python\n")[1].split("\n## ")[0]
    return re.findall(r"^```rust\n(.*?)^```", section, re.MULTILINE | re.DOTALL)


def expects_example(written):
    """What was written for README's example is what README shows."""
    if written != example()[1]:
        raise Wrong(f"README's example becomes {written}")


def try_readme_c(room):
    """README's example in C."""
    expects_example(subprocess.run([c_program(room, "examples/embedding/expand.c")], input=example()[0], capture_output=True, text=True,
                                   timeout=SECONDS, check=True).stdout)


def try_long_c(room):
    """A text of some 3 MB in C, all of which is read."""
    define = "macro_rules! m { () => { 1 } }\n"
    made = subprocess.run([c_program(room, "examples/embedding/expand.c")], input=define + "const A: u8 = m!();\n" * LINES,
                          capture_output=True, text=True, timeout=SECONDS, check=True).stdout
    if made != define + "const A: u8 = 1;\n" * LINES:
        raise Wrong(f"a text of {LINES} lines becomes one of {made.count(chr(10))}")


def try_stack(room):
    """1,000 expansions inside one another, and none, on the stack that the header says."""
    made = c_program(room, "checks/stack.c")
    for depth, size in ((999, 64), (0, 64)):
        done = subprocess.run([made, str(depth), str(size << 10)], capture_output=True, text=True, timeout=SECONDS, check=False)
        if (done.returncode, done.stdout) != (0, "0\n"):
            raise Wrong(f"{depth} calls inside one another on {size} KiB: status {done.returncode}, {done.stdout!r}")


def try_no_text(_room):
    """What is neither a str nor bytes is refused."""
    import cuvolemin

    for call in (cuvolemin.parse, cuvolemin.expand, cuvolemin.expand_with):
        for value in (5, None, [1]):
            try:
                call(value)
            except TypeError:
                continue
            raise Wrong(f"{call.__name__}({value}) is not refused")


def try_cases(_room):
    """The cases of the program."""
    import library_cases

    text = (ROOT / "examples" / "rust" / "small.cases").read_text(encoding="utf-8")
    judged = [library_cases.judged(case) for case in text.rstrip("\n").split("\n\n")]
    if others := [why for why in judged if why]:
        raise Wrong("; ".join(others))
    if judged.count("") < 100:
        raise Wrong("the cases have other options than the library")


def try_valgrind(room):
    """The program in C of the examples under valgrind, over texts that are expanded and ones that are refused: nothing is read that was not
    written, and all memory is given back."""
    if not shutil.which("valgrind"):
        raise Missing("valgrind is not on PATH")
    made = c_program(room, "examples/embedding/expand.c")
    for name, status in (("nested", 0), ("squared", 0), ("faults", 1), ("mismatched", 1)):
        text = (ROOT / "examples" / "rust" / f"{name}.rs").read_bytes()
        done = subprocess.run(["valgrind", "--quiet", "--leak-check=full", "--error-exitcode=9", str(made)], input=text, capture_output=True,
                              timeout=SECONDS, check=False)
        if done.returncode != status:
            raise Wrong(f"{name}.rs ended with status {done.returncode}: {done.stderr.decode(errors='replace')[:300]}")


def try_readme_rust(room):
    """README's example in Rust."""
    expects_example("\n".join(cargo(room, "run", "--example", "expand", input=example()[0])) + "\n")


def try_readme_python(_room):
    """README's example in Python."""
    import cuvolemin

    expects_example(cuvolemin.expand(example()[0]))


TRIED = {
    "C": try_c,
    "C with the shared library": try_shared_c,
    "Rust": try_rust,
    "Python": try_python,
    "README's example in C": try_readme_c,
    "C: a long text": try_long_c,
    "C: a small stack": try_stack,
    "C under valgrind": try_valgrind,
    "README's example in Rust": try_readme_rust,
    "README's example in Python": try_readme_python,
    "Python: what is no text": try_no_text,
    "Python: the cases of the program": try_cases,
    "tables of faults": try_tables,
    "Python: bytes that are cut": try_cut_bytes,
    "Python: bytes that are changed": try_changed_bytes,
    "Python: bytes by chance": try_random_bytes,
    "Python: texts by chance": try_random_texts,
    "Python: deep brackets": try_deep,
    "Python: several threads at once": try_threads,
}


def main():
    """Builds the library, tries all, and says of each how it went."""
    failed = False
    with tempfile.TemporaryDirectory() as room:
        for name, try_one in {"lib/build": try_build, **TRIED}.items():
            try:
                lines = try_one(pathlib.Path(room))
                for line in [f"ok {name}"] if lines is None else lines:
                    failed = failed or not line.startswith("ok ")
                    print(line, flush=True)
            except Missing as why:
                print(f"skipped {name}: {why}", flush=True)
            except (Wrong, OSError, ValueError, subprocess.SubprocessError) as why:
                failed = True
                line = str(why).replace("\n", " ")
                print(f"FAILED {name}: {line}", flush=True)
    return int(failed)


if __name__ == "__main__":
    sys.exit(main())
