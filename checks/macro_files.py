"""The commands `expand` and `check` of `cuvolemin` over files; files.py runs them.

Beside a text of examples/rust with macros is what `expand --one-line` must write for it (`.expanded`), and which diagnostics it must report
(`.messages`). The file small.cases there has one text after the other, each with a name, options, and both. layout.py tries `expand` without
that option.
"""
import os
import pty
import re

from program_files import SECONDS, Wrong, wants

LINES = 100_000
DEPTH = 100_000
CALLS = 10_000
# Diagnostics of a file that are shown.
SHOWN = 100
MOST_LIMIT = 1000
MISSING = "error: couldn't read /no/file: No such file or directory (os error 2)\n"
ONE_ERROR = "\nerror: found 1 error\n"
DEFINITION = b"macro_rules! m { ($a:tt, $b:tt) => { $a + $b }; }\n"


# The keywords of edition 2024 by the Rust reference, strict and reserved, and `_`.
KEYWORDS = """as async await break const continue crate dyn else enum extern false fn for gen if impl in let loop match mod move mut pub
ref return self Self static struct super trait true type unsafe use where while abstract become box do final macro override priv try
typeof unsized virtual yield _""".split()

# Options of `expand` that `check` does not have.
DROPS = ("--drop-rules", "--drop-exported")


# The diagnostic of a syntax error, in front of all others, and the line that counts errors and warnings.
SYNTAX_ERROR = re.compile(rb"error: (?:un)?expected [^\n]*\n +--> .*?\n\n", re.S)
COUNTS = re.compile(rb"(?:error|warning): found (?:(\d+) errors?)?(?: and )?(?:(\d+) warnings?)?\n\Z")


def count_line(errors, warnings):
    """The line that counts them; nothing if there are none."""
    words = [f"{count} {word}{'s' * (count != 1)}" for count, word in ((errors, "error"), (warnings, "warning")) if count]
    return f"{'error' if errors else 'warning'}: found {' and '.join(words)}\n".encode() if words else b""


def without_syntax_error(status, written, told):
    """What a run of `check` gives without the syntax error that it reports first; syntax.py tries syntax errors."""
    error = SYNTAX_ERROR.match(told)
    if not error:
        return status, written, told
    rest = told[error.end() :]
    counts = COUNTS.search(rest)
    errors, warnings = (int(it or 0) for it in counts.groups())
    return int(errors > 1), written, rest[: counts.start()] + count_line(errors - 1, warnings)


def judge(files, written, told, *words, given=b"", is_file=True):
    """Refuses a run of `expand --one-line` or `check` that does not write and report that; None is a text that has an error."""
    options, names = words[:-1], words[-1]
    status = int(written is None)
    found = files.run("expand", "--one-line", *options, names, given=given)
    wants("what is expanded", found, (status, written or b"", told.encode()))
    found = files.run("check", *(it for it in options if it not in DROPS), names, given=given)
    wants("what is checked", found if is_file else without_syntax_error(*found), (status, b"", told.encode()))


# ---- the examples

def try_expanded(files, example):
    """The files beside it have its expansion and its diagnostics: from a file, and from standard input."""
    written, told = None, ""
    if example.with_suffix(".expanded").exists():
        written = example.with_suffix(".expanded").read_bytes()
    if example.with_suffix(".messages").exists():
        told = example.with_suffix(".messages").read_text(encoding="utf-8")
    judge(files, written, told.replace("FILE", str(example)), str(example))
    judge(files, written, told.replace("FILE", "<stdin>"), "-", given=example.read_bytes())


def tried_example(files, example):
    """What is tried of an example, by its name."""
    if example.with_suffix(".expanded").exists() or example.with_suffix(".messages").exists():
        return [(f"expansion of {example.name}", lambda: try_expanded(files, example))]
    return []


def parts_of(case):
    """The name, the options, the text, the expansion and the diagnostics of a case: its lines by their first characters."""
    lines = {sign: [] for sign in "#$<>!"}
    for line in case.split("\n"):
        if line[:2].rstrip() not in lines:
            raise Wrong(f"a line of a case: {line}")
        lines[line[0]].append(line[2:])
    name, = lines["#"]
    options = " ".join(lines["$"]).split()
    written = "\n".join(lines[">"]).encode() if lines[">"] else None
    told = "".join(f"{line}\n" for line in lines["!"])
    return name, options, "\n".join(lines["<"]).encode(), written, told


def tried_cases(files, path):
    """What is tried of the cases of a file, by their names."""
    for case in path.read_text(encoding="utf-8").rstrip("\n").split("\n\n"):
        name, options, text, written, told = parts_of(case)
        yield f"case: {name}", lambda options=options, text=text, written=written, told=told: judge(
            files, written, told, *options, "-", given=text, is_file=False
        )


# ---- other files

def try_missing(files):
    """A file that is not there, a folder, and one that may not be read."""
    judge(files, None, MISSING + ONE_ERROR, "/no/file")
    judge(files, None, "error: couldn't read /: Is a directory (os error 21)\n" + ONE_ERROR, "/")
    for command in ("expand", "check"):
        status, written, told = files.run(command, "/proc/self/mem")
        wants("the run", (status, written), (1, b""))
        if not told.startswith(b"error: couldn't read /proc/self/mem: "):
            raise Wrong(f"the diagnostic is: {told[:200]}")


def try_several(files):
    """What is wrong with one file does not hide what is wrong with the next; one that is right says nothing."""
    right = files.made("right", DEFINITION + b"const A: u8 = m!(1, 2);")
    wrong = files.made("wrong", DEFINITION + b"m!(1);\nm!(2);")
    open_ = files.made("open", b"a (")
    text = "macro_rules! k { ($a:nix) => {}; } k!(1);"
    left = files.made("left", text.encode())
    calls = "".join(
        f"error: no rule of `m` matches this\n --> {wrong}:{line}:5\n  |\n{line} | m!({line - 1});\n  |     ^\n  = note: expected `,` (rule 1)\n"
        f"note: `m` is defined here\n --> {wrong}:1:14\n  |\n1 | {DEFINITION.decode()}  |              ^\n\n"
        for line in (2, 3)
    )
    unclosed = f"error: unclosed '('\n --> {open_}:1:3\n  |\n1 | a (\n  |   ^\n\n"
    faulty = (
        f"error: this variable names an unknown fragment\n --> {left}:1:19\n  |\n"
        f"1 | {text}\n  |                   ^\n\n"
        f"warning: this call of `k` is left as it is\n --> {left}:1:36\n  |\n"
        f"1 | {text}\n  |                                    ^\n"
        f"note: `k` is defined here\n --> {left}:1:14\n  |\n1 | {text}\n  |              ^\n\n"
    )
    names = (right, open_, "/no/file", left, wrong, right)
    told = f"{unclosed}{MISSING}\n{faulty}{calls}error: found 5 errors and 1 warning\n"
    wants("the run", files.run("check", *names), (1, b"", told.encode()))
    wants("the run", files.run("check", right, left, right), (1, b"", f"{faulty}error: found 1 error and 1 warning\n".encode()))
    syntax = "error: expected one of `::` or `!`, found end of file\n --> <stdin>:1:2\n  |\n1 | a\n  |  ^\n\nerror: found 1 error\n"
    wants("the run", files.run("check", right, "-", given=b"a"), (1, b"", syntax.encode()))


def try_empty(files):
    """An empty text stays as it is, and so does one that is nothing but a mark of its order of bytes."""
    judge(files, b"", "", files.made("empty", b""))
    judge(files, b"\xef\xbb\xbf", "", files.made("mark", b"\xef\xbb\xbf"))


def try_no_utf8(files):
    """Bytes that are no UTF-8."""
    name = files.made("bytes", b"fn \xff")
    judge(files, None, f"error: {name} is not UTF-8 at byte 3\n{ONE_ERROR}", name)


def try_bytes_stay(files):
    """What is no call stays byte for byte: a mark in front, ends of lines, white space, comments, characters of any width."""
    text = "\ufeff" + DEFINITION.decode().replace("\n", "\r\n") + "é\t= m!(1, 2) ; // 漢 \r\n\r\n \tx\u0301 /* m!(1) */ 'a'\r\n"
    judge(files, text.replace("m!(1, 2)", "1 + 2").encode(), "", files.made("text", text.encode()), is_file=False)
    wrong = files.made("text", text.replace("m!(1, 2)", "m!(1)").encode())
    told = (
        f"error: no rule of `m` matches this\n --> {wrong}:2:9\n  |\n2 | é\t= m!(1) ; // 漢 \n  |  \t      ^\n  = note: expected `,` (rule 1)\n"
        f"note: `m` is defined here\n --> {wrong}:1:14\n  |\n1 | {DEFINITION.decode()}  |              ^\n{ONE_ERROR}"
    )
    judge(files, None, told, wrong, is_file=False)


def try_first_line(files):
    """A first line that names a program stays as it is, also behind a mark of the order of bytes, and no place shifts."""
    line = "#!/usr/bin/env it's\n"
    for mark in ("", "\ufeff"):
        text = f"{mark}{line}{DEFINITION.decode()}const A: u8 = m!(1, 2);"
        name = files.made("script", text.encode())
        judge(files, text.replace("m!(1, 2)", "1 + 2").encode(), "", name)
    wrong = files.made("wrong", f"{line}{DEFINITION.decode()}m!(1)".encode())
    told = (
        f"error: no rule of `m` matches this\n --> {wrong}:3:5\n  |\n3 | m!(1)\n  |     ^\n  = note: expected `,` (rule 1)\n"
        f"note: `m` is defined here\n --> {wrong}:2:14\n  |\n2 | {DEFINITION.decode()}  |              ^\n{ONE_ERROR}"
    )
    judge(files, None, told, wrong, is_file=False)
    only = f"{line}a".encode()
    judge(files, only, "", "-", given=only, is_file=False)
    judge(files, line.encode(), "", "-", given=line.encode())
    files.gives(line.strip().encode(), "expand", "-", given=line.strip().encode())


def try_cut_lines(files):
    """Of a long line at most 160 characters are shown, from 60 before the mark on, and two points where characters are left out."""
    const = "const A: u8 = 1; "
    for front, behind in ((0, 0), (0, 20), (3, 20), (4, 20), (20, 0), (20, 20)):
        line = const * front + "m!(1); " + const.replace("A", "\u00c9") * behind
        mark = len(const) * front + len("m!(1")
        cut = max(mark - 60, 0) if len(line) > 160 else 0
        part = line[cut : cut + 160] if len(line) > 160 else line
        shown = ".." * (cut > 0) + part + ".." * (cut + len(part) < len(line))
        under = " " * (2 * (cut > 0) + mark - cut)
        wrong = files.made(f"line{front}-{behind}", DEFINITION + line.encode())
        told = (
            f"error: no rule of `m` matches this\n --> {wrong}:2:{mark + 1}\n  |\n2 | {shown}\n  | {under}^\n"
            f"  = note: expected `,` (rule 1)\nnote: `m` is defined here\n --> {wrong}:1:14\n  |\n1 | {DEFINITION.decode()}  |              ^\n{ONE_ERROR}"
        )
        judge(files, None, told, wrong)


def try_controls(files):
    """No diagnostic has a character that controls a terminal: neither the line of a text, nor what is expected or found."""
    text = "macro_rules! m { (\"\x1b[2J\") => {} } m!(b); /* \x1b[31m \x9b31m \u202e \x07 */\n"
    line = re.sub("[\x1b\x9b\u202e\x07]", "\ufffd", text)
    at = text.index("b)")
    told = (
        f"error: no rule of `m` matches this\n --> <stdin>:1:{at + 1}\n  |\n1 | {line}  | {' ' * at}^\n  = note: expected a token (rule 1)\n"
        f"note: `m` is defined here\n --> <stdin>:1:14\n  |\n1 | {line}  |              ^\n{ONE_ERROR}"
    )
    judge(files, None, told, "-", given=text.encode(), is_file=False)
    status, written, told = files.run("check", "-", given=b"fn f() { a \"\x1b[2J\" }")
    wants("the run", (status, written, b"\x1b" in told), (1, b"", False))


def try_only(files):
    """A note says that no macro has the name of `--only`, or that calls are left; white space, comments and rules of macros do not count."""
    text = b"macro_rules! m { () => { 1 }; (a) => { m!() } } macro_rules ! /* k */ r#k { () => { m!() } } n!(m!(), m !{}, r#m![], m != a)"
    none = b"note: <stdin> defines no macro `a`\n"
    wants("a name without macro", files.run("expand", "--only", "a", "-", given=text), (0, text, none))
    left = b"note: calls of `m` that are left: 3; --everywhere expands those in the brackets of other calls\n"
    wants("calls that are left", files.run("expand", "--only", "m", "-", given=text), (0, text, left))
    wants("a macro that is not called", files.run("expand", "--only", "k", "-", given=text), (0, text, b""))
    done = text.replace(b"m!(), m !{}, r#m![]", b"1, 1, 1")
    wants("calls everywhere", files.run("expand", "--only", "m", "--everywhere", "-", given=text), (0, done, b""))


# Patterns of rules. For each variable that the compiler refuses: the columns of what may not follow it and of the variable, what it takes, and
# what may follow.
EXPRESSION, TYPE = "`=>`, `,` or `;`", "`{`, `[`, `=>`, `,`, `>`, `=`, `:`, `;`, `|`, `as` or `where`"
FOLLOWED = (
    ("$a:expr + $b:expr", [(9, 1, "expr", EXPRESSION)]),
    ("$a:expr, $b:expr => $c:stmt; $d:tt $e:ident", []),
    ("$p:pat | $q:pat", [(8, 1, "pat", "`=>`, `,`, `=`, `if` or `in`")]),
    ("$p:pat_param | $q:pat if $e:expr", []),
    ("$t:ty $(; $n:ident)? + $p:path { $b:block }", [(22, 1, "ty", TYPE)]),
    ("$v:vis fn [$t:ty]", []),
    ("$v:vis $crate", []),
    ("$v:vis $", [(8, 1, "vis", "`,`, an ident or a type")]),
    ("$v:vis + $(- $t:ty)*", [(8, 1, "vis", "`,`, an ident or a type")]),
    ("$($e:expr)+ $i:item", [(13, 3, "expr", EXPRESSION)]),
    ("$($e:expr)* $(a)*", [(15, 3, "expr", EXPRESSION)]),
    ("[$($s:stmt)-*] ($t:ty)", [(11, 3, "stmt", EXPRESSION)]),
)


def try_followed(files):
    """`check` warns of what the compiler does not allow behind a variable of a rule, in each rule; `expand` does not."""
    for pattern, faults in FOLLOWED:
        rule = f"({pattern}) => {{}}"
        text = f"macro_rules! m {{ (a) => {{}}; {rule} }}".encode()
        start, told = text.index(b"$"), b""
        for following, variable, fragment, allowed in faults:
            places = [f" --> <stdin>:1:{start + column}\n  |\n1 | {text.decode()}\n  | {' ' * (start + column - 1)}^\n" for column in (following, variable)]
            message = f"warning: the compiler does not allow this behind a variable of `{fragment}`\n"
            told += f"{message}{places[0]}  = note: allowed there: {allowed}\nnote: the variable is here\n{places[1]}\n".encode()
        wants(pattern, files.run("check", "-", given=text), (0, b"", told + count_line(0, len(faults))))
        wants("another name", files.run("check", "--only", "n", "-", given=text)[:2], (0, b""))
        wants("what is expanded", files.run("expand", "-", given=text), (0, text, b""))


# Rules whose templates show a fault at `§`, and the fault.
STILL_REPEATS, NOTHING_REPEATS = "this variable is still repeating at this depth", "this repetition contains no variable that repeats"
SHOWING = (
    ("($($x:tt)*) => {f(§$x)}", STILL_REPEATS),
    ("($($($x:tt)+),*) => {$($crate::f(§$x))*}", STILL_REPEATS),
    ("($x:tt) => {§$($x)*}", NOTHING_REPEATS),
    ("($($x:tt)+) => {$crate::g!(a $($x§$(b)*)*)}", NOTHING_REPEATS),
)


def try_shown(files):
    """`check` warns of a fault that the template of a rule shows, unless a call comes to it: that is an error. `expand` does not."""
    for marked, words in SHOWING:
        text = f"macro_rules! m {{ (a) => {{1}}; {marked} }} const A: u8 = m!(a);"
        column = text.index("§")
        text = text.replace("§", "")
        place = " --> <stdin>:1:{}\n  |\n1 | {}\n  | {}^\n"
        message = f"rule 2 of `m`: {words}\n"
        told = f"warning: {message}{place.format(column + 1, text, ' ' * column)}  = note: a call that comes to this is an error\n\n"
        wants(marked, files.run("check", "-", given=text.encode()), (0, b"", told.encode() + count_line(0, 1)))
        wants("another name", files.run("check", "--only", "n", "-", given=text.encode())[:2], (0, b""))
        wants("what is expanded", files.run("expand", "-", given=text.encode()), (0, text.replace("m!(a)", "1").encode(), b""))
        called = f"{text} const B: u8 = m!(b);"
        call = called.index("m!(b)")
        told = f"error: {message}{place.format(call + 1, called, ' ' * call)}note: `m` is defined here\n{place.format(14, called, ' ' * 13)}"
        judge(files, None, f"{told}{ONE_ERROR}", "-", given=called.encode())


def try_options(files):
    """Values that options have not."""
    for words in (("--limit", "0"), ("--limit", str(MOST_LIMIT + 1)), ("--limit", "x"), ("--limit=-1",), ("--limit",)):
        status, written, told = files.run("expand", *words)
        wants("the run", (status, written), (2, b""))
        if b"--limit" not in told:
            raise Wrong(f"the diagnostic is: {told[:200]}")
    for option in ("--crate", "--only"):
        for value in ("", "a b", "1", "a-b", "r#a", "r#", "r#r#a", "é "):
            if (option, value) != ("--only", "r#a"):
                shown = f'error: "{value}" is no name, as {option} wants one\n'
                wants("the run", files.run("expand", option, value), (2, b"", shown.encode()))


def try_keywords(files):
    """No keyword is the name of a macro: what looks like its definition and its call stays."""
    for word in KEYWORDS:
        text = f"macro_rules! {word} {{ () => {{ 1 }} }} fn f() {{ a({word}!()) }}".encode()
        judge(files, text, "", "-", given=text, is_file=False)


def try_seams(files):
    """A value touches white space and brackets as it is; a punct that would become joint gets a space."""
    define = b"macro_rules! m { () => {b} } macro_rules! k { () => {-} } "
    for gap in (b" ", b"\t", b"\r\n", b"\n"):
        judge(files, define + b"f(a," + gap + b"b" + gap + b")", "", "-", given=define + b"f(a," + gap + b"m!()" + gap + b")", is_file=False)
    for sign in b",;@~":
        judge(files, define + b"f(a%c - ,b)" % sign, "", "-", given=define + b"f(a%ck!(),b)" % sign, is_file=False)


def try_deep(files):
    """Brackets in one another, in a text and in an input."""
    deep = b"(" * DEPTH + b")" * DEPTH
    judge(files, deep, "", "-", given=deep, is_file=False)
    judge(files, DEFINITION + b"x = " + deep + b" + 1", "", "-", given=DEFINITION + b"x = m!(" + deep + b", 1)", is_file=False)


def try_forever(files):
    """A macro that calls itself forever ends when it comes too deep, also if each call makes two or its limit is high."""
    for options in ((), ("--limit", str(MOST_LIMIT))):
        text = b"macro_rules! m { ($($a:tt)*) => { m!($($a)* a) + m!() }; } m!()"
        status, written, told = files.run("expand", *options, given=text)
        wants("the run", (status, written), (1, b""))
        wants("the message", told.split(b"\n")[0], b"error: recursion limit reached while expanding `m`")
        wants("the count", told.split(b"\n")[-2], b"error: found 1 error")


def try_long(files):
    """A text of 10 MB and more with many calls, and one with many faults."""
    lines = b"let a = m!(1, 2); // what follows a call stays as it is, and so do all the bytes that are between two of them\n"
    text = DEFINITION + lines * LINES
    wants("how long it is", len(text) > 10_000_000, True)
    files.gives(text.replace(b"m!(1, 2)", b"1 + 2"), "expand", files.made("long", text))
    name = files.made("wrong", DEFINITION + b"m!(1);\n" * CALLS)
    status, written, told = files.run("check", name)
    wants("the run", (status, written), (1, b""))
    wants("the count", told.split(b"\n")[-2], f"error: found {CALLS} errors".encode())
    wants("the places", told.count(b"error: no rule"), SHOWN)
    wants("how many are not shown", told.split(b"\n\n")[-2], f"warning: {CALLS - SHOWN} more diagnostics are not shown".encode())
    last = f"{' ' * len(str(SHOWN + 1))}--> {name}:{SHOWN + 1}:5"
    wants("the last place", told.split(b"\n\n")[-3].split(b"\n")[1], last.encode())


def try_closed_pipe(files):
    """A reader that closes the pipe has read enough: there is no diagnostic."""
    first, told = files.reads_some("expand", given=DEFINITION + b"m!(1, 2);\n" * LINES)
    wants("what is read", first, (DEFINITION + b"1 + 2\n" * LINES)[: len(first)])
    wants("the diagnostic", told, b"")


def told_on_terminal(files, *words, given, **environment):
    """The diagnostics of a run if standard error is a terminal."""
    ours, theirs = pty.openpty()
    run = files.started(*words, stderr=theirs, environment=environment)
    os.close(theirs)
    run.communicate(input=given, timeout=SECONDS)
    told = b""
    try:
        while more := os.read(ours, 1 << 16):
            told += more
    except OSError:
        pass  # so a terminal ends that nobody writes to
    os.close(ours)
    return told.replace(b"\r\n", b"\n")


def try_colours(files):
    """A terminal shows colours if they are wanted, and no other file has them."""
    text = DEFINITION + b"m!(1);"
    plain = files.run("check", "-", given=text)[2]
    coloured = told_on_terminal(files, "check", "-", given=text)
    wants("the diagnostics without colours", re.sub(rb"\x1b\[[0-9;]*m", b"", coloured), plain)
    for colour, word in ((31, b"error"), (31, b"^"), (32, b"note"), (34, b"-->"), (34, b"|")):
        wants("a colour", b"\x1b[1;%dm%s\x1b[0m" % (colour, word) in coloured, True)
    wants("the diagnostics if NO_COLOR is set", told_on_terminal(files, "check", "-", given=text, NO_COLOR="1"), plain)
    wants("colours without a terminal", b"\x1b" in plain, False)


def tried(files, examples):
    """Each thing that is tried, by its name."""
    yield from tried_cases(files, examples / "small.cases")
    for try_one in (
        try_missing, try_several, try_empty, try_no_utf8, try_bytes_stay, try_first_line, try_cut_lines, try_controls, try_only, try_followed, try_shown, try_options, try_keywords, try_seams, try_deep, try_forever,
        try_long,
        try_closed_pipe, try_colours,
    ):
        name = try_one.__name__.removeprefix("try_").replace("_", " ")
        yield f"macros: {name}", lambda try_one=try_one: try_one(files)
