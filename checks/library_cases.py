"""What the program reports for a text, made from what the library returns for it: the lines of diagnostics but for those with source text.

library.py compares them with the cases of examples/rust/small.cases, so a caller of the library can print what the program prints."""

import cuvolemin
from macro_files import parts_of

# Calls around a finding that are shown at most.
MOST_CALLS = 8

# The messages of findings by the number of the fault. `rule` counts from 1.
LEFT = "this call of {name} is left as it is"
MESSAGES = {
    81: "rule {rule} of {name} has no pattern",
    82: "this `$` begins no variable and no repetition",
    83: "this variable names an unknown fragment",
    84: LEFT,
    85: "an earlier variable has the same name",
    86: "a `?` repetition takes no separator",
    87: "this repetition matches empty input",
    88: "rule {rule} of {name} has no `=>` after its pattern",
    89: "rule {rule} of {name} has no template",
    90: "rule {rule} of {name}: this variable is still repeating at this depth",
    91: "rule {rule} of {name}: this repetition contains no variable that repeats",
    92: "rule {rule} of {name} has no `;` after it",
    93: LEFT + ": the compiler expands it itself",
    94: LEFT + ": which of its definitions holds depends on `#[cfg(..)]`",
    95: LEFT + ": no macro of this name has `#[macro_export]`",
    96: "{name} binds this name too, and the expansion does not keep the two apart",
    97: LEFT + ": its attributes cannot apply to its expansion",
    100: "no rule of {name} matches this",
    101: "rule {rule} of {name} matches this in two ways",
    102: "rule {rule} of {name} repeats variables together that have different numbers of rounds",
    103: "rule {rule} of {name} needs at least one round here",
    104: "recursion limit reached while expanding {name}",
    105: "the expansion of {name} cannot be written: this would read back as something else",
    107: "the expansion of {name} is statements, but an expression is wanted here",
    108: "too many tokens are written while expanding {name}",
}
LIMITS = {
    104: "= note: the limit is {limit}; --limit N sets another one, up to 1000",
    108: "= note: the limit is {max_tokens} tokens for a call and the calls in its result; --max-tokens N sets another one",
}
CAPTURED = 96

# Options of the program, and what the library calls them.
NAMES = {"--crate": "root", "--only": "only", "--limit": "limit", "--max-tokens": "max_tokens"}


def options_of(words):
    """The options of the library for those of the program; None if it has no such option."""
    options = {}
    words = iter([part for word in words for part in (word.split("=", 1) if word.startswith("--") else [word])])
    for word in words:
        if word == "--everywhere":
            options["everywhere"] = True
        elif word == "--cfg":
            options.setdefault("cfg", []).append(next(words))
        elif word in NAMES:
            value = next(words)
            options[NAMES[word]] = int(value) if value.isdigit() else value.removeprefix("r#")
        else:
            return None
    return options


def place(text, at):
    """The line of a diagnostic that names the place of a byte."""
    before = text[:at].decode()
    return f"--> <stdin>:{before.count(chr(10)) + 1}:{len(before) - before.rfind(chr(10))}"


def lines_of(text, finding, options):
    """The lines of the diagnostic of a finding."""
    name = f"`{finding.macro_name}`"
    yield f"{'warning' if finding.is_warning else 'error'}: " + MESSAGES[finding.number].format(name=name, rule=finding.detail + 1)
    yield place(text, finding.at)
    if finding.expected is not None:
        yield f"= note: expected {finding.expected}"
    if finding.number in LIMITS:
        yield LIMITS[finding.number].format(**{"limit": 128, "max_tokens": 4_000_000, **options})
    calls = finding.trail[::-1]
    hidden = len(calls) - MOST_CALLS
    if hidden > 0:
        calls[MOST_CALLS - 1 : -1] = []
        yield f"= note: {hidden} call{' ' if hidden == 1 else 's '}between the last two {'is' if hidden == 1 else 'are'} not shown"
    if finding.number == CAPTURED:
        yield f"note: {name} binds it here"
        yield place(text, finding.detail)
    elif finding.defined_at is not None:
        yield f"note: {name} is defined here"
        yield place(text, finding.defined_at)
    for call in calls:
        yield f"note: in this call of `{call.macro_name}`"
        yield place(text, call.at)


def is_told(line):
    """Whether a line of a case is one of those: no source text, no count of errors, and no note on names that are left."""
    words = ("error: ", "warning: ", "note: ", "= note: ", "--> ")
    others = ("error: found ", "warning: found ", "note: <stdin> defines ", "note: calls of ")
    return line.startswith(words) and not line.startswith(others)


def told_lines(told):
    """The lines of a case's diagnostics without source text."""
    return [line.strip() for line in told.splitlines() if is_told(line.strip())]


def first_of(made):
    """The number and the place of the first fault of an expansion, or its text."""
    return next(((it.number, it.at) for it in made.findings if not it.is_warning), made.text)


def alone(text):
    """The same of a text by the function without options."""
    try:
        return cuvolemin.expand(text)
    except cuvolemin.Error as error:
        return error.number, error.at


def judged(case):
    """What is wrong with what the library gives for a case of the program; None if it has no such options."""
    name, words, text, written, told = parts_of(case)
    options = options_of(words)
    if options is None or (b"recursion_limit" in text and "limit" not in options):
        return None
    lines = told_lines(told)
    try:
        made = cuvolemin.expand_with(text, one_line=True, **options)
    except cuvolemin.Error as error:
        return "" if place(text, error.at) in lines[1:2] else f"{name}: it is refused at byte {error.at}"
    if written is not None and made.text.encode() != written:
        return f"{name}: the text becomes {made.text}"
    found = [line for finding in made.findings for line in lines_of(text, finding, options)]
    if found != lines:
        return f"{name}: the findings say {found}"
    if not options and first_of(cuvolemin.expand_with(text)) != alone(text):
        return f"{name}: without options the first fault is {alone(text)}"
    return ""
