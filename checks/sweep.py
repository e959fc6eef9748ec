#!/usr/bin/env python3
"""Each request for memory of each call refused in turn: sweep.py PROGRAM LIBRARY

PROGRAM is `test_sweep_trees` or `test_sweep_changes`, which make one call a run, and LIBRARY is checks/refuse.c. The first,
second, .. request of the call is refused, until it makes no more of them. Behind each run as many blocks of memory live as
in front of it. A line is printed for each call, `ok NAME` or `FAILED NAME: WHY`; the status is 1 if one failed. Calls that
are wrong are made too, and it has to be noticed.
"""
import os
import shutil
import subprocess
import sys
import tempfile

# The calls of each program that take memory, by groups.
TAKE_MEMORY = {
    "test_sweep_trees": {
        "made": (
            # of tokens
            "Symbol::new Ident::new Literal::new Literal::new_no_suffix token_to_literal",
            # of what is stored
            "symbol_bytes span_bytes token_bytes Packed::clone",
            # of trees
            "empty invisible_from_leaves from_token_trees from_subtree TopSubtree::clone display_text pretty debug_text",
        ),
        "lists": ("is_one_subtree pack of_list from_serialized from_tokens",),
        "counted": ("pack_counted of_list_counted",),
        "pieces": ("to_bytes from_bytes",),
        "texts": ("parse_to_token_tree rust_text Sources::read rust_text_laid",),
        "levels": ("take",),
    },
    "test_sweep_changes": {
        # of a tree
        "edits": ("set_token change_every_ast_id change_every_ast_id_joined transform_tt",),
        # of a cursor, and of a walk that owns its tree
        "walks": ("bump bump_or_end TreeWalk::enter",),
        # of a builder
        "builders": (
            "TopSubtreeBuilder::new open push close extend extend_by_names extend_with_tt extend_with_tt_alone restore_point",
            "TopSubtreeBuilder::clone",
        ),
        "builds": ("build build_skip_top_subtree",),
        # of a rule, and of a macro of several arms
        "rules": ("Rule::new expand",),
        "macros": ("MacroRules::new MacroRules::expand MacroRules::waiting MacroRules::faults",),
    },
}

# Those that take none, some at a time.
TAKE_NONE = {
    "test_sweep_trees": {
        "quiet": (
            "ranges tokens literals numbers stored setters trees texts views siblings expectations cursors",
        ),
    },
    "test_sweep_changes": {"quiet": ("builders",)},
}

# The lines that are written before the call ends: one before anything is made for it, and one on each side of the call.
BEGUN = "begun\nprepared\nanswered\n"
DONE = BEGUN + "done\n"
DONE_AGAIN = BEGUN + "refused, and done again\n"

# The line behind which the requests are the call's own.
PREPARED = "2"

# No call makes as many requests.
MOST_REQUESTS = 10_000


class Wrong(Exception):
    """What a call did, and should not have."""


class Sweep:
    """The program and the library, the file that has a byte for each refused request, and that of the blocks that live."""

    def __init__(self, program, library, room):
        self.program = program
        self.library = library
        self.refused = os.path.join(room, "refused")
        self.live = os.path.join(room, "live")

    def run(self, call, which):
        """What the program writes while these requests are refused, and how many were."""
        for path in (self.refused, self.live):
            if os.path.exists(path):
                os.remove(path)
        given = {"LD_PRELOAD": self.library, "REFUSE": which, "REFUSE_BEHIND": PREPARED}
        given |= {"REFUSED": self.refused, "LIVE": self.live}
        asked = [self.program, *call.split()]
        done = subprocess.run(asked, env=given, capture_output=True, text=True, timeout=60, check=False)
        if done.returncode != 0:
            raise Wrong(f"request {which} refused: status {done.returncode}, {done.stdout + done.stderr!r}")
        self.see_blocks(which)
        return done.stdout, os.path.getsize(self.refused) if os.path.exists(self.refused) else 0

    def see_blocks(self, which):
        """Sees that what the call was given took blocks, and that at the last line no more live than at the first."""
        with open(self.live, encoding="utf-8") as lines:
            first, prepared, *_, last = [int(line) for line in lines]
        if prepared <= first:
            raise Wrong(f"request {which} refused: no block was made for the call")
        if last != first:
            raise Wrong(f"request {which} refused: {last - first} blocks are left")

    def refuse_each(self, call):
        """Refuses the first, second, .. request, until no more is made: the call is refused each time, but for the last."""
        for nth in range(1, MOST_REQUESTS):
            written, refused = self.run(call, str(nth))
            if refused == 0:
                break
            if written != DONE_AGAIN:
                raise Wrong(f"request {nth} refused: {written!r}")
        if refused or written != DONE:
            raise Wrong(f"no request refused: {written!r}")
        if nth == 1:
            raise Wrong("it was never refused")
        return f"{nth - 1} requests"

    def refuse_all(self, call):
        """Refuses every request, of which there are none."""
        written, refused = self.run(call, "all")
        if written != DONE:
            raise Wrong(f"every request refused: {written!r}")
        if refused:
            raise Wrong(f"it made {refused} requests")
        return "no request"


# Calls that are wrong: whether each request is refused or all are, and what has to be said of it.
FLAWS = {
    "test_sweep_trees": (
        ("faulty forgets_to_undo", "refuse_each", "what was left behind a refusal"),
        ("faulty always_refused", "refuse_each", "refused again"),
        ("faulty another_fault", "refuse_each", "another fault than Memory"),
        ("faulty hides_refusal", "refuse_each", "request 1 refused"),
        ("faulty changes_nothing", "refuse_each", "what was changed"),
        ("faulty never_asks", "refuse_each", "it was never refused"),
        ("faulty hides_refusal", "refuse_all", "requests"),
        ("faulty leaks", "refuse_each", "blocks are left"),
        ("faulty leaks_where_refused", "refuse_each", "request 2 refused: 1 blocks are left"),
        ("made no_such_call", "refuse_all", "what was given"),
        ("no_such_group", "refuse_all", "status 1"),
    ),
    "test_sweep_changes": (
        ("builders no_such_call", "refuse_all", "what was given"),
        ("no_such_group", "refuse_all", "status 1"),
    ),
}


def is_noticed(sweep, call, how, wanted):
    """Whether it is said that a call is wrong, which is printed: a judge that cannot fail judges nothing."""
    name = f"{call} of {os.path.basename(sweep.program)}"
    try:
        said = getattr(sweep, how)(call)
    except Wrong as why:
        said = str(why)
        if wanted in said:
            print(f"ok {name} is noticed by {how}")
            return True
    print(f"FAILED {name} is not noticed by {how}: {said}")
    return False


def calls(groups):
    """What the program is given for each call of the groups: the group and the name."""
    return [f"{group} {name}" for group, lines in groups.items() for name in " ".join(lines).split()]


def judged(judge, call):
    """Whether the call did what it should, which is printed."""
    try:
        print(f"ok {call}: {judge(call)}")
        return True
    except (Wrong, subprocess.TimeoutExpired) as why:
        print(f"FAILED {call}: {why}")
        return False


def main():
    """Judges the calls one after the other."""
    program, library = sys.argv[1:]
    name = os.path.basename(program)
    with tempfile.TemporaryDirectory() as room:
        sweep = Sweep(program, library, room)
        fine = [judged(sweep.refuse_each, call) for call in calls(TAKE_MEMORY[name])]
        fine += [judged(sweep.refuse_all, call) for call in calls(TAKE_NONE[name])]
        fine += [is_noticed(sweep, *flaw) for flaw in FLAWS[name]]
        # a program that dies at once
        dead = Sweep(shutil.which("false"), library, room)
        fine += [is_noticed(dead, "lists pack", how, "status 1") for how in ("refuse_each", "refuse_all")]
    sys.exit(not all(fine))


main()
