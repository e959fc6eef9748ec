"""Definitions of plain_machine.py turned: what is turned, the text that is replaced, and the text in its place."""
TOPS = "_replace(children=children)"
CLOSED = "if len(kept[1]) <= len(self.headers)}"
LEFT = "if kept[0] <= held}"
UNMARKED = "self.taken += 1\n        self.mark = None"
RESTORED = "self.headers, self.levels, self.mark = list(headers), list(map(list, levels)), None"
OPENED = "self.levels.append([])\n        self.mark = None"
COUNTED_PARTS = "{span.part() for _, span in self.headers}.union(parts_used(trees))"
COUNTED_SYMBOLS = "len(set(symbols_used(trees)))"
MOST = (17, 63, 100, 255, 288)
ONE_CHILD = "len(tree.children) == 1 and isinstance(tree.children[0], Subtree)"
REWRITTEN = "one_subtree(self.rewritten(self.slots[slot], iter(actions)))"
SAME = 'if action == f"put:{slot}":'
EQUAL = "self.slots[left] == self.slots[right]"
LISTS = [
    (
        "a fault empties the list", 'except NotOneSubtree:\n            return ["fault 2"]\n        self.items',
        'except NotOneSubtree:\n            self.items = []\n            return ["fault 2"]\n        self.items',
    ),
    ("a list keeps its tokens", 'return ["fault 2"]\n        self.items = []', 'return ["fault 2"]'),
]
BUILDING = [
    ("open leaves the mark", OPENED, "self.levels.append([])"),
    (
        "a leaf clears the mark", "self.levels[-1] += trees",
        "self.levels[-1] += trees\n        self.mark = self.mark if isinstance(trees[0], Subtree) else None",
    ),
    (
        "a tree clears the mark", "self.builder.append([self.slots[slot]])",
        "self.builder.append([self.slots[slot]])\n        self.builder.mark = None",
    ),
    ("close sets no mark", "self.mark = len(self.levels[-1])", "self.mark = None"),
    ("points at the depth of a close go", CLOSED, "if len(kept[1]) < len(self.headers)}"),
    ("points of a closed subtree stay", CLOSED, "if len(kept[1]) <= len(self.headers) + 1}"),
    ("unwrap takes opaque subtrees", 'level[mark].kind == "invisible"', 'level[mark].kind in ("invisible", "opaque")'),
    (
        "unwrap leaves the mark", "mark, self.mark, level = self.mark, None, self.levels[-1]",
        "mark, level = self.mark, self.levels[-1]",
    ),
    ("unwrap takes one child", "= level[mark].children", "= level[mark].children[:1]"),
    ("point leaves the mark", UNMARKED, "self.taken += 1"),
    ("point counts open subtrees alone", "= self.held(), tuple(self.headers)", "= len(self.headers), tuple(self.headers)"),
    (
        "restore leaves the mark", RESTORED,
        f"mark = self.mark\n        {RESTORED}\n        self.mark = mark if (mark or 0) < len(self.levels[-1]) else None",
    ),
    ("a restore that fails clears the mark", "return False", "self.mark = None\n            return False"),
    ("a restored point goes", LEFT, "if kept[0] <= held and other != number}"),
    ("later points of as many tokens go", LEFT, "if kept[0] < held or other <= number}"),
    ("later points stay", LEFT, "}"),
    ("restore gives numbers back", RESTORED, f"self.taken = number + 1\n        {RESTORED}"),
    (
        "restore gives many numbers back", RESTORED,
        f"self.taken = number + 1 if self.taken > number + 40 else self.taken\n        {RESTORED}",
    ),
    ("an open header's part is not counted", COUNTED_PARTS, "set(parts_used(trees))"),
    ("the top's part is counted", COUNTED_PARTS, f"{COUNTED_PARTS} | {{self.top[1].part()}}"),
    ("the innermost level's symbols are counted", COUNTED_SYMBOLS, "len(set(symbols_used(self.levels[-1])))"),
    *((f"at most {most} symbols are counted", COUNTED_SYMBOLS, f"min({most}, {COUNTED_SYMBOLS})") for most in MOST),
    *((f"at most {most} parts are counted", "return len(parts)", f"return min({most}, len(parts))") for most in MOST),
    (
        "symbols of literals are not counted", COUNTED_SYMBOLS,
        "len({tree.text for tree in flat(trees) if hasattr(tree, 'raw')})",
    ),
    ("skip leaves opaque subtrees their top", ONE_CHILD, f"{ONE_CHILD} and tree.children[0].kind != 'opaque'"),
    ("skip takes the first of two subtrees", ONE_CHILD, ONE_CHILD.replace("==", ">=")),
    ("skip takes the top of a leaf", ONE_CHILD, "len(tree.children) == 1"),
    ("the outermost kind is expected first", "in reversed(self.builder.headers)", "in self.builder.headers"),
    (
        "empty comes before no builder", "if self.builder is None:\n                return",
        "if self.builder is None:\n                return self.asked_empty(verb, values) or",
    ),
    ("build keeps the builder", "self.slots[slot], self.builder = tree, None", "self.slots[slot] = tree"),
    ("build closes what is open", 'if self.builder.headers:\n            return ["still open"]', ""),
]
EDITS = [
    ("fault 4 comes before fault 3", 'return ["fault 3"]', 'return ["fault 4" if place == len(tokens) else "fault 3"]'),
    ("set has no token at the top", 'return ["fault 4"]', 'return ["fault 4" if place else "fault 3"]'),
    ("the top's close keeps its id", "tree.close._replace(ast=new[-1])", "tree.close"),
    (
        "the top's close has the open's id", "tree.close._replace(ast=new[-1])",
        "tree.close._replace(ast=new[-1 if len(ids) != len(old) else -2])",
    ),
    ("the last ids count", "new = ids[:len(old)]", "new = ids[-len(old):]"),
    ("the top's part is that of tokens", "by_part = dict(zip(old[:-2], new))", "by_part = dict(zip(old[:-1], new))"),
    (
        "an opaque subtree is kept whole", 'if action != "keep":',
        'if getattr(tree, "kind", action) == "opaque":\n            return (tree,)\n        if action != "keep":',
    ),
    ("remove takes leaves alone", 'if action == "remove":', 'if action == "remove" and not isinstance(tree, Subtree):'),
    ("an empty slot comes before the same one", SAME, f"{SAME[:-1]} and self.is_full(actions):"),
    ("put may name the slot itself", SAME, "if False:"),
    (
        "what is removed whole stays", REWRITTEN,
        "one_subtree(self.rewritten(self.slots[slot], iter(actions)) or (self.slots[slot],))",
    ),
    ("kind makes no opaque top", "._replace(kind=kind)", "._replace(kind=kind.replace('opaque', 'invisible'))"),
    (
        "spans changes the open span alone", "._replace(open_span=open_span, close=close)\n\n    def set",
        "._replace(open_span=open_span)\n\n    def set",
    ),
    (
        "copy takes a tree away", "self.slots[to] = self.slots[source]",
        "self.slots[to], self.slots[source] = self.slots[source], None",
    ),
]
QUESTIONS = [
    (
        "trees of other closes are equal", EQUAL,
        "self.slots[left][:2] + self.slots[left][3:] == self.slots[right][:2] + self.slots[right][3:]",
    ),
    (
        "trees of other open spans are equal", EQUAL,
        "self.slots[left][::2] + self.slots[left][3:] == self.slots[right][::2] + self.slots[right][3:]",
    ),
    ("trees of other kinds are equal", EQUAL, "self.slots[left][1:] == self.slots[right][1:]"),
    ("trees of one text are equal", EQUAL, f"{EQUAL} or self.show(left) == self.show(right)"),
    ("show lets a space follow a hidden punct", '("joint", "hidden")', '("joint",)'),
    (
        "pretty lets none follow a hidden punct", 'text_of((self.slots[slot],), ("joint",))',
        'text_of((self.slots[slot],), ("joint", "hidden"))',
    ),
    (
        "siblings has an opaque top", "flat(self.slots[slot].children))",
        "flat(self.slots[slot].children if self.slots[slot].kind != 'opaque' else [self.slots[slot]]))",
    ),
    ("what is expanded has the input's top", f"self.slots[template].{TOPS}", f"self.slots[source].{TOPS}"),
    ("what is expanded has the pattern's top", f"self.slots[template].{TOPS}", f"self.slots[pattern].{TOPS}"),
    ("arms needs a tree to replace", '"arms": (0, 1)', '"arms": (0, 1, 2)'),
    ("arms takes an empty input for no match", ', "arms": (0, 1)', ', "arms": (0,)'),
    ("what arms make comes to the input", "self.slots[to] = made", "self.slots[source] = made"),
    ("expand needs a tree to replace", '"expand": (0, 1, 2)', '"expand": (0, 1, 2, 3)'),
    ("expand takes an empty input for no match", '"expand": (0, 1, 2)', '"expand": (0, 1)'),
    (
        "an opaque template's top is judged", ".children for slot in (pattern",
        ".children if self.slots[slot].kind != 'opaque' else (self.slots[slot],) for slot in (pattern",
    ),
]
MUTANTS = LISTS + BUILDING + EDITS + QUESTIONS
# What the texts in place of others name, in the machine.
HELPERS = '''

def asked_empty(self, verb, values):
    return ["empty"] if verb in ("append", "alone") and self.slots[values[0]] is None else None


def is_full(self, actions):
    return all(self.slots[int(action[4:])] for action in actions if action.startswith("put:"))


Machine.asked_empty, Machine.is_full = asked_empty, is_full
'''
