"""What docs/BUDGET.md says: what a gate may take, what each crate may have and took, and in which turn its edits are tried.

A turn is one of TURNS. The table of turns has a row for each crate with edits in tools/edits; a gate tries those of the
crates whose rows name its turn. A row that names several turns is of a dear crate, whose edits are cut in as many parts.

What trying edits takes is reckoned: of each crate its proof once more, and for each edit but the first what one took
when the crate's edits were last measured, or FURTHER minutes where they weren't.
"""
import collections
import os
import re
import sys

TOP = os.path.dirname(os.path.dirname(os.path.abspath(__file__)))
sys.dont_write_bytecode = True
sys.path.insert(0, os.path.join(TOP, "tools"))
import edit_files  # noqa: E402
import operations  # noqa: E402

BUDGET = os.path.join(TOP, "docs/BUDGET.md")
KINDS = ("proof", "edits", "tests")
TURNS = 20
# Minutes of an edit that isn't its crate's first, where none was measured; and lines that a minute proves likewise.
FURTHER = 0.5
LINES_A_MINUTE = 300
# How much of what a turn may take one crate may take of it, so that measures may differ by the rest.
SHARE = 0.8

MOST = ("edits that each gate tries", "edits of a turn", "all")
MOST_HEAD = "| what | processor minutes at most |\n|---|--:|\n"
MOST_ROW = re.compile(r"\| (?P<what>[\w ]+) \| (?P<most>\d+) \|")
HEAD = "| crate | lines | edits allowed | proof | edits | tests |\n|---|--:|--:|--:|--:|--:|\n"
ROW = re.compile(r"\| `(?P<crate>\w+)` \| (?P<lines>\d+) \| (?P<allowed>\d+) \|(?P<minutes>(?: (?:\d+\.\d+)? ?\|){3})")
TURN_HEAD = "| crate | turn | tried | minutes |\n|---|--:|--:|--:|\n"
TURN_ROW = re.compile(r"\| `(?P<crate>\w+)` \| (?P<turns>\d+(?: \d+)*) \| (?P<tried>\d*) ?\| (?P<minutes>(?:\d+\.\d+)?) ?\|")
EXCEPTION = re.compile(r"- `(?P<function>[^`]+)`, at most (?P<most>\d+): \S.*")
LARGE = re.compile(r"- `(?P<crate>\w+)`, at most (?P<most>\d+) lines: \S.*")
OTHERS = re.compile(r"^Measured .*?(\d+\.\d+) of them beside the crates", re.MULTILINE)

# In which turns a crate's edits are tried, and how many were in how many minutes when they were last measured (0 if they weren't).
Share = collections.namedtuple("Share", "turns tried minutes")


def lines_of(crate):
    """The lines of a crate's source."""
    count = 0
    for file in operations.sources(crate):
        with open(file, "rb") as it:
            count += it.read().count(b"\n")
    return count


def rows_under(text, head, pattern, key):
    """The text of the only table with this head, and its rows by what the pattern names so."""
    if text.count(head) != 1:
        sys.exit("check_budget: docs/BUDGET.md hasn't one table under " + head.splitlines()[0])
    at = text.index(head) + len(head)
    table, rows = re.match(r"(?:\|[^\n]*\n)*", text[at:])[0], {}
    for line in table.splitlines():
        row = pattern.fullmatch(line)
        if not row or row[key] in rows:
            sys.exit(f"check_budget: docs/BUDGET.md: a row of another form, or a second one: {line}")
        rows[row[key]] = row
    return table, rows


class Budget:
    """docs/BUDGET.md, table by table, and what is reckoned of it."""

    def __init__(self, text):
        self.text = text
        _, most = rows_under(text, MOST_HEAD, MOST_ROW, "what")
        if tuple(most) != MOST:
            sys.exit(f"check_budget: docs/BUDGET.md: the rows of the first table are {', '.join(MOST)}")
        self.most = {what: int(row["most"]) for what, row in most.items()}
        self.table, self.rows = rows_under(text, HEAD, ROW, "crate")
        self.turn_table, rows = rows_under(text, TURN_HEAD, TURN_ROW, "crate")
        self.shares = {crate: Share(tuple(map(int, row["turns"].split())), int(row["tried"] or 0), float(row["minutes"] or 0))
                       for crate, row in rows.items()}
        self.exceptions, self.large = {}, {}
        for line in re.findall(r"^- `.*$", text, re.MULTILINE):
            entry = EXCEPTION.fullmatch(line) or LARGE.fullmatch(line)
            found, name = (self.exceptions, "function") if entry and entry.re is EXCEPTION else (self.large, "crate")
            if not entry or entry[name] in found:
                sys.exit("check_budget: docs/BUDGET.md: write - `function`, at most N: why, or - `crate`, at most N lines: why, "
                         f"once for each: {line}")
            found[entry[name]] = int(entry["most"])

    # ---- crates

    def allowed(self, crate):
        return int(self.rows[crate]["allowed"]) if crate in self.rows else 0

    def minutes(self, crate):
        """The minutes of a crate by kind as they stand in its row, where it was measured."""
        cells = self.rows[crate]["minutes"].split("|") if crate in self.rows else []
        return {kind: float(cell) for kind, cell in zip(KINDS, cells) if cell.strip()}

    def with_rows(self, crates, allowed, minutes):
        """The text with a row for each crate: its lines, and the edits allowed and the minutes that the two functions give."""
        rows = ""
        for crate in crates:
            measured = minutes(crate)
            cells = [f"{measured[it]:.2f}" if it in measured else "" for it in KINDS]
            rows += "| " + " | ".join([f"`{crate}`", str(lines_of(crate)), str(allowed(crate)), *cells]) + " |\n"
        return self.text.replace(HEAD + self.table, HEAD + rows)

    # ---- what edits take

    def proof(self, crate):
        """What a crate's proof took, or what it may take where it wasn't measured."""
        return self.minutes(crate).get("proof", 0.0) or lines_of(crate) / LINES_A_MINUTE

    def further(self, crate):
        """What an edit of a crate takes that isn't its first."""
        share = self.shares.get(crate)
        if not share or share.tried < 2:
            return FURTHER
        return max((share.minutes - self.proof(crate)) / (share.tried - 1), FURTHER / 5)

    def cost(self, crate, count):
        """What trying so many edits of a crate takes."""
        return self.proof(crate) + (count - 1) * self.further(crate) if count else 0.0

    def cost_beside(self, crate, count):
        """What so many more of its edits take beside those that each gate tries."""
        always = len(edit_files.always_tried(crate))
        return self.cost(crate, always + count) - self.cost(crate, always)

    # ---- turns

    def names_in(self, crate, turn):
        """The names of a crate's edits in tools/edits that this turn tries."""
        turns = self.shares[crate].turns if crate in self.shares else ()
        parts = edit_files.parts_of(crate, len(turns)) if turn in turns else []
        return sorted(name for at, names in zip(turns, parts) if at == turn for name in names)

    def edits_in(self, turn):
        """By crate the names of the edits in tools/edits that this turn tries, in the order of crates.txt."""
        found = {crate: self.names_in(crate, turn) for crate in self.rows}
        return {crate: names for crate, names in found.items() if names}

    def cost_of_turn(self, turn):
        return sum(self.cost_beside(crate, len(names)) for crate, names in self.edits_in(turn).items())

    def cost_always(self):
        """What those edits take that each gate tries."""
        return sum(self.cost(crate, len(edit_files.always_tried(crate))) for crate in self.rows)

    def costs_of_parts(self, crate, count):
        """What each of so many parts of a crate's edits takes."""
        return [self.cost_beside(crate, len(names)) for names in edit_files.parts_of(crate, count)]

    def cut(self, crate):
        """What each part of a crate's edits takes, in the fewest parts of which none is dearer than one crate may be."""
        most = min(len(edit_files.tried_in_turns(crate)), TURNS)
        cuts = (self.costs_of_parts(crate, count) for count in range(1, most + 1))
        few_enough = next((costs for costs in cuts if max(costs) <= SHARE * self.most["edits of a turn"]), None)
        return few_enough or self.costs_of_parts(crate, most)

    def dealt(self, crates, kept):
        """A share for each of these crates: those that are kept, and of the others, dearest first, the turns that are lightest then."""
        shares = {crate: kept[crate] for crate in crates if crate in kept}
        loads = [0.0] * TURNS
        for crate, share in shares.items():
            for turn, cost in zip(share.turns, self.costs_of_parts(crate, len(share.turns))):
                loads[turn] += cost
        new = [(crate, self.cut(crate)) for crate in crates if crate not in kept]
        for crate, costs in sorted(new, key=lambda it: (-sum(it[1]), it[0])):
            lightest = sorted(range(TURNS), key=lambda turn: (loads[turn], turn))[: len(costs)]
            for turn, cost in zip(lightest, costs):
                loads[turn] += cost
            was = self.shares.get(crate, Share((), 0, 0.0))
            shares[crate] = was._replace(turns=tuple(lightest))
        return {crate: shares[crate] for crate in crates}

    def with_shares(self, shares):
        """The text with a row of turns for each of these crates."""
        rows = ""
        for crate, share in shares.items():
            measured = [str(share.tried), f"{share.minutes:.2f}"] if share.tried else ["", ""]
            rows += "| " + " | ".join([f"`{crate}`", " ".join(map(str, share.turns)), *measured]) + " |\n"
        return self.text.replace(TURN_HEAD + self.turn_table, TURN_HEAD + rows)

    # ---- the whole

    def whole(self):
        """What a gate takes in its dearest turn, reckoned of all tables."""
        proofs_and_tests = sum(self.proof(crate) + self.minutes(crate).get("tests", 0.0) for crate in self.rows)
        others = OTHERS.search(self.text)
        dearest = max(self.cost_of_turn(turn) for turn in range(TURNS))
        return proofs_and_tests + self.cost_always() + dearest + (float(others[1]) if others else 0.0)


def read_budget():
    with open(BUDGET, encoding="utf-8") as it:
        return Budget(it.read())
