"""Where a growth that is refused may tell of what its caller doesn't see: memory is taken in front of a request's tests, or
for what there is in all.

A growth is an allocator, but as what a call of `plan` or `plan_*` is handed: the words `alloc`, `allocator` and `Global`. In the
crates that are read another name for a Global is refused. So is a growth each call by a name of GROWS. This is read:

    a plan          a function of the crates of plans by the name of `plan`, or that begins with `plan_`. Its tests are each `Err(..)` that
                    is no pattern, and each call that looks at sight: `unseen`, `lacks`, `model_right`, `group_right`, those of
                    one's own, and a function of the crate that calls one. Nothing grows in front of the last of them, and a
                    plan without one is refused
    another         function of these crates grows nothing in front of its last look at sight; and none looks into a table itself, by
                    `.models`, `.groups`, `.partners` or `.schemas`: what a plan knows is what readers tell
    the readers     what is called in front of these tests, and what that calls, grows nothing at all: functions of plans,
                    rp_readers, rp_sight, rp_access and rp_store, by their names; one that has a Global among its parameters is none
                    of them, since who calls it hands on an allocator, which is a growth there
    the body        `prepare` of rp_core grows nothing in front of its call of `plan`
    sizes           in rp_readers, rp_sight, rp_access and rp_store nothing is made for a number of things at once: no
                    `with_capacity`, `reserve`, `resize`, `from_elem` and `vec![in ..]`

LISTED has the places that stand all the same, each with its reason: plans of what everyone may ask, sizes of what the caller
sees, and room for one row more.

Not read is whether the tests are those of the request, and what readers take one by one: contracts say which rows an answer
has, and nothing says that none is taken for others beside. Nor are functions read that are called under no name. The last tests
of a request, which the store and the rights make once a plan has passed its own, come behind growths: they are of rows that the
caller sees.
"""
import re

from sources import Fault, Listed, Token, flat, functions_of, missed, planted, tokens_of, without_listed

FILE_PLANS = "crates/rp_file_plans/src/"
ITEM_PLANS = "crates/rp_item_plans/src/"
PLANS = ("crates/rp_plans/src/", FILE_PLANS, ITEM_PLANS, "crates/rp_core/src/plans.rt")
READERS = "crates/rp_readers/src/"
SIGHT_OF = "crates/rp_sight/src/"
ACCESS = "crates/rp_access/src/"
STORE = "crates/rp_store/src/"
BODY = "crates/rp_core/src/"
READ = (*PLANS, READERS, SIGHT_OF, ACCESS, STORE, BODY)

PLAN = re.compile(r"plan|plan_\w+")
GROWS = re.compile(r"(try_)?(with_capacity|reserve|push|insert|append|extend|resize|copy|clone|collect|sort|split_off|from_elem|from_slice|"
                   r"from_clones|to_vec|to_string)(_\w+)?")
ALLOCATORS = ("alloc", "allocator", "Global")
SIZES = re.compile(r"with_capacity|(try_)?reserve(_\w+)?|resize(_\w+)?|from_elem")
SIGHT = re.compile(r"unseen|lacks|(own_)?(model|group)_right")
TABLES = ("models", "groups", "partners", "schemas")

ONE_MORE = "room for one row more, once a plan has passed its tests"
RESTORED = "room for one row more, which is restored and which no request asks for"

LISTED = [
    # what everyone may ask
    Listed(f"{ITEM_PLANS}lists.rt", "plan_list", "let groups = asked.group_items(alloc)?", "the groups that the caller sees are listed"),
    Listed(f"{ITEM_PLANS}lists.rt", "plan_list", "Plan::told(alloc, Reply::Listed { groups, models: asked.model_items(alloc)? })",
           "the models that the caller sees are listed"),
    Listed(f"{ITEM_PLANS}lists.rt", "plan_schemas", "Plan::told(alloc, Reply::Schemas(asked.schema_names(alloc)?))", "everyone is told all schemas"),
    # sizes
    Listed(f"{READERS}items.rt", "model_rows", "Vec::with_capacity(alloc, seen.len())?", "the models that the caller sees"),
    Listed(f"{READERS}items.rt", "group_rows", "Vec::with_capacity(alloc, seen.len())?", "the groups that the caller sees"),
    Listed(f"{READERS}listings.rt", "told_members", "Vec::with_capacity(alloc, members.len())?", "what a group lists that the caller sees"),
    Listed(f"{READERS}contents.rt", "listed_instances", "Vec::with_capacity(alloc, instances.len())?", "what a model has that the caller sees"),
    Listed(f"{READERS}schemas.rt", "names_of", "Vec::with_capacity(alloc, schemas.len())?", "everyone is told all schemas"),
    Listed(f"{READERS}kept.rt", "of", "Vec::with_capacity(alloc, schemas.len())?", "all schemas, at the opening"),
    Listed(f"{SIGHT_OF}members.rt", "members_of", "Vec::with_capacity(alloc, keys.len())?", "what a group lists that the caller sees"),
    Listed(f"{ACCESS}relisting.rt", "including", "Vec::with_capacity(alloc, former.len().saturating_add(1))?", "what a group of the caller's lists"),
    Listed(f"{ACCESS}relisting.rt", "excluding", "Vec::with_capacity(alloc, former.len())?", "what a group of the caller's lists"),
    Listed(f"{SIGHT_OF}groups.rt", "reserve", "self.listings.reserve()?; self.rights.reserve()", ONE_MORE),
    Listed(f"{SIGHT_OF}groups.rt", "reserve_names", "self.granted.reserve()", ONE_MORE),
    Listed(f"{ACCESS}steps.rt", "regrant_for", "groups.reserve_names()?", ONE_MORE),
    Listed(f"{ACCESS}steps.rt", "group_step", "groups.reserve(alloc, key.get(), &listing)?", ONE_MORE),
    Listed(f"{ACCESS}access.rt", "open", "self.models.reserve()?", ONE_MORE),
    Listed(f"{STORE}keyed.rt", "reserve", "self.entries.reserve(1)", ONE_MORE),
    Listed(f"{STORE}prepares.rt", "create", "self.models.reserve()?", ONE_MORE),
    Listed(f"{STORE}store.rt", "reserve", "self.models.reserve()", RESTORED),
    Listed(f"{STORE}keyed.rt", "add_name", "self.reserve()?", RESTORED),
    Listed(f"{SIGHT_OF}groups.rt", "hold", "self.reserve(alloc, key.get(), &listing)?", RESTORED),
    Listed(f"{ACCESS}access.rt", "hold_model", "self.models.reserve()?", RESTORED),
]


# ---- growths and calls in the tokens of a body, one by one

def crate_of(file):
    return file.split("/")[1]


def text_at(tokens, at):
    return tokens[at].text if 0 <= at < len(tokens) else ""


def is_call(tokens, at, name=r"[a-z_]\w*"):
    return text_at(tokens, at + 1) == "(" and bool(re.fullmatch(name, tokens[at].text))


def behind(tokens, at):
    """The place behind the brackets that open at a place."""
    depth = 0
    for place in range(at, len(tokens)):
        depth += {"(": 1, ")": -1}.get(tokens[place].text, 0)
        if depth == 0:
            return place + 1
    return len(tokens)


def is_growth(tokens, at):
    if tokens[at].text in ALLOCATORS:
        return not (text_at(tokens, at - 1) == "(" and PLAN.fullmatch(text_at(tokens, at - 2)))
    return is_call(tokens, at) and bool(GROWS.fullmatch(tokens[at].text))


def takes_allocator(function):
    """Whether one of its parameters is a Global."""
    return any(it.text == "Global" for it in flat(function.head))


def makes_room(tokens, at):
    """Whether room for several things at once is made here."""
    if tokens[at].text == "vec":
        return [text_at(tokens, at + it) for it in (1, 2, 3)] == ["!", "[", "in"]
    return is_call(tokens, at) and bool(SIZES.fullmatch(tokens[at].text))


def called_in(file, tokens):
    """What is called, but where `alloc` is handed on: the names, each with the crate that it stands in where no path and no
    value comes before it."""
    for at, token in enumerate(tokens):
        if is_call(tokens, at) and text_at(tokens, at + 2) != "alloc":
            yield token.text, None if text_at(tokens, at - 1) in (".", "::") else crate_of(file)


def is_refusal(tokens, at):
    """Whether a refusal is told here: `Err(..)`, where it is no pattern."""
    return tokens[at].text == "Err" and is_call(tokens, at, r"\w+") and text_at(tokens, behind(tokens, at + 1)) not in ("=>", "|", "if", "=")


def ends_of_tests(tokens, looks, tells):
    """Where each test ends: at a call that looks at sight, and at a refusal, where such are told."""
    for at, token in enumerate(tokens):
        if is_call(tokens, at) and (token.text in looks or SIGHT.fullmatch(token.text)) or tells and is_refusal(tokens, at):
            yield at


# ---- the crates

class Crates:
    """The functions of the crates that are read, by their files, and what is wrong in them."""

    def __init__(self, texts):
        self.texts = {file: text for file, text in texts.items() if file.startswith(READ)}
        self.functions = [(file, it) for file, text in self.texts.items() for it in functions_of(text)]
        self.faults = {}
        self.looks = self.looking()

    def fault(self, file, token, why):
        self.faults.setdefault((file, token.place), Fault(file, token, why))

    def looking(self):
        """The names of functions of plans that look at sight."""
        names, before = set(), None
        while before != names:
            before = set(names)
            names |= {it.name for file, it in self.functions if file.startswith(PLANS) and any(ends_of_tests(it.tokens, before, False))}
        return names

    def read(self):
        """Looks at all of them, and gives the faults."""
        asked = set()
        for folder, name in ((PLANS[-1], "plan"), (BODY, "prepare"), (READERS, "model_right"), (SIGHT_OF, "visible_models")):
            if not any(file.startswith(folder) and it.name == name for file, it in self.functions):
                self.fault(folder if folder.endswith(".rt") else f"{folder}lib.rt", Token(""), f"there is no function {name}")
        for file, function in self.functions:
            if file.startswith(PLANS):
                asked |= self.read_tests(file, function)
                self.read_tables(file, function)
            if file.startswith(BODY) and function.name == "prepare":
                asked |= self.read_body(file, function)
            if file.startswith((READERS, SIGHT_OF, ACCESS, STORE)):
                self.read_sizes(file, function)
        self.read_asked(asked)
        for file, text in self.texts.items():
            self.read_names(file, tokens_of(text))
        return list(self.faults.values())

    def read_front(self, file, function, end, why):
        """Looks at what stands in front of a place of a function, and gives the names that are called there."""
        front = function.tokens[:end]
        for at, token in enumerate(front):
            if is_growth(front, at):
                self.fault(file, token, f"{function.name} takes memory by {token.text} {why}")
        return set(called_in(file, front))

    def read_tests(self, file, function):
        is_plan = bool(PLAN.fullmatch(function.name))
        ends = [*ends_of_tests(function.tokens, self.looks, is_plan)]
        if not is_plan:
            return self.read_front(file, function, ends[-1], "in front of a test of sight") if ends else set()
        if ends:
            return self.read_front(file, function, ends[-1], "in front of its tests")
        if not any(is_growth(function.tokens, at) for at in range(len(function.tokens))):
            self.fault(file, function.head[1], f"{function.name} is a plan without tests")
        return self.read_front(file, function, len(function.tokens), "and tests nothing")

    def read_body(self, file, function):
        end = next((at for at, it in enumerate(function.tokens) if it.text == "plan" and is_call(function.tokens, at)), None)
        if end is None:
            self.fault(file, function.head[1], "prepare doesn't plan")
        return self.read_front(file, function, end, "in front of the plan")

    def meant_by(self, name, crate):
        """The functions that a call may mean: those of its crate, where it has such and nothing comes before the name. None that
        is handed an allocator: where one is handed on, the word for it is a growth already."""
        there = [it for it in self.functions if it[1].name == name and not takes_allocator(it[1])]
        return [it for it in there if crate_of(it[0]) == crate] or there

    def read_asked(self, calls):
        """Looks at what is called in front of tests, and at all that this calls."""
        done, left = set(), set(calls)
        while left:
            call = left.pop()
            done.add(call)
            for file, function in self.meant_by(*call) if not PLAN.fullmatch(call[0]) else []:
                called = self.read_front(file, function, len(function.tokens), "and is called in front of tests")
                left |= called - done

    def read_tables(self, file, function):
        for at, token in enumerate(function.tokens):
            if token.text in TABLES and text_at(function.tokens, at - 1) == "." and text_at(function.tokens, at + 1) != "(":
                self.fault(file, token, f"{function.name} looks at all {token.text} itself")

    def read_sizes(self, file, function):
        for at, token in enumerate(function.tokens):
            if makes_room(function.tokens, at):
                self.fault(file, token, f"{function.name} makes room by {token.text} for what may not be seen")

    def read_names(self, file, tokens):
        """Looks at the names of allocators."""
        for at, token in enumerate(tokens):
            if token.text == "Global" and text_at(tokens, at - 1) == ":" and text_at(tokens, at - 2) != "alloc":
                self.fault(file, token, "an allocator has another name than alloc")


def faults_in(texts):
    """What is wrong with growths in the files of the crates; what is listed left out."""
    return without_listed(Crates(texts).read(), texts, LISTED)


# ---- the self-test

ROOM = "    let _room: Vec<u64> = Vec::with_capacity(alloc, 4096)?; // found // found"

# Statements that are planted at the beginning of a function of a crate.
STATEMENTS = [
    ("room for the instances of an unseen model", PLANS, "plan_names", """
    let count = match asked.models.find(key) { Some(model) => model.holds.content.instances.len(), None => 0 }; // found
    let _names: Vec<u64> = Vec::with_capacity(alloc, count)?; // found // found"""),
    ("names before the tests", PLANS, "plan_names", """
    let names = names_of(alloc, asked, key)?; // found"""),
    ("a copy before the tests", PLANS, "plan_get", """
    let owner = key.0.copy(alloc)?; // found // found"""),
    ("a list that grows before the tests", PLANS, "plan_drop", """
    names.push(name)?; // found
    names.reserve_exact(4096)?; // found"""),
    ("a reader that takes memory of its own", READERS, "model_right", """
    let _key = (key.0.copy(self.alloc)?, name); // found // found"""),
    ("a reader below it that does", SIGHT_OF, "level", """
    let mut marks = Vec::new(groups.alloc); // found
    marks.push(caller)?; // found"""),
    ("a mark for each model", SIGHT_OF, "visible_models", """
    let marks = vec![in alloc; false; models.len()]?; // found"""),
    ("room for each model", SIGHT_OF, "visible_models", """
    let mut all: Vec<u64> = Vec::with_capacity(alloc, models.len())?; // found
    seen.reserve(models.len())?; // found
    let marks = Vec::from_elem(alloc, false, models.len())?; // found"""),
    ("room for each group of all", READERS, "group_items", """
    let mut all: Vec<u64> = Vec::with_capacity(alloc, self.groups.table().len())?; // found"""),
    ("room before the plan", BODY, "prepare", """
    let _room: Vec<u64> = Vec::with_capacity(alloc, self.store.models().len())?; // found // found"""),
]

# Items that are planted behind all others of the file of `plan_names`.
ITEMS = {
    "a plan without tests": """
pub fn plan_told(asked: &Readers<'_>) -> Result<Plan, Refusal> { Ok(Plan { reply: asked.told(), edits: asked.none() }) } // found""",
    "a plan that grows and tests nothing": """
pub fn plan_told(alloc: Global, asked: &Readers<'_>) -> Result<Plan, Refusal> { Ok(told(alloc, asked)?) } // found""",
    "a plan that hands its request to another function": """
pub fn plan_told(alloc: Global, asked: &Readers<'_>, key: &Key) -> Result<Plan, Refusal> { told(alloc, asked, key) } // found""",
    "a plan that tells a refusal last, behind a growth": """
pub fn plan_told(alloc: Global, asked: &Readers<'_>, key: &Key) -> Result<Plan, Refusal> {
    if let Some(refusal) = unseen(asked.model_right(key)) {
        return Err(refusal);
    }
    let plan = told(alloc, asked, key); // found
    match too_many(asked, key) {
        Some(refusal) => Err(refusal),
        None => plan,
    }
}""",
    "a plan that tests again behind a growth": """
pub fn plan_told(alloc: Global, asked: &Readers<'_>, key: &Key) -> Result<Plan, Refusal> {
    if let Some(refusal) = key_fault(key) {
        return Err(refusal);
    }
    let names = told(alloc, asked, key)?; // found
    seen(asked, key)?;
    Ok(names)
}
fn seen(asked: &Readers<'_>, key: &Key) -> Result<(), Refusal> {
    if let Some(refusal) = unseen(asked.model_right(key)) {
        return Err(refusal);
    }
    Ok(())
}""",
    "a test of sight behind a growth": """
fn seen_late(alloc: Global, asked: &Readers<'_>, key: &Key) -> Option<Refusal> {
    let _name = key.1.copy(alloc); // found // found
    unseen(asked.model_right(key))
}""",
    "another name of an allocator": """
fn told(memory: Global) {} // found""",
    "what is fine": """
pub fn plan_last(alloc: Global, asked: &Readers<'_>, key: &Key) -> Result<Plan, Refusal> {
    match unseen(asked.model_right(key)) {
        Some(refusal) => Err(refusal),
        None => match told(alloc, asked, key) {
            Ok(plan) => Ok(plan),
            Err(AllocError) => wanting(),
        },
    }
}
pub fn plan_either(alloc: Global, asked: &Readers<'_>, key: &Key) -> Result<Plan, Refusal> { plan_names(alloc, asked, key) }
pub fn plan_told(alloc: Global, asked: &Readers<'_>, key: &Key) -> Result<Plan, Refusal> {
    let tests = [key_fault(key), unseen(asked.model_right(key))];
    if let Some(refusal) = first(&tests) {
        return Err(refusal);
    }
    let mut names = Vec::new(alloc);
    names.push(key.1.copy(alloc)?)?;
    Ok(Plan::told(alloc, Reply::Names(names_of(alloc, asked, key)?)))
}""",
}


def plants(texts):
    """The plants: what each is, its file, and the file's text."""
    def where(crate, name):
        return next((file for file in texts if file.startswith(crate) and any(it.name == name for it in functions_of(texts[file]))), None)

    for file, text in texts.items():
        for name in [it.name for it in functions_of(text) if file.startswith(PLANS) and it.name.startswith("plan_")]:
            yield f"room at the beginning of {name}", file, planted(text, name, ROOM)
    for told, crate, name, statements in STATEMENTS:
        file = where(crate, name)
        yield f"{told}, in {name}", file, file and planted(texts[file], name, statements)
    for told, items in ITEMS.items():
        file = where(PLANS, "plan_names")
        yield told, file, file and f"{texts[file]}{items}\n"


def self_test(texts):
    """Plants each, and answers how many there were, and what wasn't found, or was found and is fine."""
    texts = {file: text for file, text in texts.items() if file.startswith(READ)}
    before, faults, count = faults_in(texts), [], 0
    for told, file, text in plants(texts):
        count += 1
        if file:
            there = [it for it in faults_in({**texts, file: text}) if it.file == file]
            faults += missed(told, there, sum(it.file == file for it in before), text)
        else:
            faults.append(f"self-test: {told}: there is nothing to plant into")
    return count, faults
