"""The must-fail edits: what each calls wrong or altered, what it changes, and at which fact the prover refused it.

An edit is a file of its own, and what rt does not read of it is a comment:

    # wrong: crate::function: what is wrong        # altered: specs/FILE NAME: what is altered
    file: src/FILE.rt                              file: specs/FILE.antt
    old: ..                                        old: ..
    new: ..                                        new: ..

Where it is refused `rt ci` says, and .ci/run keeps that in target/ci.log: one line an edit, with the first fact that fails. That
is a goal of a function, told by its proof file (`proofs/draw/walk/Answers.antt:7:10: error: `returns`: ..`) or, where the prover
made the proof itself, by the source (`note: src/draw.rt:12:5: .. (`returns`) ..`), or a lemma (`proofs/Boxes.antt:31:9: ..`).
"""
import dataclasses
import functools
import pathlib
import re

ROOT = pathlib.Path(__file__).resolve().parent.parent
LOG = ROOT / "target" / "ci.log"
REFUSED = ": refused, as it must be: "
# what is said where a proof does not fit the program at all, so that no fact was tried
UNFIT = re.compile(r"has no field|has no `|: record `|that can be named from here|was not admitted|was rejected|was not checked|not in scope")
PLACE = re.compile(r"(?:note: )?(?:\./)?((?:src|specs|proofs)/\S+?)\.(?:rt|antt):(\d+):\d+: (?:error: )?(.*)")


@functools.cache
def crates():
    return sorted(p.name for p in (ROOT / "crates").iterdir())


@dataclasses.dataclass
class Function:
    name: str  # crate::name, crate::Type::name or crate::<Type as Trait>::name
    public: bool
    file: str  # src/FILE.rt
    lines: range
    body: str


def folder_of(name):
    """where the proof files of a function stand below its module: `Type/name`, and `TypeTrait/name` where it is a trait's"""
    return re.sub(r"^<(\w+) as (\w+)>", r"\1\2", name).replace("::", "/")


def bare(name):
    """a function's name without its type"""
    return name.rpartition("::")[2]


@functools.cache
def functions(crate):
    """the functions of a crate, each by its name, with its type and its trait where it has them"""
    found = {}
    for source in sorted((ROOT / "crates" / crate / "src").rglob("*.rt")):
        lines, kind = source.read_text().splitlines(), ""
        for number, line in enumerate(lines):
            if block := re.match(r"impl(?:<.*?>)? (?:(?:\w+::)*(\w+)(?:<.*>)? for )?(\w+)(?:<.*>)? \{", line):
                kind = f"<{block[2]} as {block[1]}>::" if block[1] else f"{block[2]}::"
            elif line == "}":
                kind = ""
            elif head := re.match(r'(\s*)(pub )?(?:pub\(crate\) |extern "C" )?fn (\w+)', line):
                last = lines.index(head[1] + "}", number)
                where = str(source.relative_to(ROOT / "crates" / crate))
                body = "\n".join(lines[number + 1:last])
                name = kind + head[3]
                first = number - lines[number - 1].lstrip().startswith("#[")
                public = bool(head[2]) or kind.startswith("<")
                found[name] = Function(f"{crate}::{name}", public, where, range(first + 1, last + 2), body)
    return found


@functools.cache
def called(crate, name):
    """the names of the crate's functions that may be what a function calls"""
    names = {bare(own) for owner, own in re.findall(r"(?:(\w+)::)?\b(\w+)\(", functions(crate)[name].body) if owner not in crates()}
    return {f for f in functions(crate) if bare(f) in names}


def own_code(crate, name):
    """the names of a function and of the private functions that it reaches by calls"""
    reached, ahead = set(), [name]
    while ahead:
        name = ahead.pop()
        reached.add(name)
        ahead += [f for f in called(crate, name) if f not in reached and not functions(crate)[f].public]
    return reached


@dataclasses.dataclass
class Fact:
    function: str  # name or Type::name; none where it is a lemma's
    lemma: str  # proofs/FILE
    goal: str  # of a function, or the lemma

    def __str__(self):
        return f"`{self.function}` `{self.goal}`" if self.function else f"`{self.goal}` ({self.lemma})"


@dataclasses.dataclass
class Entry:
    kind: str  # wrong or altered
    subject: str  # crate::function, or specs/FILE NAME
    words: str
    crate: str
    label: str
    changes: list = dataclasses.field(default_factory=list)  # (file, old, new)
    fact: Fact | None = None

    @property
    def edit(self):
        return f"{self.crate}/{self.label}"

    def __str__(self):
        return f"{self.edit}: {self.subject}: {self.words}"


def entries(problems):
    """what every edit says, and where it was refused"""
    found = []
    for path in sorted((ROOT / "crates").glob("*/must-fail/*.edit")):
        entry, file, old = None, "", ""
        for line in path.read_text().splitlines():
            key, _, rest = line.removeprefix("# ").partition(": ")
            if key in ("wrong", "altered"):
                if entry:
                    problems.append(f"{entry}: says two things: `{line}`")
                subject, _, words = rest.partition(": ")
                entry = Entry(key, subject, words, path.parent.parent.name, path.stem)
            elif key == "file":
                file = rest
            elif key == "old":
                old = rest
            elif key == "new" and entry:
                entry.changes.append((file, old, rest))
        if entry:
            found.append(entry)
        else:
            problems.append(f"{path.relative_to(ROOT)}: does not say what is wrong")
    said = log(problems)
    for name in said.keys() - {e.edit for e in found}:
        problems.append(f"target/ci.log is of another tree: {name}")
    for entry in found:
        check_refused(entry, said.get(entry.edit, ""), problems)
    return found


def log(problems):
    """{crate/label: what rt said of the edit}"""
    if not LOG.exists():
        problems.append("there is no target/ci.log: rt ci >target/ci.log")
        return {}
    return dict(re.findall(r"^rt: must-fail (\S+)\.edit(: .*)", LOG.read_text(), re.M))


def fact(crate, place, number, told):
    """the fact that is told of a line: after the error's place, and of a source in brackets"""
    goal = re.match(r"`([^`]+)`: ", told) or re.search(r"\(`([^`]+)`\)", told)
    folder, _, file = place.rpartition("/")
    if place.startswith("src/"):
        at = [name for name, f in functions(crate).items() if f.file == f"{place}.rt" and number in f.lines]
    elif file in ("Answers", "Invariants", "Proof") and folder != "proofs":
        *_, kind, name = folder.split("/")
        at = [f for f in functions(crate) if folder_of(f) in (f"{kind}/{name}", name)]
    else:
        return goal and Fact("", place, goal[1])
    return Fact(at[0], "", goal[1]) if at and goal else None


def check_refused(entry, said, problems):
    """the prover refused the entry, and for a fact"""
    at = PLACE.match(said.removeprefix(REFUSED))
    if not said:
        problems.append(f"{entry}: was not tried: target/ci.log has no line of it")
    elif not said.startswith(REFUSED):
        problems.append(f"{entry}: is not refused as it should be{said}")
    elif UNFIT.search(said):
        problems.append(f"{entry}: is refused for no fact{said}")
    elif not at or not (found := fact(entry.crate, at[1], int(at[2]), at[3])):
        problems.append(f"{entry}: is refused at no fact that can be told{said}")
    else:
        entry.fact = found


def changed_functions(entry, problems):
    """the names of the functions that an entry changes"""
    found, all_functions = set(), functions(entry.crate)
    for file, old, _ in entry.changes:
        text = (ROOT / "crates" / entry.crate / file).read_text()
        line = text[:text.index(old)].count("\n") + 1 if old in text else 0
        inside = [name for name, f in all_functions.items() if f.file == file and line in f.lines]
        if inside:
            found.add(inside[0])
        else:
            problems.append(f"{entry}: changes no function: {old.strip()}")
    return found


def check(entry, problems):
    """an entry has a change of its own, in the code or the law that it names, and is refused at a fact of what it changes"""
    folder = {"wrong": "src/", "altered": "specs/"}[entry.kind]
    if not entry.changes:
        problems.append(f"{entry}: has no change of its own")
    for file, _, new in entry.changes:
        if not file.startswith(folder):
            problems.append(f"{entry}: changes {file}, which is not in {folder}")
        if "/*" in new or "//" in new:
            problems.append(f"{entry}: comments code out")
    if entry.kind == "wrong":
        check_wrong(entry, problems)
    else:
        check_altered(entry, problems)


def check_altered(entry, problems):
    """what it changes is the file that it names, which defines what it names"""
    file, _, name = entry.subject.partition(" ")
    law = ROOT / "crates" / entry.crate / f"{file}.antt"
    if {f"{file}.antt"} != {changed for changed, _, _ in entry.changes}:
        problems.append(f"{entry}: changes another file")
    elif not re.search(rf"^ *(?:unfoldable |abbrev )*pub (?:record |data )?{name}\b", law.read_text(), re.M):
        problems.append(f"{entry}: {file} does not define {name}")


def check_wrong(entry, problems):
    """what it changes is the function's own code, and what fails is a fact of what it changes"""
    all_functions, wrong = functions(entry.crate), entry.subject.partition("::")[2]
    of = all_functions.get(wrong)
    if of is None or of.name != entry.subject or not (of.public or of.file == "src/main.rt"):
        problems.append(f"{entry}: no such function that is public or a program's own")
        return
    changed = changed_functions(entry, problems)
    for name in changed - own_code(entry.crate, wrong):
        problems.append(f"{entry}: changes {name}, which is no code of {wrong}")
    if entry.fact and entry.fact.function not in changed:
        problems.append(f"{entry}: {entry.fact} is no fact of what it changes")
