"""Wrong bodies of one crate, tried in a copy of it, many by one check.

A check proves each function over the contracts of those that it calls, and names the open goals. So a wrong body is planted in a twin of
its function, a copy with another name and with copies of its proof files, and is refused if a goal of the twin is open. All else of a crate
that is proved stands by its contracts: its proofs are holes. What has no twin is planted in its place, or else is tried alone.
"""

import re
from collections import namedtuple
from pathlib import Path

from checkout import modules
from libraries import run

# The proof of a function that stands by its contract. And what a check prints of a goal, a function, a type or an impl, and of an error.
HOLE = "use Rattle.{0}.proofs.{1}.Statement.{{statement}}\npub {2}_spec : {{M : Type 1}} → statement M\n{2}_spec = ?\n"
GOAL = re.compile(r"note: (?:\./)?(src/\S+\.rt):(\d+):\d+: (.* \(`[^`]+`\))")
FUNCTION = re.compile(r"(?:fn|struct|enum|union|trait|impl) (\S+): (.*)")
ERROR = re.compile(r"(?:\./)?((?:src|specs|proofs)/\S+?):\d+:\d+: error(?:\[\S+\])?: (.*)")
# What an error says if a name is gone or a text unread, so that no goal was tried.
UNREAD = re.compile(r"is not in scope|has no field|has no `|is no name|not admitted|was rejected|operand is missing|expected the end|cannot continue|\(nearest: ")
# What is told of a wrong body with which all is proved.
NOT_REFUSED = "not refused"
IMPL = re.compile(r"impl\b(?:<.*?>)? (.* for )?&?(\w+)")
OPENS = re.compile(r"( *)(?:pub(?:\([^)]*\))? )?(?:const )?(?:unsafe )?fn (\w+)")
# A function, with the type that it is a method of, of which trait (None: of none), and its lines; and a wrong body: new lines, by place, and whose they are (None: no function's).
Function = namedtuple("Function", "path name owner trait first opens last")
Edit = namedtuple("Edit", "name lines functions")


def functions_of(path, lines):
    """The functions with a body of a file in the layout of rt fmt: it ends at the first brace right under the start of `fn`."""
    for first, line in enumerate(lines):
        opens = OPENS.match(line)
        ends = re.compile(opens[1] + r"(?:(\S.*|    \S.*\});|(\S.*)?\{\}?)$") if opens else None
        at = next((at for at in range(first, len(lines)) if ends.match(lines[at])), None) if opens else None
        if at is not None and not lines[at].endswith(";"):
            while re.match(r"\s*[^\s/]", lines[first - 1]) and not lines[first - 1].endswith(("{", "}", ";")):
                first -= 1
            owner = next((IMPL.match(it) for it in lines[first::-1] if it[:1].strip()), None) if opens[1] else None
            trait = None if not opens[1] or owner and not owner[1] else re.sub(r"\w+::|\W", "", owner[1].removesuffix(" for ")) if owner else ""
            last = lines.index(opens[1] + "}", at) if not lines[at].endswith("}") else at
            yield Function(path, opens[2], owner[2] if owner else "", trait, first, at, last)


def read_edit(name, text, texts):
    """Reads a wrong body: a line 'file: PATH', and pairs of lines 'old: TEXT' and 'new: TEXT', over the texts of the crate's files."""
    path, old, changed, lines, functions = "", "", {}, {}, set()
    for key, value in (re.match("(file|old|new|): ?(.*)|", line).groups("") for line in text.splitlines()):
        path, old = value.strip() if key == "file" else path, value if key == "old" else old
        if key == "new":
            was = changed.get(path, texts.get(path, ""))
            if not old or was.count(old) != 1:
                raise ValueError(f"its old text stands in {path} {was.count(old) if old else 0} times, and not once: {old}")
            changed[path] = was.replace(old, value)
    for path, new in changed.items():
        spans = [*functions_of(path, texts[path].split("\n"))]
        for at, (was, line) in enumerate(zip(texts[path].split("\n"), new.split("\n"))):
            if line != was:
                lines[path, at] = line
                functions.add(min((it for it in spans if it.first <= at <= it.last), key=lambda it: it.last - it.first, default=None))
    if not lines:
        raise ValueError("it changes nothing")
    return Edit(name, lines, functions)


def proof_files(function, texts):
    """The files of a function's own proof, which stand under its module, or under that of the type that it is a method of."""
    here, of_type = "/".join(["proofs", *modules(function.path), function.name]), f"/{function.owner}/{function.name}"
    folders = [(it, it.rpartition("/")[0]) for it in texts if it.startswith("proofs/")]
    return [it for it, folder in folders if (folder.endswith(of_type) if function.owner else folder == here)]


def has_twin(edit, texts):
    """Whether a twin is judged as the function is: one is changed, no trait has it, and only its own proof files speak of its proof."""
    function = next(iter(edit.functions))
    own = proof_files(function, texts) if function else []
    names = {it.rpartition("/")[0].replace("/", ".") + "." for it in own}
    is_alone = not any(name in text for name in names for path, text in texts.items() if path not in own)
    return is_alone and len(edit.functions) == 1 and function is not None and function.trait is None


def holes(name, texts):
    """The files by which each function of a crate that no trait has stands by its contract alone, with no body. All keeps its line."""
    files, sources = {}, {path: text.split("\n") for path, text in texts.items() if path[:4] == "src/"}
    for function in [it for path, lines in sources.items() for it in functions_of(path, lines) if it.trait is None]:
        home = [it for it in sources if re.search(rf"\b(struct|enum) {function.owner}\b", texts[it])] if function.owner else []
        words = [*modules([*home, function.path][0]), *filter(None, [function.owner]), function.name]
        files["/".join(["proofs", *words, "Proof.antt"])] = HOLE.format(name, ".".join(words), function.name)
        inner = function.last - function.opens - 1
        sources[function.path][function.opens + 1:function.last] = ["unreachable!()", *[""] * inner][:inner]
    return files | {path: "\n".join(lines) for path, lines in sources.items()}


def in_twins(edits, texts, around):
    """The files that change if each wrong body stands in a twin of its function, with all else as around it; and the wrong bodies by the names of their twins."""
    files, names, after = {}, {}, {}
    for edit in edits:
        [function] = edit.functions
        lines, twin = texts[function.path].split("\n"), f"{function.name}_twin_{len(names)}"
        body = "\n".join(edit.lines.get((function.path, at), lines[at]) for at in range(function.first, function.last + 1))
        after.setdefault((function.path, function.last), []).extend(["", re.sub(rf"\bfn {function.name}\b", f"fn {twin}", body, count=1)])
        names[twin] = edit.name
        for path in proof_files(function, texts):
            *above, own, file = path.split("/")
            files["/".join([*above, twin, file])] = texts[path].replace(".".join([*above, own, ""]), ".".join([*above, twin, ""]))
    for path in {path for path, _ in after}:
        files[path] = "\n".join(it for at, line in enumerate(around[path].split("\n")) for it in [line, *after.get((path, at), ())])
    return files, names


def settled(whose, status, said):
    """Of wrong bodies tried by one check those that are refused, each with its goal; None if the check counts for nothing."""
    refused, goals = {}, []
    for line in said.splitlines() if re.search(r"\n(logic|only)=", said) and status in (0, 1) else ["src/:0:0: error: no verdict"]:
        goal, ends, error = GOAL.match(line), FUNCTION.match(line), ERROR.match(line)
        edit = whose(ends[1].split("::") if ends else error[1].split("/")[:-1]) if ends or error else None
        # Who only calls a refused function has no proof either, nor who stands by a contract alone.
        if (error or ends and not ends[2].startswith(("proved", "no proof: it calls", "no holes", "depends on a hole"))) and edit is None:
            return None
        if goal:
            goals.append(goal[3])
        elif error and not UNREAD.search(error[2]):
            refused.setdefault(edit, error[2])
        elif ends:
            # The goals of a function stand before its line.
            refused.update({edit: it for it in goals[:1] if edit})
            goals = []
    return refused


class Crate:
    """A copy of a crate in a folder, in which wrong bodies are planted and checked by these words, while `keeps_on` says so."""

    def __init__(self, texts, folder, words, keeps_on, proofs):
        self.texts, self.around, self.folder, self.keeps_on, self.holes = texts, {**texts, **proofs}, Path(folder), keeps_on, proofs
        self.words = [*words, "--jobs", "1", "--incremental", "kept"]
        self.write(texts)

    def write(self, files):
        for path, text in files.items():
            (self.folder / path).parent.mkdir(parents=True, exist_ok=True)
            (self.folder / path).write_text(text)

    def check(self, files, only=()):
        """Checks the crate with these texts, or only these functions if all others can stand by their contracts. All is as it was, after."""
        if not self.keeps_on():
            raise TimeoutError
        words = [word for it in only for word in ("--only", it)] + ["--allow-holes"] if only and self.holes else []
        self.write(files := {**self.holes, **files} if words else files)
        status, said = run([*self.words, *words], self.folder)
        for path in files:
            (self.folder / path).write_text(self.texts[path]) if path in self.texts else (self.folder / path).unlink()
        return status, joined(said)

    def together(self, edits, by_contracts=True):
        """Tries wrong bodies in twins by one check. Gives those that are refused, each with its goal; None if the check counts for nothing."""
        files, names = in_twins(edits, self.texts, self.around if by_contracts else self.texts)
        return settled(lambda words: next((names[it] for it in names if it in words), None), *self.check(files, names if by_contracts else ()))

    def in_halves(self, edits):
        """Tries wrong bodies of which one does not compile, or meets a limit of the check. Halves find it."""
        halves = [(it, self.together(it, False)) for it in (edits[::2], edits[1::2]) if it and len(edits) > 1]
        return {name: goal for half, found in halves for name, goal in (self.in_halves(half) if found is None else found).items()}

    def planted(self, edits, around):
        """The files that change if wrong bodies stand in their places, with all else as around them."""
        lines = {at: line for edit in edits for at, line in edit.lines.items()}
        return {path: "\n".join(lines.get((path, at), it) for at, it in enumerate(around[path].split("\n"))) for path, _ in lines}

    def in_place(self, edits):
        """Tries wrong bodies of different methods of traits in their places by one check. Gives those that are refused, each with its goal."""
        names = {f"{it.owner}{it.trait or ''}::{it.name}".removeprefix("::"): edit.name for edit in edits for it in edit.functions}
        whose = lambda words: next((names[it] for it in names if "::".join(["", *words]).endswith("::" + it)), None)
        return settled(whose, *self.check(self.planted(edits, self.around), names)) or {}

    def alone(self, edit):
        """Tries one wrong body in its place. Gives whether it is refused, and its goal or what is wrong with it."""
        is_refused, told = judged(*self.check(files := self.planted([edit], self.texts)))
        if is_refused or told:
            return is_refused, told
        # A check refuses what is no text, in any file that it reads.
        return False, NOT_REFUSED if self.check({it: "} " + text for it, text in files.items()})[0] else f"bad edit: no check reads {min(files)}"

    def over(self, words):
        """Checks the crate by words that name crates below with a wrong definition. Gives whether it is refused, and its goal or why not."""
        if not self.keeps_on():
            raise TimeoutError
        status, said = run([*words, "--jobs", "1", "--incremental", "kept"], self.folder)
        is_refused, told = judged(status, joined(said))
        return is_refused, told or NOT_REFUSED


def joined(said):
    """What a check said, with the word that a name is gone on the line of its error, behind which it may stand."""
    return re.sub(r"\n  (?=has no )", " ", said)


def judged(status, said):
    """Whether a check refuses what is wrong, with its goal; or what is wrong with the edit; or no word if all is proved."""
    errors = [it for it in map(ERROR.match, said.splitlines()) if it]
    unread = [it[0] for it in errors if it[1][:6] != "proofs" and (it[1][:5] == "specs" or it[2][0] != "`" or UNREAD.search(it[2]))]
    told = [it[3] for it in map(GOAL.match, said.splitlines()) if it] + [it[2] for it in errors if not UNREAD.search(it[2])]
    if unread or "\nlogic=" not in said or status not in (0, 1):
        return False, f"bad edit: {[*unread, *said.splitlines()[-1:], 'the check said nothing'][0]}"
    if status == 1:
        return bool(told), [*told, "bad edit: no goal is open, and a proof only names what it took away"][0]
    return False, ""
