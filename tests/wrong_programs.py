"""The wrong programs of the must-fail edits, and what the prover says of them.

An edit, crates/NAME/must-fail/LABEL.edit, has one wrong program or several. Each of several begins with its name in a comment, `# NAME` or
`# NAME: what is wrong`; one that is alone may have the edit's name. A comment may say what refuses it: `# refused in FILE: NAME`, a law, a
test or a goal of a proof, or `# refused by FUNCTION`.
"""
import collections
import pathlib
import re

import rooms

# A wrong program: its changes, each a file, the text as it stands and the wrong one; what is said to refuse it.
Program = collections.namedtuple("Program", "name changes place")
NAMED = re.compile(r"# ([a-z][a-z_0-9]*)(:|$)")
PLACE = re.compile(r"# refused (?:in (\S+): (\S+)|by (\S+))$")
FUNCTION = re.compile(r"^ *(?:pub(?:\(\w+\))? )?(?:const )?(?:extern \"C\" )?fn (\w+)", re.M)
# An error that is not the declaration's own: it rests on another that was refused.
RESTS = re.compile(r"declarations? that depends? on|was not admitted|was rejected|were not admitted")
ERROR = re.compile(r"^(?:\./)?(\S+?):\d+:\d+: error: (?:`([^`]*)`: )?(.*)")
# A goal that is left open, and an answer to one that is not there.
OPEN = re.compile(r"^note: (src/\S+?):(\d+):\d+: it is not proved that .*\(`([^`]*)`\)", re.M)
GONE = re.compile(r"^(?:\./)?(proofs/\S+?):\d+:\d+: error: `([^`]*)`: `goal\.[^`]*`: module `[^`]*` has no `\2`", re.M)
# What shows nothing of a contract: the text does not compile, or it names what is not there, or a proof does.
UNFIT = re.compile(r"error\[[\w-]+\]|is not in scope|that can be named from here|has no field|is no name|operand is missing|"
                   r"expected the end|cannot continue|does not define it")


def edits(names=()):
    """The edits of all crates, or of the named ones."""
    found = sorted((rooms.ROOT / "crates").glob("*/must-fail/*.edit"))
    return [edit for edit in found if not names or edit.parent.parent.name in names]


def programs(edit):
    """The wrong programs of an edit, by their names."""
    name, file, old, found, told = edit.stem, "", "", {}, {}
    for line in edit.read_text(encoding="utf-8").splitlines():
        if PLACE.match(line):
            path, lemma, function = PLACE.match(line).groups()
            told[name] = (path, lemma or function)
        elif NAMED.match(line):
            name = NAMED.match(line).group(1)
        elif line.startswith("file: "):
            file = line.removeprefix("file: ").strip()
        elif line.startswith("old: "):
            old = line.removeprefix("old: ")
        elif line.startswith("new:"):
            found.setdefault(name, []).append((file, old, line.removeprefix("new:").removeprefix(" ")))
    return {name: Program(name, changes, told.get(name)) for name, changes in found.items()}


def functions_in(file, text):
    """The functions that begin in a text of a file, each behind its modules."""
    modules = [part for part in pathlib.PurePath(file).with_suffix("").parts[1:] if part not in ("lib", "main", "mod")]
    return [(*modules, name) for name in FUNCTION.findall(text)]


def function_at(crate, file, text):
    """The function of a crate in which a text stands; nothing outside of functions."""
    source = (crate / file).read_text(encoding="utf-8")
    before = functions_in(file, source[:source.index(text) + len(text)]) if text in source else []
    return before[-1] if before else None


def functions_of(crate, program):
    """The functions that a wrong program changes."""
    code = [function_at(crate, file, old) for file, old, _ in program.changes if file.endswith(".rt")]
    return {function for function in code if function}


def owners(crate, program):
    """What must be refused of a wrong program: where it says what, that function, or the function of that goal, or that law or test; else
    the functions that it changes."""
    if not program.place:
        return functions_of(crate, program)
    path, name = program.place
    sources = [(source.relative_to(crate), source.read_text(encoding="utf-8")) for source in (crate / "src").rglob("*.rt")]
    every = {function for file, text in sources for function in functions_in(file, text)}
    if path is None:
        return {function for function in every if function[-1] == name.split("::")[-1]}
    return {function for function in every if proof_of(function).fullmatch(path)} or {program.place}


def own_errors(said):
    """The errors that are a declaration's own: of each the file, the declaration and what is said."""
    found = (ERROR.match(line) for line in said.splitlines())
    return [one.groups() for one in found if one and one.group(2) and not RESTS.search(one.group(3)) and not UNFIT.search(one.group(3))]


def open_goals(said):
    """The goals that the search did not prove: of each the function, with its modules, and the goal."""
    for crate, function, told in re.findall(r"^fn (\w+)::(\S+): (?:no proof|not proved)(.*)$", said, re.M):
        goals = re.search(r"`search` did not prove ((?:`[^`]*`(?:, | and )?)+)", told)
        for goal in re.findall(r"`([^`]*)`", goals.group(1)) if goals else []:
            yield tuple(function.split("::")), goal


def noted_goals(crate, said):
    """The goals that are noted as open, also of a function that has answers with errors: of each the function and the goal."""
    for file, line, goal in OPEN.findall(said):
        before = "\n".join((crate / file).read_text(encoding="utf-8").split("\n")[:int(line)])
        yield (functions_in(file, before) or [()])[-1], goal


def proof_of(function):
    """What the files of a function's proof are called."""
    *modules, name = function
    folder = re.escape("/".join(["proofs", *modules]))
    return re.compile(rf"{folder}/(?:{name}|\+(?:\w+_)?{name}(?:_\w+)?)/\w+\.antt")


def function_refused(said, function):
    """Whether a function is not proved for a reason of its own: an error of its proof, or a goal that is left open."""
    proof = proof_of(function)
    return any(proof.fullmatch(file) for file, _, _ in own_errors(said)) or any(of == tuple(function) for of, _ in open_goals(said))


def place_refused(said, crate, program):
    """Whether the law, the test or the goal that is said to refuse a wrong program has an error of its own. So has a goal that is left open,
    if no answer of its file does not fit."""
    path, name = program.place
    if any((file, declaration) == (path, name) for file, declaration, _ in own_errors(said)):
        return True
    goals = {*open_goals(said), *noted_goals(crate, said)}
    return any((function, name) in goals for function in owners(crate, program)) and path not in dict(unfit(said))


def refused(said, crate, program):
    """Whether a wrong program is refused for a reason of its own."""
    if program.place and program.place[0]:
        return place_refused(said, crate, program)
    if program.place or functions_of(crate, program):
        return any(function_refused(said, function) for function in owners(crate, program))
    return bool(own_errors(said)) or any(open_goals(said))


def unfit(said):
    """The lines that say that a text or a proof does not fit, which shows nothing: of each the file and the line."""
    found = [line for line in said.splitlines() if re.search(r"error[:\[]", line) and UNFIT.search(line)]
    return [(line.removeprefix("./").partition(":")[0], line) for line in found]


def does_not_fit(said, crate, program):
    """The first line that says that the proof of what must be refused, or of a function that is changed, does not fit a wrong program."""
    proofs = [proof_of(function) for function in functions_of(crate, program) | owners(crate, program)]
    files = {program.place[0]} if program.place else set()
    return next((line for file, line in unfit(said) if file in files or any(proof.fullmatch(file) for proof in proofs)), "")


def apply(room, changes):
    """Makes changes in a room; what cannot be made."""
    for file, old, new in changes:
        path = room / file
        text = path.read_text(encoding="utf-8") if path.is_file() else ""
        if text.count(old) != 1:
            return f"`{old.strip()}` stands {text.count(old)} times in {file}, and not once"
        path.write_text(text.replace(old, new), encoding="utf-8")
    return ""


def fit(room, said):
    """Gives an answer whose goal is gone the name of the goal that is left open, in each function that has one of each; whether any has. A
    goal is called by the code, so that other code may ask the same under another name."""
    gone, left, fitted = GONE.findall(said), list(noted_goals(room, said)), False
    for file, old in gone:
        names = [goal for function, goal in left if proof_of(function).fullmatch(file)]
        if len(names) == 1 and [path for path, _ in gone].count(file) == 1:
            path, fitted = room / file, True
            path.write_text(re.sub(rf"(?<![\w'-]){re.escape(old)}(?![\w'-])", names[0], path.read_text(encoding="utf-8")), encoding="utf-8")
    return fitted


def tried(name, changes, fits=False):
    """What a check of a crate with these changes says, where wanted with its answers fitted; and why it shows nothing at all, if so."""
    with rooms.room(name) as room:
        why = apply(room, changes)
        if why:
            return "", why
        status, said = rooms.check(room)
        if fits and fit(room, said):
            status, said = rooms.check(room)
    if status == 0:
        return said, "it is proved"
    lines = said.strip().splitlines()
    read = [line for file, line in unfit(said) if not file.startswith("proofs/")]
    if read or not re.search(r"^logic=not-proved", said, re.M):
        return said, read[0] if read else f"the check gave no verdict: {lines[-1] if lines else 'it said nothing'}"
    return said, ""
