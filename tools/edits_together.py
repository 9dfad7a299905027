"""Tries all edits of a room by one check: each in a copy of its function that stands beside the real one, under a name of its own.

Only what a function's contract says matters to its callers. So an edit of a body is refused where its own function is refused, whatever
else is changed. The checked room has, for each edit, the function once more with the edit in it, and the proof under the new name. Each
real function stands there without its body, and its proof is a hole, so that nothing is proved anew but the copies. One copy has no edit
and has to be admitted. An edit of a constant that its file keeps to itself has a copy of each function that names it. What can't be copied,
a method of a trait, is edited where it stands, in checks behind the first. An edit that changes no body goes alone: it is named, and
`rt must-fail` tries it.

An edit is refused where a goal of its own function stays open, or the answer to one fails; what its callees lack tells nothing. Where an
edit takes away a name that an answer has, the answer is tried once more under the name that stands in its place."""
import copy
import difflib
import glob
import os
import re
import resource
import shutil
import subprocess
import sys

from room_functions import functions_in, sources
from rooms_below import TOP, all_below, copied, folder, lines_of, linked

PLACE = os.path.join(TOP, ".git", "try-edits")
HOLE = "use Rattle.%s.proofs.%s.Statement.{statement}\n\npub %s_spec : {M : Type 1} → statement M\n%s_spec = ?\n"
TACTIC = re.compile(r"(?m)^ *#\[tactic\((?:[^\[\]]|\[[^\]]*\])*?\)\]\n")
CONSTANT = re.compile(r"const (\w+)\b.*;")
# what the prover says of a function that it admits, given the contracts of those that it calls
ADMITTED = ("proved", "no holes", "depends on a hole")
# an error that comes of a name which the edit took away, and tells nothing of a contract
NAMES = re.compile(r"^record `|has no field|\(nearest: |is not in scope|has no `|was not admitted|is no name|: module `|a dot |is already ")
# what is said of a refused edit, from the strongest to what shows nothing
REFUSED, BY_SEARCH, BY_NAME, ADMITS = "refused", "refused by search alone", "refused by a name alone", "NOT REFUSED"


def holder(functions, file, line):
    """the function in whose body a line stands"""
    return next((f for f in functions if f.file == file and f.brace < line < f.last), None)


def whole(word):
    return re.compile(r"\b%s\b" % re.escape(word))


class Edit:
    """A file of edits/ROOM: its pairs of texts, the functions that it changes, and their paths where they stand with the edit."""

    def __init__(self, path, texts, functions):
        self.name, self.pairs, self.paths, self.constant, self.renamed = os.path.basename(path)[: -len(".edit")], [], [], None, {}
        file = old = None
        with open(path, encoding="utf-8") as text:
            for word, rest in re.findall(r"(?m)^(file|old|new): ?(.*)$", text.read()):
                file, old = (rest.strip(), old) if word == "file" else (file, rest if word == "old" else old)
                self.pairs += [(file, old, rest)] * (word == "new")
        stand = [(file, texts[file].split(old)[0].count("\n")) for file, old, _ in self.pairs if old in texts.get(file, "")]
        inside = [holder(functions, file, line) for file, line in stand]
        one = inside[:1] if len(inside) == len(self.pairs) and all(f is inside[0] for f in inside) else [None]
        self.functions = self.naming(texts, functions) if None in one else one
        self.is_copied = bool(self.functions) and not any(f.trait for f in self.functions)
        self.by_answers = False

    def naming(self, texts, functions):
        """the functions that name the constant which the edit changes, where nothing else does"""
        file, old, _ = self.pairs[0]
        found = CONSTANT.match(old)
        if not found or len(self.pairs) > 1 or old not in texts.get(file, ""):
            return []
        self.constant, word = found[1], whole(found[1])
        others = [re.sub("//.*", "", text) for path, text in texts.items() if path != file and "const %s:" % self.constant not in text]
        lines = [at for at, line in enumerate(texts[file].split("\n")) if word.search(line.split("//")[0]) and line != old]
        users = [holder(functions, file, at) for at in lines]
        return [] if None in users or any(map(word.search, others)) else list(dict.fromkeys(users))

    def lines_told(self, found):
        """what is said of the functions that have the edit, by all that is said of functions"""
        if self.is_copied:
            return [found.get(path, "no line") for path in self.paths]
        function = self.functions[0]
        method = re.compile(r"(.*::)?%s%s\w*::%s" % (function.owner, function.trait, function.name))
        return [words for path, words in found.items() if method.fullmatch(path)] or ["no line"]

    def applied(self, text, mark):
        """a function's text with the edit in it; of a constant it names the edited one"""
        if self.constant:
            return whole(self.constant).sub(self.constant + mark.upper(), text)
        for _, old, new in self.pairs:
            text = text.replace(old, new, 1)
        return text


def has_answers(room, function):
    return os.path.exists(os.path.join(folder(room), "proofs", *function.path, "Answers.antt"))


def without_search(text):
    """a function's text whose goals have no proof but the answers that are written"""
    return re.sub(r"(?m)^( *)(?=(pub(\([^)]*\))? )?(const )?(unsafe )?fn )", r"\1#[tactic(none)]\n\1", TACTIC.sub("", text), count=1)


def edits_of(room):
    texts = sources(folder(room))
    functions = functions_in(texts)
    paths = sorted(glob.glob(os.path.join(TOP, "edits", room, "*.edit")))
    return [Edit(path, texts, functions) for path in paths], texts, functions


class Trial:
    """A copy of a room and of those below it, in which edits stand and real functions have no proof."""

    def __init__(self, room, texts, functions):
        self.room, self.texts, self.place, self.lines, self.emptied = room, dict(texts), os.path.join(PLACE, room), {}, {}
        self.folder = folder(room, self.place)
        lines, rooms = lines_of()
        below = all_below(room, rooms)
        # a later check of the same run begins with what an earlier one kept
        kept = os.path.join(PLACE, room + ".kept")
        if os.path.isdir(os.path.join(self.folder, "out")):
            os.rename(os.path.join(self.folder, "out"), kept)
        shutil.rmtree(self.place, ignore_errors=True)
        copied(self.place, [*below, room], lines)
        if os.path.isdir(kept):
            os.rename(kept, os.path.join(self.folder, "out"))
        for name in below:
            linked(os.path.join(folder(name), "out", "rlib"), os.path.join(folder(name, self.place), "out", "rlib"))
        for function in functions:
            self.leave_open(function)

    def leave_open(self, function):
        """Takes away a function's body and puts a hole in the place of its proof. Methods of traits, and what calls itself, keep theirs."""
        path, proofs = function.path, os.path.join(self.folder, "proofs")
        if function.trait or os.path.isdir(os.path.join(proofs, *path[:-1], "+" + path[-1])):
            return
        self.emptied[function.file, function.brace] = function.last
        here = os.path.join(proofs, *path)
        os.makedirs(here, exist_ok=True)
        for name in glob.glob(os.path.join(here, "*.antt")):
            os.remove(name)
        with open(os.path.join(here, "Proof.antt"), "w", encoding="utf-8") as file:
            file.write(HOLE % (self.room, ".".join(path), path[-1], path[-1]))

    def prove(self, path, under, renamed):
        """Gives a copy the proof of its function, with these names of goals in place of others."""
        here = os.path.join(self.folder, "proofs", *under)
        for was in glob.glob(os.path.join(folder(self.room), "proofs", *path, "*.antt")):
            with open(was, encoding="utf-8") as file:
                text = file.read()
            os.makedirs(here, exist_ok=True)
            with open(os.path.join(here, os.path.basename(was)), "w", encoding="utf-8") as file:
                text = text.replace(".proofs.%s." % ".".join(path), ".proofs.%s." % ".".join(under))
                for old, new in renamed.items():
                    text = re.sub(r"(?<![A-Za-z0-9_])%s(?![A-Za-z0-9_])" % re.escape(old), new, text)
                file.write(text)

    def stand_beside(self, edits):
        """Writes for each edit the copies of its functions."""
        behind = {}
        for number, edit in enumerate(edits, 1):
            mark = "_try%d" % number
            for function in edit.functions:
                lines = self.texts[function.file].split("\n")[function.first : function.last + 1]
                at = function.head - function.first
                lines[at] = lines[at].replace("fn " + function.name, "fn " + function.name + mark, 1)
                text = edit.applied("\n".join(lines), mark)
                text = without_search(text) if edit.by_answers else text
                behind.setdefault((function.file, function.last), []).append((edit, text))
                under = [*function.path[:-1], function.name + mark]
                edit.paths.append("::".join(under))
                self.prove(function.path, under, edit.renamed)
            if edit.constant:
                file, old, new = edit.pairs[0]
                at = self.texts[file].split("\n").index(old)
                behind.setdefault((file, at), []).append((edit, edit.applied(new, mark)))
        self.write(behind, {})

    def write(self, behind, within):
        """Writes the files with what stands behind their lines and without the bodies that are taken away, and notes the edits' lines."""
        for file, text in self.texts.items():
            lines, closes = [], 0
            for at, line in enumerate(text.split("\n")):
                if at < closes:
                    continue
                lines.append(line)
                if (file, at) in within:
                    self.lines[file, len(lines)] = within[file, at]
                closes = self.emptied.get((file, at), 0)
                lines += ["unreachable!()"] * bool(closes)
                for edit, copied in behind.get((file, at), []):
                    self.lines.update({(file, len(lines) + below): edit for below in range(1, copied.count("\n") + 2)})
                    lines += copied.split("\n")
            with open(os.path.join(self.folder, file), "w", encoding="utf-8") as out:
                out.write("\n".join(lines))

    def stand_in_place(self, edits):
        """Writes the edits into their own functions, and asks for these by the names that they are likely to have."""
        within = {}
        for edit in edits:
            function = edit.functions[0]
            self.texts[function.file] = edit.applied(self.texts[function.file], "")
            within.update({(function.file, at): edit for at in range(function.first, function.last + 1)})
            edit.paths.append("::".join(function.guess))
        self.write({}, within)

    def stand_in_modules(self, edits):
        """The same, and asks for all of their modules."""
        self.stand_in_place(edits)
        for edit in edits:
            edit.paths = ["::".join(edit.functions[0].path[:-2])]

    def ask(self, paths):
        """what the check of these paths says"""
        words = [word for path in dict.fromkeys(paths) for word in ("--only", path)]
        said = os.path.join(PLACE, "%s.%d.said" % (self.room, len(glob.glob(os.path.join(PLACE, self.room + ".*.said")))))
        with open(said, "w", encoding="utf-8") as file:
            subprocess.run(["rt", "check", "--jobs", "1", "--allow-holes", *words], cwd=self.folder, stdout=file, stderr=subprocess.STDOUT)
        with open(said, encoding="utf-8", errors="replace") as file:
            return file.read()


def hear(trial, edits, said):
    """Gives each edit what the check says of its functions, and the notes and errors at their places; whether it came to any function."""
    found, asked, now = {}, {}, None
    owners = {os.path.join("proofs", *path.split("::")): edit for edit in edits for path in edit.paths}
    for edit in edits:
        edit.notes = []
    for line in said.split("\n"):
        told = re.match(r"fn %s::(\S+): (.*)" % trial.room, line)
        if told:
            now, found[told[1]] = told[1], told[2]
        lost = re.match(r"help: `Goals` has no `([^`]+)`; rattle asks for (.*)", line)
        if lost:
            asked.setdefault(now, {})[lost[1]] = re.findall("`([^`]+)`", lost[2].split(";")[0])
        at = re.match(r"(?:note: )?(?:\./)?((?:src|proofs)/[^\s:]+)(?::(\d+):\d+)?: ", line)
        edit = at and (trial.lines.get((at[1], int(at[2] or 0))) or owners.get(os.path.dirname(at[1])))
        if edit:
            edit.notes.append(line)
    for edit in edits:
        edit.told = edit.lines_told(found)
        edit.asked = {name: names for path in edit.paths for name, names in asked.get(path, {}).items()}
    return bool(found)


def verdict(edit):
    """A word for what was said of an edit, and the goals that refuse it, or else the first error."""
    if all(words.startswith(ADMITTED) for words in edit.told):
        return ADMITS, "its contract is met"
    if not any(words.startswith(("no proof", "not proved")) for words in edit.told):
        return "NOT TRIED", "; ".join(edit.told)
    errors = [re.match(r"\S+: error: (?:`([^`]+)`: )?(.*)", note) for note in edit.notes]
    lost = [error[1] for error in errors if error and NAMES.search(error[2])]
    goals = [error[1] or "error " + error[2][:100] for error in errors if error and not NAMES.search(error[2])]
    goals += [goal for words in edit.told for goal in re.findall(r"\.Answers\.([^`.]+)`", words) if goal not in lost]
    word = REFUSED if goals or not lost else BY_SEARCH
    if not edit.by_answers:
        notes = [note for note in (re.match(r"note: .*\(`([^`]+)`\)(.*)", note) for note in edit.notes) if note]
        word = REFUSED if any("this goal is false" in note[2] for note in notes) else word
        tried = [re.search(r"`search` did not prove ([^;]*)", words) for words in edit.told]
        goals += [goal for each in tried if each for goal in re.findall("`([^`]+)`", each[1])] + [note[1] for note in notes]
    if goals:
        return word, ", ".join(dict.fromkeys(goals))
    # a function that calls one which isn't proved says nothing of its own body
    return BY_NAME if lost else "NOT TRIED", ([note for note in edit.notes if ": error" in note] or edit.told)[0][:200]


def renaming(name, names):
    """What to write for a goal's name that an edit took away: the part that differs in the most alike of the names in its place."""
    alike = difflib.SequenceMatcher(None, "", name)

    def likeness(other):
        alike.set_seq1(other)
        return other.split("-")[0] == name.split("-")[0], alike.ratio()

    old, new = name.split("-"), max(names, key=likeness).split("-")
    front = len(os.path.commonprefix([old, new]))
    back = min(len(os.path.commonprefix([old[::-1], new[::-1]])), len(old) - front, len(new) - front)
    if front and front + back < min(len(old), len(new)) and old[front - 1] not in ("then", "else"):
        front -= 1
    elif back:
        back -= 1
    if front + back == len(old):
        return name, "-".join(new)
    return "-".join(old[front : len(old) - back]), "-".join(new[front : len(new) - back])


def checked(room, texts, functions, edits, stand):
    """Has a check say what it does of the edits, and returns those that it came to: one that doesn't compile is told and left out."""
    while edits:
        trial = Trial(room, texts, functions)
        for edit in edits:
            edit.paths = []
        stand(trial, edits)
        said = trial.ask([path for edit in edits for path in edit.paths])
        if hear(trial, edits, said):
            return edits
        wrong = [edit for edit in edits if any(": error" in note for note in edit.notes)]
        if not wrong and stand is Trial.stand_in_place:
            stand = Trial.stand_in_modules
            continue
        if not wrong:
            sys.exit("%s: the check came to no function:\n%s" % (room, said[-3000:]))
        for edit in wrong:
            print("%s/%s: BAD EDIT: %s" % (room, edit.name, next(note for note in edit.notes if ": error" in note)))
        edits = [edit for edit in edits if edit not in wrong]
    return []


def unedited(room, edits):
    """a copy without an edit, of an edited function that has a proof of its own where there is one"""
    proofs = os.path.join(folder(room), "proofs")
    control = copy.copy(next((edit for edit in edits if os.path.isdir(os.path.join(proofs, *edit.functions[0].path))), edits[0]))
    control.name, control.pairs, control.constant, control.functions = "no edit", [], None, control.functions[:1]
    return control


def in_rounds(edits):
    """the edits in groups in which no two change one function"""
    rounds = []
    for edit in edits:
        free = [group for group in rounds if all(other.functions[0] is not edit.functions[0] for other in group)]
        free[0].append(edit) if free else rounds.append([edit])
    return rounds


def tell(room, edits):
    """Prints a line for each edit, and returns how many are refused."""
    verdicts = [verdict(edit) for edit in edits]
    for edit, (word, why) in zip(edits, verdicts):
        print("%s/%s: %s: %s" % (room, edit.name, word, why), flush=True)
    return sum(word == REFUSED for word, _ in verdicts)


def judged(room, texts, functions, edits):
    """Judges edits in copies: first by the answers that functions have, which costs least, and by search what these don't refuse."""
    controls = [unedited(room, edits), unedited(room, edits)]
    for edit in [controls[1], *edits]:
        edit.by_answers = all(has_answers(room, function) for function in edit.functions)
    given = checked(room, texts, functions, [*controls, *edits], Trial.stand_beside)[2:]
    if verdict(controls[0])[0] != ADMITS or verdict(controls[1])[0] == REFUSED:
        sys.exit("%s: a copy without an edit isn't admitted, so no refusal tells anything: %s" % (room, [each.told for each in controls]))
    for _ in range(2):
        again = [edit for edit in given if verdict(edit)[0] not in (REFUSED, ADMITS) and (edit.by_answers or edit.asked)]
        for edit in again:
            edit.renamed.update(renaming(name, names) for name, names in edit.asked.items())
            edit.by_answers = False
        checked(room, texts, functions, again, Trial.stand_beside)
    return given


def tried_together(room, name):
    """Tries a room's edits, or those of these names (between commas), and returns how many aren't refused."""
    edits, texts, functions = edits_of(room)
    edits = [edit for edit in edits if not name or edit.name in name.split(",")]
    if not edits:
        sys.exit("edits/%s has none %s" % (room, name))
    lacking = [name for name in all_below(room, lines_of()[1]) if not os.path.exists(os.path.join(folder(name), "out", "rlib", "stamp"))]
    if lacking:
        sys.exit("tools/build-below %s first: there is no library of %s" % (room, ", ".join(lacking)))
    shutil.rmtree(os.path.join(PLACE, room), ignore_errors=True)
    copies, refused = [edit for edit in edits if edit.is_copied], 0
    for edit in edits:
        if not edit.functions:
            print("%s/%s: NOT TRIED: it changes more than bodies, so it goes alone" % (room, edit.name))
    if copies:
        refused += tell(room, judged(room, texts, functions, copies))
    for group in in_rounds([edit for edit in edits if edit.functions and not edit.is_copied]):
        refused += tell(room, checked(room, texts, functions, group, Trial.stand_in_place))
    shutil.rmtree(os.path.join(PLACE, room), ignore_errors=True)
    spent = resource.getrusage(resource.RUSAGE_CHILDREN)
    print("%s: %d of %d edits refused, after %d processor seconds" % (room, refused, len(edits), spent.ru_utime + spent.ru_stime))
    return len(edits) - refused
