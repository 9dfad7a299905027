#!/usr/bin/env python3
"""Applies each change of tools/wrong-models.txt and tools/wrong-worlds.txt to a copy of the crates, one at a time, and checks crates there.

usage: tools/wrong-models.py --laws FOLDER [NAME ..]
       tools/wrong-models.py [--examples] CRATE FOLDER [NAME ..]
       tools/wrong-models.py --texts

FOLDER is where the copy is made (a folder of its own for each run); NAMEs choose some of the changes.
With --laws the crates that a change's `laws` names are checked in that order until one refuses, and changes without them
are left out. With CRATE that crate is checked for each change; with --examples only the function that a change's `example`
names is proved, and changes without one are left out. A line is printed for each: its name, then `refused` with the crate
and the functions or lemmas whose proof fails (`below` where a crate that it stands on refused already), `passes`, `LATE`
where a check took longer than the limit, which tells nothing, or `BAD` where a text doesn't stand once or doesn't compile.
What each check printed is kept in FOLDER/logs. What earlier checks kept of the crates that those stand on is copied too.
With --texts nothing is proved: a line is printed for each text that doesn't stand once, each example that isn't there, and
each change that has neither an example nor a law.
"""
import glob, os, re, shutil, signal, subprocess, sys

TOP = os.path.dirname(os.path.dirname(os.path.abspath(__file__)))
LIMIT = 900  # seconds of one check
LISTS = {"wrong-models.txt": "examples_exchange", "wrong-worlds.txt": "examples_world"}  # with the crate of their examples


def read_changes():
    return [change for name in LISTS for change in read_list(name)]


def read_list(name):
    changes, current = [], {}
    for line in open(os.path.join(TOP, "tools", name), encoding="utf-8"):
        line = line.rstrip("\n")
        if not line or line.startswith("#"):
            continue
        key, value = line.split(": ", 1)
        if key == "name":
            current = {"edits": [], "crate": LISTS[name]}
            changes.append(current)
        if key in ("file", "also"):
            current["edits"].append({"file": value})
        elif key in ("old", "new"):
            current["edits"][-1][key] = value.replace("\\n", "\n")
        else:
            current[key] = value
    return changes


def failing(text):
    names = re.findall(r"fn (?:\w+::)*(\w+): no proof", text)
    names += re.findall(r"error: `([\w-]+)`", text)
    return sorted(set(names))


def refusal(text, crate):
    """What refused: the crate itself, or one below it, behind which nothing was checked."""
    below = re.findall(r"rt: the library (\w+) did not build", text)
    refuses = "refused by " + below[0] + " below " + crate if below else "refused by " + crate
    return refuses + ": " + (", ".join(failing(text)) or "no lemma named")


def pattern(text):
    """What a text looks like where lines are broken in it: any white space for inner spaces, and a last mark in a record.

    White space at the text's ends stands as it is, since the new text has the same there."""
    inner = text.strip()
    escaped = re.sub(r"(?:\\ |\\\n|\s)+", r"\\s+", re.escape(inner))
    before, behind = text.split(inner)
    return re.compile(re.escape(before) + escaped.replace(r"\s+\}", r";?\s+\}") + re.escape(behind))


def misplaced(change, top):
    """Each text of the change that doesn't stand once, by how often it stands."""
    found = []
    for edit in change["edits"]:
        with open(os.path.join(top, edit["file"]), encoding="utf-8") as file:
            times = len(pattern(edit["old"]).findall(file.read()))
        if times != 1:
            found.append("BAD: a text stands %d times in %s" % (times, edit["file"]))
    return found


def places_of(crate, function):
    """Where functions of that name stand: their paths below the crate, as `rt check --only` takes them."""
    src = os.path.join(TOP, "crates", crate, "src")
    found = []
    for path in sorted(glob.glob(os.path.join(src, "**", "*.rt"), recursive=True)):
        words = os.path.relpath(path, src)[: -len(".rt")].split(os.sep)
        modules = [word for word in words if word != "lib"]
        times = len(re.findall(r"\bfn %s\(" % function, open(path, encoding="utf-8").read()))
        found += ["::".join(modules + [function])] * times
    return found


def check_texts():
    changes, crates = read_changes(), crates_below()
    for change in changes:
        for bad in misplaced(change, TOP):
            print(change["name"], bad)
        if "example" in change and len(places_of(change["crate"], change["example"])) != 1:
            print(change["name"], "BAD: no example, or more than one", change["example"])
        for crate in change.get("laws", "").split():
            if crate not in crates:
                print(change["name"], "BAD: no crate", crate)
        if "example" not in change and "laws" not in change:
            print(change["name"], "BAD: neither an example nor a law")
    print(len(changes), "changes read")


def crates_below():
    """Each crate of the repository, with what it stands on."""
    lines = [line.split("#")[0] for line in open(os.path.join(TOP, "crates.txt"), encoding="utf-8")]
    return {line.split(":")[0].split()[0]: line.split(":")[1].split() for line in lines if ":" in line}


def with_lower(crates):
    """These crates and all of the repository that they stand on."""
    below = crates_below()
    found, waiting = set(), list(crates)
    while waiting:
        crate = waiting.pop()
        if crate in below and crate not in found:
            found.add(crate)
            waiting += below[crate]
    return found


def copy_crates(folder, crates):
    """A copy of all crates, and of what was kept of these and of those that they stand on."""
    copy = os.path.join(folder, "wrong")
    shutil.rmtree(copy, ignore_errors=True)
    os.makedirs(copy)
    shutil.copytree(os.path.join(TOP, "crates"), os.path.join(copy, "crates"), ignore=shutil.ignore_patterns("out", "out.part"))
    for name in with_lower(crates):
        out = os.path.join("crates", name, "out")
        if os.path.isdir(os.path.join(TOP, out, "rlib")):
            subprocess.run(["cp", "-a", os.path.join(TOP, out), os.path.join(copy, out)], check=False)
    for part in ("crates.txt", "HANDLES"):
        shutil.copy(os.path.join(TOP, part), os.path.join(copy, part))
    subprocess.run(["git", "init", "-q"], cwd=copy, check=False)
    return copy


def run_check(copy, crate, words):
    """The status of the check, None where it took too long, and what it printed."""
    folder = os.path.join(copy, "crates", crate)
    with subprocess.Popen(["rt", "check"] + words, cwd=folder, stdout=subprocess.PIPE, stderr=subprocess.STDOUT,
        text=True, start_new_session=True) as run:
        try:
            text, _ = run.communicate(timeout=LIMIT)
            return run.returncode, text
        except subprocess.TimeoutExpired:
            os.killpg(run.pid, signal.SIGTERM)
            run.communicate()
            return None, ""


def keep_log(copy, name, crate, text):
    logs = os.path.join(os.path.dirname(copy), "logs")
    os.makedirs(logs, exist_ok=True)
    open(os.path.join(logs, name + "." + crate), "w", encoding="utf-8").write(text)


def verdict(copy, change, crate, words):
    status, text = run_check(copy, crate, words)
    keep_log(copy, change["name"], crate, text)
    broken = re.findall(r"^(?:\./)?specs/[\w/]+\.antt:\d+:\d+: error: .{0,120}", text, re.M)
    if broken:
        return "BAD: " + broken[0]
    if status is None:
        return "LATE"
    if status == 0:
        return "passes"
    return refusal(text, crate)


def by_example(copy, change, crate):
    places = places_of(crate, change["example"])
    if len(places) != 1:
        return "BAD: %d functions are named %s" % (len(places), change["example"])
    return verdict(copy, change, crate, ["--only", places[0]])


def by_laws(copy, change):
    crates = change["laws"].split()
    for crate in crates:
        found = verdict(copy, change, crate, [])
        if found != "passes":
            return found
    return "passes " + " ".join(crates)


def apply_edits(copy, edits):
    """Applies them, and returns what undoes them."""
    originals = {}
    for edit in edits:
        path = os.path.join(copy, edit["file"])
        text = open(path, encoding="utf-8").read()
        originals.setdefault(path, text)
        open(path, "w", encoding="utf-8").write(pattern(edit["old"]).sub(lambda found: edit["new"], text))
    return originals


def try_change(copy, change, decide):
    """Decides one change in the copy, which is as it was behind it."""
    bad = misplaced(change, copy)
    if bad:
        return bad[0]
    originals = apply_edits(copy, change["edits"])
    try:
        return decide(copy, change)
    finally:
        for path, text in originals.items():
            open(path, "w", encoding="utf-8").write(text)


def main():
    words = sys.argv[1:]
    if len(words) < 2 and words != ["--texts"]:
        sys.exit(__doc__)
    if words == ["--texts"]:
        check_texts()
        return
    mode = words.pop(0) if words and words[0] in ("--laws", "--examples") else ""
    crate = "" if mode == "--laws" else words.pop(0)
    folder, chosen = words[0], words[1:]
    needs = {"--laws": "laws", "--examples": "example"}.get(mode, "name")
    by_crate = {"--examples": by_example, "": lambda copy, change, crate: verdict(copy, change, crate, [])}
    decide = by_laws if mode == "--laws" else lambda copy, change: by_crate[mode](copy, change, crate)
    changes = [c for c in read_changes() if needs in c and (not chosen or c["name"] in chosen)]
    changes = [c for c in changes if mode != "--examples" or c["crate"] == crate]
    copy = copy_crates(folder, [name for c in changes for name in (c["laws"].split() if crate == "" else [crate])])
    for change in changes:
        print(change["name"], try_change(copy, change, decide), flush=True)


main()
