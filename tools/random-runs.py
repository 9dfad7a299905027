#!/usr/bin/env python3
"""Checks the three statements, and that the journal stands for the state, on runs made at random.

usage: tools/random-runs.py SEED COUNT LENGTH FOLDER

Makes in FOLDER a copy of the crates and a crate `random_runs` with COUNT scripts of LENGTH lines over two channels, and
checks it. A script submits operations, pushes any operation with any slot, serves, takes, cuts, drops, restarts, crashes
and waits. A function `run_N` that isn't proved is a run that breaks a statement (or one that the checker gave up on).
"""
import os, random, re, shutil, subprocess, sys

CHANNELS = 2


def listed(items):
    return " ∷ ".join([*items, "[]"])


def flag(value):
    return "true" if value else "false"


def name(letter):
    return f"({ord(letter)} ∷ [])"


def operation(chance, number, creates):
    if not creates or chance.random() < 0.18:
        creates.append(number)
        access = chance.choice(["0x183", "0x183", "0x183", "0x81", "0x10183"])
        share, disposition = chance.choice([0, 0, 1, 7, 7, 3]), chance.choice([3, 3, 3, 1, 2, 5, 0])
        return f"OpCreate {name(chance.choice('aaab'))} {access} {share} {disposition} {flag(chance.random() < 0.6)} false"
    create, kind = chance.choice(creates[-3:]), chance.random()
    at, size = chance.randrange(4), chance.randrange(1, 4)
    if kind < 0.35:
        letters = listed(str(97 + chance.randrange(26)) for _ in range(chance.choice([0, 1, 1, 2, 3])))
        return f"OpWrite {create} {at} ({letters})"
    if kind < 0.45:
        return f"OpEnd {create} {chance.randrange(6)}"
    if kind < 0.55:
        return f"OpRead {create} {at} {chance.randrange(4)}"
    if kind < 0.75:
        return f"OpLock {create} {at} {size} {flag(chance.random() < 0.7)}"
    if kind < 0.85:
        return f"OpUnlock {create} {at} {size}"
    if kind < 0.9:
        return f"OpTime {create} {chance.randrange(9)}"
    if kind < 0.93:
        return f"OpRemove {create}"
    if kind < 0.95:
        return f"OpRename {create} {name(chance.choice('abc'))}"
    return f"OpClose {create}"


def line(chance, taken, creates):
    dice, k = chance.random(), chance.randrange(CHANNELS)
    if dice < 0.14 and len(taken) < 14:
        taken.append(operation(chance, len(taken) + 1, creates))
        return f"submit {len(taken)} ({taken[-1]})"
    if dice < 0.36:
        if taken and chance.random() < 0.7:
            pick = f"record {{ op = {chance.randrange(1, len(taken) + 1)}; slot = {chance.randrange(1, 4)} }}"
            return f"Does (Push {k} [] (Some ({pick})))"
        return f"Pushes {k}"
    for limit, word in ((0.58, "Serve"), (0.74, "Take"), (0.81, "Cut"), (0.86, "Drop")):
        if dice < limit:
            return f"Does ({word} {k})"
    if dice < 0.94:
        return f"Links {k}"
    if dice < 0.955:
        return "Does Restart"
    if dice < 0.975:
        return f"Does (Crash {k} {flag(chance.random() < 0.7)})"
    if dice < 0.985:
        return f"Does (Wait {chance.choice([20000, 59000, 61000])})"
    return "Does (Finish (HadStatus 1))" if dice < 0.99 else "Settles"


def script(chance, length):
    taken, creates = [], []
    lines = ["Links 0", "Links 1"] + [line(chance, taken, creates) for _ in range(length)]
    return lines + (["Settles"] if chance.random() < 0.6 else [])


def main():
    if len(sys.argv) != 5:
        sys.exit(__doc__)
    seed, count, length, folder = int(sys.argv[1]), int(sys.argv[2]), int(sys.argv[3]), sys.argv[4]
    top = os.path.dirname(os.path.dirname(os.path.abspath(__file__)))
    copy = os.path.join(folder, "random")
    shutil.rmtree(copy, ignore_errors=True)
    for crate in ("spec_exchange", "examples_exchange"):
        shutil.copytree(os.path.join(top, "crates", crate), os.path.join(copy, "crates", crate))
    shutil.copy(os.path.join(top, "HANDLES"), copy)
    with open(os.path.join(copy, "crates.txt"), "w") as out:
        out.write("spec_exchange:\nexamples_exchange: spec_exchange\nrandom_runs: spec_exchange examples_exchange\n")
    subprocess.run(["git", "init", "-q"], cwd=copy, check=False)
    for part in ("src", "specs"):
        os.makedirs(os.path.join(copy, "crates", "random_runs", part))
    examples = open(os.path.join(top, "crates", "examples_exchange", "src", "lib.rt"), encoding="utf-8").read()
    tactic = re.search(r"#!\[tactic\(auto.*?\)\)\]", examples, re.S).group(0)
    defs, here = "Rattle.spec_exchange.specs", os.path.join(copy, "crates", "random_runs")
    specs = (
        "use Rattle.std.specs.Prelude.{ℕ, List, [], ◌∷◌, Some, true, false}\n"
        f"use {defs}.Operations.{{OpCreate, OpWrite, OpRead, OpEnd, OpTime, OpRename, OpRemove, OpLock, OpUnlock, OpClose, HadStatus}}\n"
        f"use {defs}.Network.{{Push, Serve, Take, Cut, Drop, Restart, Crash, Wait, Finish}}\n"
        f"use {defs}.Schedules.{{Line, Does, Pushes, Links, Settles}}\nuse Rattle.examples_exchange.specs.Scripts.{{submit}}\n"
    )
    source = (
        f"//! Runs made at random.\n{tactic}\n\nghost use Rattle.std.specs.Prelude.{{◌≡◌, ℕ, List, true}};\n"
        f"ghost use {defs}.Schedules.{{course}};\nghost use Rattle.examples_exchange.specs.Servers.{{journal_stands}};\n"
        "ghost use Rattle.examples_exchange.specs.Laws.{laws_hold};\nghost use Rattle.examples_exchange.specs.Scripts.{beginning};\n"
        "ghost use Rattle.random_runs.specs.Runs.{" + ", ".join(f"script_{i}" for i in range(count)) + "};\n"
    )
    chance = random.Random(seed)
    for i in range(count):
        room = chance.choice([6, 268435456])
        specs += f"\nabbrev pub script_{i} : List Line\nscript_{i} =\n    {listed(script(chance, length))}\n"
        source += (
            f"\npub fn run_{i}()\n    ensures laws {{ laws_hold {CHANNELS} {room} script_{i} ≡ true }}\n"
            f"    ensures journal {{ journal_stands (course {CHANNELS} script_{i} (beginning {room})).world ≡ true }}\n{{}}\n"
        )
    for path, text in (("specs/Lib.antt", "pub mod Runs\n"), ("specs/Runs.antt", specs), ("src/lib.rt", source)):
        open(os.path.join(here, path), "w", encoding="utf-8").write(text)
    run = subprocess.run(["rt", "check", "--allow-holes"], cwd=here, capture_output=True, text=True)
    text = run.stdout + run.stderr
    broken = re.findall(r"random_runs::(run_\d+): (?:no proof|.*[1-9]\d* hole)", text)
    kept = len(re.findall(r"random_runs::run_\d+: (?:no holes|proved)", text))
    print(f"{kept} of {count} runs keep the statements", *broken)
    if kept + len(broken) != count:
        print(text[-3000:])


main()
