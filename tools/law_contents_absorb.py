#!/usr/bin/env python3
"""Writes OnAbsorb.antt: the server takes the front of a connection. The text of the parts stands in law_contents_absorb_parts.py,
what comes before them in law_contents_absorb.txt."""
import os
import re

from law_contents_parts import ARGUMENTS, HERE, PARTS, TOP
from law_contents_absorb_parts import PARTS as TEXTS
from law_text import bound, fields, held, lemma, named_in, names, premised, step, type_name, write_module

STATE = "(c : Client) (conns : ℕ → Conn) (s : Server) (t : Trace) (l : Log) (a : ℕ → ℕ)"
OVER = STATE + " (k : ℕ) (x0 : Sent) (rest : List Sent) (A : Answer)"
VARIABLES = names(OVER)
SPOKEN = {part: " ".join(arguments) for part, arguments in ARGUMENTS.items()}

out = [open(os.path.join(HERE, "law_contents_absorb.txt")).read().replace("PARTS", ", ".join(type_name(p) for p in PARTS))]
after = dict(c="c", conns="(Front conns k rest)", s="A.server", t="(new_trace c t l x0 A)", l="(new_log c t l x0 A)", a="(new_acts a x0 A)")
calls, needs = {}, []
changed = "conns server trace acts places who gave did bytes birth first".split()
for part, (variables, columns) in PARTS.items():
    if part not in TEXTS:
        if not set(columns.split()) & set(changed):
            calls[part] = "i.%s" % part
        continue
    premises, term = TEXTS[part]
    parts = [part] + [q for q in sorted((named_in("i", term) | set(re.findall(r"\bi_(\w+)", term))) - {part}) if q in PARTS]
    needs += [need for need in premises if need[0] not in [n for n, _ in needs]]
    wanted = premised(premises) + held(parts, SPOKEN)
    given = VARIABLES + [n for n, _ in premises]
    name = "absorb_" + part
    goal = type_name(part) + " " + " ".join(after[w] for w in ARGUMENTS[part])
    out.append(lemma(name, OVER, wanted, goal, " ".join(given + ["i_" + q for q in parts]), bound("i", term)))
    calls[part] = " ".join([name] + given + ["i." + q for q in parts])
missing = [p for p in PARTS if p not in calls]
print("missing", missing)
if not missing:
    behind = "Contents " + " ".join(after[w] for w in ("c", "conns", "s", "t", "l", "a"))
    out.append(step("absorb_keeps", OVER, premised(needs), "Contents c conns s t l a", behind,
        " ".join(VARIABLES + [n for n, _ in needs] + ["i"])))
    out.append(fields(PARTS, calls))
write_module(TOP, "OnAbsorb", "".join(out))
