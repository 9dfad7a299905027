"""What the scripts that write the regular part of the laws' proofs share: where the files stand, and the names in them."""
import os
import re
import sys

sys.dont_write_bytecode = True
CRATES = os.path.join(os.path.dirname(os.path.abspath(__file__)), "..", "crates")


def proofs_of(crate, *module):
    """the folder of the lemmas of a crate, or of its module"""
    return os.path.join(CRATES, crate, "proofs", *module)


def type_name(part):
    """the word of a part of a record"""
    return "".join(word.capitalize() for word in part.split("_"))


def low_name(module):
    """how the lemmas of a module begin"""
    return "".join(("_" if place and letter.isupper() else "") + letter.lower() for place, letter in enumerate(module))


def names(arguments):
    """the variables of "(a b : T) (c : U)" """
    out = []
    for group in arguments.split("(")[1:]:
        out += group.split(":")[0].split()
    return out


def sentence(about):
    """the first line of a module: the script that writes it, and what it says"""
    return "-- Written by tools/%s. %s.\n" % (os.path.basename(sys.argv[0]), about[0].upper() + about[1:])


def kept_part(part, variables, tactic):
    """the old part at the goal's own variables, then the tactic"""
    if not variables:
        return "let old = i.%s in %s" % (part, tactic)
    return "λ %s. let old = i.%s %s in %s" % (variables, part, variables, tactic)


def named_in(letter, term):
    """the parts that a proof takes from the record of this letter"""
    return set(re.findall(r"\b%s\.(\w+)" % letter, term))


def bound(letter, term):
    """the proof with these parts as variables"""
    return re.sub(r"\b%s\.(\w+)" % letter, letter + r"_\1", term)


def premised(needs):
    """what is needed, as premises"""
    return "".join("(%s) → " % wanted for _, wanted in needs)


def held(parts, arguments, mark=""):
    """parts of a record, as premises: each with what it speaks of"""
    return "".join("%s%s %s → " % (mark, type_name(part), arguments[part]) for part in parts)


def quantifies(name, wanted):
    return "→" in wanted


def narrowed(needs, bare, narrow=quantifies):
    """what a proof needs: what is narrow where the proof names it, and the rest always"""
    return [need for need in needs if not narrow(*need) or re.search(r"(?<![\w.])%s\b" % need[0], bare)]


def lemma(name, state, premises, goal, words, term):
    """a lemma over a state, with its arguments behind, and its proof"""
    return "%s : %s → %s%s\n%s %s =\n    %s\n\n" % (name, state, premises, goal, name, words, term)


def part_lemma(name, state, variables, needs, records, goal, term):
    """the lemma by which a step keeps one part, and its call; `records` are those from which the proof takes parts: a letter, the
    parts, and what each speaks of"""
    given = variables + [need for need, _ in needs]
    premises = premised(needs) + "".join(held(parts, arguments) for _, parts, arguments in records)
    taken = [(letter, part) for letter, parts, _ in records for part in parts]
    for letter, _, _ in records:
        term = bound(letter, term)
    text = lemma(name, state, premises, goal, " ".join(given + ["%s_%s" % it for it in taken]), term)
    return text, " ".join([name] + given + ["%s.%s" % it for it in taken])


def step(name, state, premises, record, behind, words):
    """the beginning of what keeps a whole record; `fields` ends it"""
    return "pub %s : %s → %s%s → %s\n%s %s =\n    record {\n" % (name, state, premises, record, behind, name, words)


def fields(parts, calls):
    """the end of a record whose parts are these calls"""
    return "".join("      %s = %s;\n" % (part, calls[part]) for part in parts) + "    }\n"


def write_module(folder, module, text):
    with open(os.path.join(folder, module + ".antt"), "w") as file:
        file.write(text)


def write_wanted(events, emit):
    """writes the modules of the events that the command line names, or of all"""
    for event in events:
        if not sys.argv[1:] or event.name in sys.argv[1:]:
            emit(event)


def standing(folder, modules):
    """those of the modules that are written"""
    return [module for module in modules if os.path.exists(os.path.join(folder, module + ".antt"))]


def write_list(folder, modules):
    """the file that names the modules of a crate, or of its module"""
    module = os.path.basename(folder)
    folder, module = (folder, "Lib") if module == "proofs" else (os.path.dirname(folder), module)
    write_module(folder, module, "".join("pub mod %s\n" % module for module in modules))
