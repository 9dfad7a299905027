"""The functions of a room's source, as `rt fmt` lays them out: where each stands, and by what path the prover and its proof name it."""
import glob
import os
import re

HEAD = re.compile(r"( *)(?:pub(?:\([^)]*\))? )?(?:const )?(?:unsafe )?fn (\w+)")
BLOCK = re.compile(r"(?:pub(?:\([^)]*\))? )?(?:unsafe )?(impl|trait)\b(.*)")
ALIAS = re.compile(r"(?m)^(?:pub(?:\([^)]*\))? )?type (\w+)<(\w+)> =")
TYPE = re.compile(r"(?m)^(?:pub(?:\([^)]*\))? )?(?:struct|enum) (\w+)")


def sources(folder):
    """the texts of a room's source, by their paths from its folder"""
    found = {}
    for path in sorted(glob.glob(os.path.join(folder, "src", "**", "*.rt"), recursive=True)):
        with open(path, encoding="utf-8") as file:
            found[os.path.relpath(path, folder)] = file.read()
    return found


def module_of(path):
    """the words of the module that a file has"""
    words = re.sub(r"^src/|\.rt$", "", path).split("/")
    return [] if words in (["lib"], ["main"]) else words


def owner_of(lines, at):
    """The type of the block that a line stands in, the block's trait, and the types that this names: "" where there is none."""
    head = next((BLOCK.match(lines[up]) for up in range(at, -1, -1) if BLOCK.match(lines[up])), None)
    if lines[at][:1] != " " or not head:
        return "", "", ""
    words = head[2]
    depth = at = 0
    while words.startswith("<") and (depth or not at):
        depth += {"<": 1, ">": -1}.get(words[at], 0)
        at += 1
    own = re.findall(r"\w+", words[:at])
    given = "".join(word for word in re.findall(r"\w+", words[at:].split(" for ")[0].partition("<")[2]) if word not in own)
    while re.search(r"<[^<>]*>", words):
        words = re.sub(r"<[^<>]*>", "", words)
    found = re.match(r"\s*(?:([\w:]+) for )?(&mut |&)?([\w:]+)", words)
    name = {"&mut ": "RefMut", "&": "Ref"}.get(found[2], "") or found[3].split("::")[-1]
    return name, name if head[1] == "trait" else (found[1] or "").split("::")[-1], given


class Function:
    """Lines are counted from 0: `first` with its attributes, `head`, `brace` where its body opens, `last` where it closes.

    `owner` and `trait` are as owner_of tells them, `path` has the words by which the prover names it, below the room, and `guess` those by
    which it mostly names a method of a trait."""

    def __init__(self, file, lines, head, types, aliases):
        self.file, self.head, self.first = file, head, head
        self.indent, self.name = HEAD.match(lines[head]).groups()
        self.owner, self.trait, given = owner_of(lines, head)
        while self.first and re.match(self.indent + r"(///|//|#\[|\)|    )", lines[self.first - 1]):
            self.first -= 1
        self.brace = self.opening(lines)
        self.last = self.brace and next(at for at in range(self.brace, len(lines)) if lines[at] == self.indent + "}")
        # the prover names a method by the module of its type
        module = types.get(self.owner, module_of(file))
        owner = self.owner + aliases.get(self.owner, "")
        self.path = [*module, *[owner] * bool(owner), self.name]
        self.guess = [*module, self.owner + self.trait + given, self.name]

    def opening(self, lines):
        """where the body opens, or None where the function has none on lines of its own"""
        for at in range(self.head, len(lines)):
            line = lines[at]
            if not line.strip() or at > self.head and HEAD.match(line):
                return None
            if line == self.indent + "{" or line.endswith("{") and (at == self.head or line.startswith(self.indent + ")")):
                return at
        return None


def functions_in(texts):
    """those of all files that have a body on lines of its own"""
    types = {name: module_of(file) for file, text in texts.items() for name in TYPE.findall(text)}
    # the prover names a type that is another's name for some arguments by these too
    aliases = {name: "+" + given for text in texts.values() for name, given in ALIAS.findall(text)}
    found = []
    for file, text in texts.items():
        lines = text.split("\n")
        found += [Function(file, lines, at, types, aliases) for at, line in enumerate(lines) if HEAD.match(line)]
    return [each for each in found if each.brace]
