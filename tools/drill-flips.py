#!/usr/bin/env python3
"""Changes each byte of a logon's messages, one at a time, and counts what becomes of these logons: tools/drill-flips.py PROGRAM STEPS

PROGRAM is the built `smb311`, STEPS the built `drill_steps` of figures/, by their whole paths. The lengths of the messages come from
`drill_steps steps`, each logon is a script of its own: `flip` changes the byte by 1, the refused dialog is told in front, and a create
that is answered says that the logon was accepted. A line for each message: how many bytes it has, and how many logons came out how. Some 1,300 runs of the program."""
import collections
import subprocess
import sys

MESSAGES = [
    "NEGOTIATE request",
    "NEGOTIATE response",
    "first SESSION_SETUP request",
    "first SESSION_SETUP response",
    "second SESSION_SETUP request",
    "second SESSION_SETUP response",
]
WORDS = ["accepted", "bad-choice", "no-sha512", "bad-token", "bad-signature", "status", "ended"]
# a TREE_CONNECT stands behind the messages of a logon
HOPS = 8


def ran(program, word, lines):
    script = "".join(line + "\n" for line in lines)
    return subprocess.run([program, word], input=script, stdout=subprocess.PIPE, text=True).stdout


def hop(number):
    return "take 0" if number % 2 else "serve 0"


def lengths(program):
    lines = ran(program, "steps", ["open 0"] + [hop(number) for number in range(HOPS)]).splitlines()
    steps = [line.split() for line in lines if line.startswith(("# serve ", "# take "))]
    return [int(words[6]) for words in steps][: len(MESSAGES)]


def script(message, at, hops):
    lines = ["op create a rw - openif plain", "open 0"]
    for number in range(hops):
        if number == message:
            lines.append("flip 0 %s %d 01" % ("down" if number % 2 else "up", at))
        lines.append(hop(number))
    return lines


def outcome(program, message, at):
    """how a logon came out of which one byte of one message was changed; nothing is told of a script of which a line isn't met"""
    for hops in range(message // 2 * 2 + 2, HOPS + 1, 2):
        said = ran(program, "drill", script(message, at, hops))
        if said.startswith("dialog 0 "):
            return said.split()[2]
        if said.startswith("line "):
            return "ended"
    said = ran(program, "drill", script(message, at, HOPS) + ["push 0", "serve 0", "take 0"])
    return "accepted" if said.startswith("1 ok") else "ended"


def main(words):
    if len(words) != 2 or words[0].startswith("-"):
        sys.exit(__doc__)
    for message, length in enumerate(lengths(words[1])):
        counts = collections.Counter(outcome(words[0], message, at) for at in range(length))
        print("%s, %d bytes: %s" % (MESSAGES[message], length, ", ".join("%d %s" % (counts[word], word) for word in WORDS)))


if __name__ == "__main__":
    main(sys.argv[1:])
