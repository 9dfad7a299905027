"""The parts of Contents, with what they speak of, and a small step as data. law_contents.py, its events and
law_contents_absorb.py share them."""
import os
import re

from law_text import CRATES, proofs_of, type_name

HERE = os.path.dirname(os.path.abspath(__file__))
TOP = proofs_of("law_order", "order")
SPEC = open(os.path.join(CRATES, "law_order", "specs", "order", "Contents.antt")).read()
CONNECTIONS = open(os.path.join(CRATES, "law_sessions", "specs", "messages", "Connections.antt")).read()

# part: the variables that it is quantified by, and the columns that it speaks of
PARTS = {
    "token_up": ("j n x", "conns taken"),
    "token_down": ("j n y", "conns taken"),
    "opens_up": ("j n x", "conns op outcome"),
    "asked_as": ("j n p x", "conns op file"),
    "lost_unknown": ("p z", "given_up outcome"),
    "lost_dead": ("p", "given_up session live"),
    "lost_known": ("p z", "given_up rank"),
    "lost_asked": ("p j z", "stage given_up pending"),
    "session_known": ("", "session rank"),
    "session_asked": ("j", "stage session pending"),
    "pairwise": ("p q", "sent op outcome given_up session"),
    "first_up": ("j n p x", "conns op unanswered first"),
    "unacted": ("p", "op unanswered outstanding_on asks_attach outcome first"),
    "fresh_first": ("p", "sent first since"),
    "not_done": ("j n p y", "conns op unanswered first"),
    "cut_seq": ("j n p x", "conns op live session sequence"),
    "open_seq": ("j n p x", "conns op sequence_of"),
    "older": ("j n i p x", "conns op asks_attach outstanding_on session sequence_of"),
    "no_replay": ("j n i q p u x", "conns op"),
    "copy_pair": ("j n p x", "conns op file server"),
    "now_pair": ("q", "attached session_number live session file server"),
    "create_reply": ("j n p y", "conns op session server trace"),
    "attach_reply": ("j n p y", "conns op file session server"),
    "reached": ("j n p y", "conns op session sequence_of file server"),
    "closed_reply": ("j n p y", "conns op file server"),
    "attach_refused": ("j n p y", "conns op file server"),
    "stale_reply": ("j n p y", "conns op sequence_of sequence"),
    "session_seq": ("o", "live session sequence server"),
    "pending_at": ("o j", "stage pending server"),
    "live_unsettled": ("j n p x", "conns op file outcome given_up session server"),
    "live_replay": ("j n p x", "conns op file server first"),
    "shows": ("p", "op file outcome given_up session server first"),
    "denied": ("o p", "server"),
    "open_of": ("q", "op outcome file trace"),
    "named_open": ("q o", "server trace"),
    "open_given": ("q o", "server trace op sent"),
    "open_row": ("q o", "server trace op"),
    "open_acted": ("q o", "trace acts"),
    "bytes": ("q o", "server trace bytes places"),
    "quiet": ("n q", "op places trace birth did bytes"),
    "foreign": ("n q", "op places trace birth who bytes"),
    "acted": ("n", "op places did who first bytes"),
    "gave": ("n v", "op places gave who bytes"),
    "gave_end": ("n", "op places gave who bytes"),
    "whose": ("n", "op outcome taken places who"),
    "born": ("n", "op places who birth"),
    "birth_le": ("q", "birth places"),
    "first_at": ("p n", "first places who did"),
    "by": ("p n", "settled_by outcome places who"),
    "by_ok": ("p n v", "op outcome settled_by gave"),
    "by_end": ("p n", "op outcome settled_by gave"),
    "by_some": ("p", "outcome settled_by"),
    "replies": ("j n y", "conns places who gave"),
    "attach_status": ("j n p y", "conns"),
    "since_le": ("p", "since places"),
    "since_reply": ("j n y", "conns since"),
    "since_by": ("p n", "settled_by since"),
    "since_first": ("p n", "first since"),
    "prior": ("p q", "prior sent outcome"),
    "prior_by": ("p q n", "prior settled_by since"),
    "prior_first": ("p q n", "op prior first since"),
}
NAMES = {"Client": "c", "(ℕ → Conn)": "conns", "Server": "s", "Trace": "t", "Log": "l", "(ℕ → ℕ)": "a"}


def arguments_in(text, name):
    found = re.search(r"^abbrev pub %s : (.*) → Type 0$" % name, text, re.M)
    return [NAMES[x] for x in re.findall(r"\(ℕ → Conn\)|\(ℕ → ℕ\)|\w+", found.group(1))]


ARGUMENTS = {part: arguments_in(SPEC, type_name(part)) for part in PARTS}
assert set(re.findall(r"^  pub (\w+) : ", SPEC[SPEC.index("pub record Contents"):], re.M)) == set(PARTS)


class Event:
    def __init__(self, name, about, changes, arguments="", needs=(), parts=None, **state):
        # a need that begins with a line is given to the parts that name it alone
        self.narrow = {n[1:] for n, _ in needs if n.startswith("_")}
        self.name, self.about, self.arguments, self.needs = name, about, arguments, [(n.lstrip("_"), ty) for n, ty in needs]
        self.changes = set(changes.split())
        self.state = dict(c="c", conns="conns", s="s", t="t", l="l", a="a")
        self.state.update(state)
        self.parts = parts or {}
