#!/usr/bin/env python3
"""Writes the regular part of the proofs about sessions: for each small step one lemma for each part that it can touch.

The rule is one line: the old part at the goal's own variables, then grind. EVENTS names each step with what it needs,
what it writes, and the parts whose proof needs more than that. A part that reads nothing of what a step writes is
handed on as it is.

Run `rt tidy` and `rt fmt` in the crate behind it: it writes all imports into each file.
"""
import os
import re

from law_text import (
    fields, kept_part, low_name, named_in, names, narrowed, part_lemma, premised, proofs_of, quantifies, sentence,
    step, type_name, write_list, write_module, write_wanted,
)

TOP = proofs_of("law_sessions", "sessions")

# part: (its type's arguments, the variables that it is quantified by, what it reads)
PARTS = {
    "live_accepted": ("c", "", "live session accepted rank making"),
    "session_ranked": ("c", "", "session_number rank session"),
    "ranks": ("c", "p", "rank accepted_count"),
    "last_rank": ("c", "", "accepted_count rank accepted"),
    "rank_once": ("c", "p q", "rank"),
    "making": ("c", "p", "stage making"),
    "pending_accepted": ("c", "p", "stage pending accepted rank"),
    "pending_unranked": ("c", "p", "stage rank pending"),
    "sequence_low": ("c", "", "sequence"),
    "numbered_sessions": ("c", "p q", "attached session_number retried live"),
    "current_up": ("c conns", "j n x", "conns live session"),
    "current_down": ("c conns", "j n y", "conns live session"),
    "ranked_up": ("c conns", "j n x", "conns rank"),
    "from_client": ("c conns", "j n x", "conns who"),
    "sequences_up": ("c conns", "j n x", "conns live session sequence"),
    "work_up": ("conns", "j n x", "conns"),
    "dialog_up": ("conns", "j n x", "conns"),
    "logon_up": ("c conns", "j n x", "conns who"),
    "first_up": ("c conns", "j n x", "conns stage"),
    "second_up": ("c conns", "j n x", "conns stage accepted pending"),
    "tree_connect_up": ("c conns", "j n x", "conns stage pending"),
    "asked_fresh": ("c conns", "p j n x", "conns stage pending"),
    "present_accepted": ("c s", "p", "server rank accepted"),
    "ranked_given": ("c s", "p", "server rank"),
    "making_unranked": ("c s", "p q", "server rank"),
    "session_users": ("c s", "p", "server who"),
    "open_users": ("c s", "p", "server who"),
    "pending_given": ("c s", "p", "server stage pending"),
    "first_reply": ("c conns s", "j n y", "conns server stage rank"),
    "second_reply": ("c conns s", "j n y", "conns server stage rank accepted pending"),
    "tree_up": ("conns s", "j n x", "conns server"),
    "tree_live": ("c s", "", "server live session tree"),
    "tree_reply": ("c conns s", "j n y", "conns server stage accepted"),
    "sent_trees": ("c conns", "j n x", "conns session session_number tree accepted"),
    "asked_new": ("c", "p", "stage pending session session_number"),
    "open_trees": ("c s", "p x", "server session session_number tree"),
}


def default(part):
    variables, reads = PARTS[part][1], PARTS[part][2].split()
    tactic = "grind (arith, get-push)" if "conns" in reads else "grind arith"
    return kept_part(part, variables, tactic)


HEAD = """use Rattle.std.proofs.Common.{◌≡◌, ◌≢◌, ℕ, ◌+◌, ◌-◌, ◌≤◌, ◌<◌, ◌==◌, Bool, true, false, not, ◌&&◌, ◌||◌,
    if◌then◌else◌, List, [], ◌∷◌, ◌++◌, ◌⊎◌, inl, inr, refl, arith, sym, subst, ◌∙◌, ap, Option, Some, None,
    slice_get, is_some, zero, suc}
use Rattle.spec_exchange.specs.Table.{put}
use Rattle.spec_exchange.specs.Status.{success, more_processing_required}
use Rattle.spec_exchange.specs.Commands.{Command, Aside}
use Rattle.spec_exchange.specs.State.{Server, Message, Reply}
use Rattle.spec_exchange.specs.CheckSetup.{is_new, tree_in}
use Rattle.spec_exchange.specs.Opens.{id_of}
use Rattle.spec_exchange.specs.Operations.{Refusal}
use Rattle.spec_exchange.specs.Client.{Client, Stage, Apart, SaidNegotiate, SaidFirst, SaidSecond, AskedTree,
    RefusedDialog, cut_channel, end_session, bind_channel, begin_session, leave_dialog, note_refusal, unmade}
use Rattle.spec_exchange.specs.Dialogs.{open_channel, accepted}
use Rattle.spec_exchange.specs.Network.{Conn, Sent, Received, Token, ForDialog, server_off, client_off, send_up, behind_front, take_front}
use Rattle.law_sessions.specs.messages.Connections.{copies}
use Rattle.law_sessions.proofs.messages.Lists.{get-push, waited, waited_down}
use Rattle.law_sessions.specs.sessions.Sessions.{Sessions, is_ops, makes_session, logon_user, is_work, is_dialog, is_new_setup,
    is_tree_connect, logs_on, user_in, previous_in, PARTS}
use Rattle.law_sessions.proofs.sessions.Words.{SameSession, Moves, no_dialog_up, no_dialog_down, moved_unmade}
""".replace("PARTS", ", ".join(type_name(p) for p in PARTS))


class Event:
    def __init__(self, name, about, writes, arguments="", needs=(), c="c", conns="conns", s="s", parts=None):
        self.name, self.about, self.arguments, self.needs = name, about, arguments, list(needs)
        self.writes = set(writes.split())
        self.c, self.conns, self.s = c, conns, s
        self.parts = parts or {}


FROM_UP = "let o = waited conns k x0 rest j n x is h in "
FROM_DOWN = "let o = waited_down conns k y0 rest j n y is h in "
OFF_UP = "let d = no_dialog_up conns k none j n x in "
OFF_DOWN = "let d = no_dialog_down conns k none j n y in "
NONE = ("none", "copies 0 (conns k) ≡ 0")
UP_PARTS = ["current_up", "ranked_up", "from_client", "sequences_up", "work_up", "dialog_up", "logon_up", "first_up",
    "second_up", "tree_connect_up", "tree_up", "sent_trees"]
DOWN_PARTS = ["current_down", "first_reply", "second_reply", "tree_reply"]

# a step's parts that speak of a dialog's message or reply on its own connection, where none is
STAGED = {
    "first_up": "λ j n x. let old = i.first_up j n x in " + OFF_UP + "grind arith",
    "second_up": "λ j n x. let old = i.second_up j n x in let m = i.making j in " + OFF_UP + "grind arith",
    "tree_connect_up": "λ j n x. let old = i.tree_connect_up j n x in let m = i.making j in " + OFF_UP + "grind arith",
    "first_reply": "λ j n y. let old = i.first_reply j n y in let m = i.making j in " + OFF_DOWN + "grind arith",
    "second_reply": "λ j n y. let old = i.second_reply j n y in let m = i.making j in " + OFF_DOWN + "grind arith",
    "tree_reply": "λ j n y. let old = i.tree_reply j n y in let m = i.making j in " + OFF_DOWN + "grind arith",
}

EVENTS = [
    Event("Same", "the client's other columns change", "live session session_number tree sequence rank accepted_count "
        "accepted making stage pending who attached retried", "(d : Client)",
          [("same", "SameSession c d"), ("noted", "NumberedSessions d")], c="d", parts={"numbered_sessions": "noted"}),
    Event("Moved", "the server takes a step", "server", "(t : Server)", [("moves", "Moves c s t")], s="t",
          parts={
              "present_accepted": "λ p. let old = i.present_accepted p in let q = moves.present p in grind arith",
              "ranked_given": "λ p. let old = i.ranked_given p in let q = moves.ids in grind arith",
              "making_unranked": "moves.unranked",
              "session_users": "moves.users",
              "open_users": "moves.opens",
              "open_trees": "moves.attached",
              "pending_given": "λ p. let old = i.pending_given p in let q = moves.ids in grind arith",
              "first_reply": "λ p n y. let old = i.first_reply p n y in let q = moves.ids in grind arith",
              "second_reply": "λ p n y h o st u. let old = i.second_reply p n y h o st u in "
                  "let g = i.pending_given p st in let q = moves.present c.accepted in (grind arith, λ j. moved_unmade "
                  "c.pending (s.making j) (t.making j) (moves.making j c.pending g.1) (old.1 j))",
              "tree_up": "λ j n x h o l. let old = i.tree_up j n x h o in let r = i.ranked_up j n x h o in "
                  "let q = moves.present x.message.session_id in let tr = moves.trees x.message.session_id "
                  "x.message.tree_id in grind arith",
              "tree_live": "let old = i.tree_live in let l = i.live_accepted in let q = moves.present c.session in "
                  "let tr = moves.trees c.session c.tree in grind arith",
              "tree_reply": "λ j n y h o st u. let old = i.tree_reply j n y h o st u in "
                  "let r = i.pending_accepted j st in let q = moves.present c.accepted in "
                  "let tr = moves.trees c.accepted y.reply.tree_id in grind arith",
          }),
    Event("Opened", "a connection is made", "stage making conns", "(k : ℕ) (served : Bool) (m : Message)",
          [("free", "c.making ≡ None"), ("client", "m.client_guid ≡ c.who.guid"), ("connection", "m.connection ≡ k"),
              ("fault", "m.fault ≡ None"), ("sequence", "m.channel_sequence ≡ 0"),
              ("dialog", "is_dialog m.command ≡ true"), ("quiet", "logs_on m.command ≡ false")],
          c="(open_channel c k)", conns="(put conns k (record { client_open = true; server_open = served; up = if "
              "served then record { token = ForDialog; message = m } ∷ [] else []; down = []; next_id = 1 }))"),
    Event("ServerOff", "the server closes its end", "conns", "(k : ℕ)", conns="(put conns k (server_off (conns k)))"),
    Event("AllServerOff", "the server closes every end", "conns", "", conns="(λ q. server_off (conns q))"),
    Event("Unqueued", "the server takes the front", "conns", "(k : ℕ) (x0 : Sent) (rest : List Sent)", [("is", "(conns k).up ≡ x0 ∷ rest")],
          conns="(put conns k (behind_front (conns k) rest))",
          parts=dict([(p, "λ j n x h. " + FROM_UP + "let old = i.%s j o.0 x o.1 in grind arith" % p) for p in UP_PARTS]
                     + [("asked_fresh", "λ p j n x a h. " + FROM_UP + "i.asked_fresh p j o.0 x a o.1")])),
    Event("Behind", "a reply leaves its connection", "conns", "(k : ℕ) (y0 : Received) (rest : List Received)",
        [("is", "(conns k).down ≡ y0 ∷ rest")],
          conns="(put conns k (take_front (conns k) rest))",
          parts=dict((p, "λ j n y h. " + FROM_DOWN + "let old = i.%s j o.0 y o.1 in grind arith" % p) for p in DOWN_PARTS)),
    Event("WentOn", "a dialog goes on", "stage", "(k : ℕ) (stage : Stage)",
          [NONE, ("from", "makes_session stage ≡ true → c.making ≡ Some k"), ("untold", "stage ≢ SaidSecond false"),
              ("unasked", "stage ≢ AskedTree")],
          c="(record c { stage = put c.stage k stage })",
              parts=dict(STAGED, making="λ p. let old = i.making p in let f = from in grind arith")),
    Event("Told", "a dialog is told the new session's id", "stage pending", "(k id : ℕ)",
          [NONE, ("mine", "c.making ≡ Some k"), ("unranked", "c.rank id ≡ 0"), ("above", "0 < id"),
              ("given", "id ≤ id_of s.epoch s.session_ids_given")],
          c="(record c { stage = put c.stage k (SaidSecond false); pending = id })",
          parts=dict(STAGED,
                     pending_accepted="λ p. let old = i.pending_accepted p in let m = i.making p in grind arith",
                     pending_unranked="λ p. let old = i.pending_unranked p in let m = i.making p in grind arith",
                     pending_given="λ p. let old = i.pending_given p in let m = i.making p in grind arith",
                     asked_new="λ p. let old = i.asked_new p in let m = i.making p in grind arith",
                     asked_fresh="λ p j n x a. let m = i.making p in grind arith")),
    Event("Accepted", "a new session is accepted", "stage accepted accepted_count rank", "(k : ℕ)",
          [NONE, ("at", "c.stage k ≡ SaidSecond false"),
              ("gone", "0 < c.rank c.accepted → s.present c.accepted ≡ false"),
              ("unmade", "(q : ℕ) → is_new c.pending (s.making q) ≡ false")],
          c="(accepted c k)",
          parts=dict(STAGED,
                     live_accepted="λ l. let old = i.live_accepted l in let m = i.making k in grind arith",
                     session_ranked="λ l. let old = i.session_ranked l in grind arith",
                     rank_once="λ p q. let old = i.rank_once p q in let r1 = i.ranks p in let r2 = i.ranks q in grind arith",
                     pending_accepted="λ p. let old = i.pending_accepted p in let m = i.making p in let m0 = i.making k in grind arith",
                     pending_unranked="λ p. let m = i.making p in let m0 = i.making k in grind arith",
                     asked_fresh="λ p j n x a h t. let m = i.making p in let m0 = i.making k in "
                         "let u = i.pending_unranked k at in let r = i.ranked_up j n x h t in grind arith",
                     sent_trees="λ j n x h t. let old = i.sent_trees j n x h t in let u = i.pending_unranked k at in "
                         "let r = i.ranked_up j n x h t in grind arith",
                     asked_new="λ p. let old = i.asked_new p in let r = i.session_ranked in let u = i.pending_unranked k at in grind arith",
                     present_accepted="λ p q. let old = i.present_accepted p q in let g = gone in grind arith",
                     ranked_given="λ p. let old = i.ranked_given p in let g = i.pending_given k at in grind arith",
                     making_unranked="λ p q h. let old = i.making_unranked p q h in let u = unmade p in grind arith",
                     first_reply="λ j n y h t st. let m = i.making j in let m0 = i.making k in " + OFF_DOWN + "grind arith",
                     second_up="λ j n x h o t st. let m = i.making j in let m0 = i.making k in " + OFF_UP + "grind arith",
                     tree_connect_up="λ j n x h o t st. let m = i.making j in let m0 = i.making k in " + OFF_UP + "grind arith",
                     second_reply="λ j n y h t st. let m = i.making j in let m0 = i.making k in " + OFF_DOWN + "absurd (grind arith)",
                     tree_reply="λ j n y h t st. let m = i.making j in let m0 = i.making k in " + OFF_DOWN + "grind arith")),
    Event("DialogSent", "the next message of a dialog goes out", "conns", "(k n0 : ℕ) (m : Message)",
          [NONE, ("client", "m.client_guid ≡ c.who.guid"), ("connection", "m.connection ≡ k"),
              ("fault", "m.fault ≡ None"), ("sequence", "m.channel_sequence ≡ 0"),
              ("dialog", "is_dialog m.command ≡ true"),
           ("logon", "logs_on m.command ≡ true → user_in m.command ≡ logon_user c.who.logon"),
               ("first", "c.stage k ≡ SaidFirst false → is_new_setup m.command ≡ true"),
           ("second", "c.stage k ≡ SaidSecond false → is_new_setup m.command ≡ true "
               "× previous_in m.command ≡ c.accepted × m.session_id ≡ c.pending"),
           ("tree", "c.stage k ≡ AskedTree → is_tree_connect m.command ≡ true × m.session_id ≡ c.pending")],
          conns="(put conns k (send_up (conns k) ForDialog m n0))",
          parts={
              "logon_up": "λ j n x. let old = i.logon_up j n x in let q = logon in grind (arith, get-push)",
              "first_up": "λ j n x. let old = i.first_up j n x in let q = first in grind (arith, get-push)",
              "second_up": "λ j n x. let old = i.second_up j n x in let q = second in grind (arith, get-push)",
              "tree_connect_up": "λ j n x. let old = i.tree_connect_up j n x in let q = tree in grind (arith, get-push)",
          }),
    Event("Bound", "a further channel is ready", "stage", "(k : ℕ)", [], c="(bind_channel c k)"),
    Event("Readied", "a session is ready", "live session session_number tree sequence stage making", "(k : ℕ) (r : Reply)",
          [NONE, ("at", "c.stage k ≡ AskedTree"),
              ("told", "s.present c.accepted ≡ true → is_some (tree_in (s.trees c.accepted) r.tree_id) ≡ true"),
              ("attached", "(o x : ℕ) → s.session_of_open o ≡ Some x → s.present x ≡ true")],
              c="(begin_session c k c.pending r.tree_id)",
          parts={
              "live_accepted": "λ l. let a = i.pending_accepted k at in grind arith",
              "session_ranked": "λ l. let a = i.pending_accepted k at in grind arith",
              "making": "λ p. let m = i.making p in let m0 = i.making k in grind arith",
              "current_up": "λ j n x. let old = i.current_up j n x in let l = i.live_accepted in let m0 = i.making k in grind arith",
              "current_down": "λ j n y. let old = i.current_down j n y in let l = i.live_accepted in let m0 = i.making k in grind arith",
              "sequences_up": "λ j n x h. let old = i.sequences_up j n x h in let f = i.asked_fresh k j n x at h in "
                  "let d = i.dialog_up j n x h in grind arith",
              "tree_live": "λ l. let a = i.pending_accepted k at in let t = told in grind arith",
              "sent_trees": "λ j n x h t. let f = i.asked_fresh k j n x at h t in let a = i.pending_accepted k at in grind arith",
              "asked_new": "λ p. let m = i.making p in let m0 = i.making k in grind arith",
              "open_trees": "λ p x h. let old = i.open_trees p x h in let q = attached p x h in let r = i.session_ranked old.0 in "
                  "let a = i.present_accepted x in let b = i.pending_accepted k at in let d = i.asked_new k at old.0 in absurd (grind arith)",
          }),
    Event("DialogOff", "the client closes a channel that isn't ready", "stage making conns", "(k : ℕ) (rs : List RefusedDialog)", [],
          c="(record c { stage = put c.stage k Apart; making = unmade k c.making; refusals = rs })",
              conns="(put conns k (client_off (conns k)))"),
    Event("Cut", "a ready channel is cut", "sequence conns", "(k : ℕ)", [("low", "c.sequence ≢ 32767")],
        c="(cut_channel c k)", conns="(put conns k (client_off (conns k)))"),
    Event("Leave", "the session ends", "live stage making conns", "", c="(end_session c)", conns="(λ q. client_off (conns q))"),
    Event("SentUp", "an operation goes out", "conns", "(k n0 : ℕ) (t : Token) (m : Message)",
          [("ops", "is_ops t ≡ true"), ("live", "c.live ≡ true"), ("session", "m.session_id ≡ c.session"),
              ("tree", "m.tree_id ≡ c.tree"), ("sequence", "m.channel_sequence ≡ c.sequence"),
              ("client", "m.client_guid ≡ c.who.guid"),
           ("connection", "m.connection ≡ k"), ("fault", "m.fault ≡ None"), ("work", "is_work m.command ≡ true"),
               ("quiet", "logs_on m.command ≡ false")],
          conns="(put conns k (send_up (conns k) t m n0))",
          parts={
              "ranked_up": "λ j n x. let old = i.ranked_up j n x in let l = i.live_accepted live in grind (arith, get-push)",
              "sequences_up": "λ j n x. let old = i.sequences_up j n x in let l = i.sequence_low in grind (arith, get-push)",
              "asked_fresh": "λ p j n x a. let old = i.asked_fresh p j n x a in let l = i.live_accepted live in "
                  "let m = i.making p in grind (arith, get-push)",
              "tree_up": "λ j n x. let old = i.tree_up j n x in let l = i.tree_live in grind (arith, get-push)",
              "sent_trees": "λ j n x. let old = i.sent_trees j n x in let l = i.live_accepted live in "
                  "let m = (i.numbered_sessions 0 0).2 live in grind (arith, get-push)",
          }),
    Event("Say", "a reply is on its way", "conns", "(k : ℕ) (y0 : Received)",
          [("ops", "is_ops y0.token ≡ true → c.live ≡ true × y0.reply.session_id ≡ c.session"),
           ("first", "is_ops y0.token ≡ false → c.stage k ≡ SaidFirst false "
               "→ y0.reply.status ≡ more_processing_required → c.rank y0.reply.session_id ≡ 0 "
               "× 0 < y0.reply.session_id × y0.reply.session_id ≤ id_of s.epoch s.session_ids_given"),
           ("second", "is_ops y0.token ≡ false → c.stage k ≡ SaidSecond false → y0.reply.status ≡ success "
               "→ (0 < c.rank c.accepted → s.present c.accepted ≡ false) × ((j : ℕ) "
               "→ is_new c.pending (s.making j) ≡ false)"),
           ("tree", "is_ops y0.token ≡ false → c.stage k ≡ AskedTree → y0.reply.status ≡ success "
               "→ s.present c.accepted ≡ true → is_some (tree_in (s.trees c.accepted) y0.reply.tree_id) ≡ true")],
          conns="(put conns k (record (conns k) { down = (conns k).down ++ y0 ∷ [] }))",
          parts={
              "current_down": "λ j n y. let old = i.current_down j n y in let q = ops in grind (arith, get-push)",
              "first_reply": "λ j n y. let old = i.first_reply j n y in let q = first in grind (arith, get-push)",
              "second_reply": "λ j n y. let old = i.second_reply j n y in let q = second in grind (arith, get-push)",
              "tree_reply": "λ j n y. let old = i.tree_reply j n y in let q = tree in grind (arith, get-push)",
          }),
]

BASE = "(c : Client) (conns : ℕ → Conn) (s : Server)"
ARGUMENTS = {part: row[0] for part, row in PARTS.items()}


def emit(event):
    low = low_name(event.name)
    state = {"c": event.c, "conns": event.conns, "s": event.s}
    over = BASE + (" " + event.arguments if event.arguments else "")
    variables = names(over)
    out = [sentence(event.about), HEAD, "\n"]
    calls = {}
    for part, (arguments, _, reads) in PARTS.items():
        if not event.writes & set(reads.split()):
            calls[part] = "i." + part
            continue
        term = event.parts.get(part) or default(part)
        used = named_in("i", term)
        parts = ([part] if part in used else []) + sorted(used - {part})
        needs = narrowed(event.needs, re.sub(r"\bi\.\w+", "", term), lambda name, wanted: name == "none" or quantifies(name, wanted))
        goal = type_name(part) + " " + " ".join(state[w] for w in arguments.split())
        text, calls[part] = part_lemma("%s_%s" % (low, part), over, variables, needs, [("i", parts, ARGUMENTS)], goal, term)
        out.append(text)
    words = " ".join(variables + [n for n, _ in event.needs] + ["i"])
    out.append(step(low + "_keeps", over, premised(event.needs), "Sessions c conns s",
        "Sessions %s %s %s" % (event.c, event.conns, event.s), words))
    out.append(fields(PARTS, calls))
    write_module(TOP, event.name, "".join(out))


if __name__ == "__main__":
    write_wanted(EVENTS, emit)
    named = {e.name for e in EVENTS}
    own = sorted(n[:-5] for n in os.listdir(TOP) if n.endswith(".antt") and n != "Lib.antt" and n[:-5] not in named)
    write_list(TOP, own + [e.name for e in EVENTS])
