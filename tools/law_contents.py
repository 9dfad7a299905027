#!/usr/bin/env python3
"""Writes the regular part of the proofs about the bytes under opens: for each small step one lemma for each part that the
step touches. A part whose columns the step leaves alone holds as it did.

The rule is one line: the old part at the goal's own variables, then grind. EVENTS names each step with what it needs,
the columns that it changes, and the parts whose proof needs more than that.

Run `rt tidy` and `rt fmt` in the crate behind it: it writes all imports into each file.
"""
import re

from law_contents_events import EVENTS, WORDS
from law_contents_parts import ARGUMENTS, CONNECTIONS, PARTS, TOP, arguments_in
from law_text import (
    bound, fields, held, kept_part, lemma, low_name, named_in, names, narrowed, premised, sentence, step, type_name,
    write_module, write_wanted,
)


def default(part):
    variables, columns = PARTS[part]
    tactic = "grind (arith, get-push)" if "conns" in columns else "grind arith"
    return kept_part(part, variables, tactic)


HEAD = """use Rattle.std.proofs.lemmas.Bool.{eqb-false}
use Rattle.std.proofs.lemmas.Bool.Decides.{nat_tests}
use Rattle.std.proofs.Common.{eqb-true, ◌≡◌, ◌≢◌, ℕ, ◌+◌, ◌≤◌, ◌<◌, ◌==◌, Bool, true, false, not, ◌&&◌, ◌||◌,
    if◌then◌else◌, List, [], ◌∷◌, ◌++◌, ◌⊎◌, inl, inr, refl, arith, sym, subst, ◌∙◌, ap, Option, Some, None, slice_get, is_some, zero, suc}
use Rattle.spec_exchange.specs.Table.{put, put2, is_at}
use Rattle.spec_exchange.specs.Status.{success, file_not_available, file_closed, user_session_deleted, end_of_file}
use Rattle.spec_exchange.specs.Content.{ContentReply}
use Rattle.spec_exchange.specs.Order.{Log, Says_ok, Says_end, Settled_ok, Settled_end}
use Rattle.spec_exchange.specs.State.{Server, Message, Reply}
use Rattle.spec_exchange.specs.Operations.{Op, Outcome, Unsettled, Why, is_unsettled, is_firm, is_ok, is_create,
    persists, create_of, id_in, share_of, reconnect_of, HadStatus}
use Rattle.spec_exchange.specs.Client.{Client, Stage, Apart, AskedTree, guid_for, SaidNegotiate, create_for,
    outstanding as put_out, take_slot, asked, cut_channel, end_session, finish, is_taken, outcome_after_end,
    given_up_after_end, outcome_after_finish, given_up_after_finish, bind_channel, begin_session, leave_dialog, note_refusal}
use Rattle.spec_exchange.specs.Settling.{answered, joined, settled as settled_by}
use Rattle.spec_exchange.specs.Dialogs.{open_channel, went_on, accepted, told_session}
use Rattle.spec_exchange.specs.Runs.{settlement}
use Rattle.spec_exchange.specs.Network.{Conn, Sent, Received, Trace, Token, ForDialog, ForOp, ForAttach, op_of, is_own,
    fresh as fresh_conn, server_off, client_off, send_up, behind_front, take_front, said}
use Rattle.law_sessions.specs.messages.Connections.{create_at, makes_open, its_create, no_copy_out, count_up, count_down, CONNECTIONS}
use Rattle.law_sessions.proofs.messages.Lists.{get-push, own_up_count, attach_up_count, own_down_count, attach_down_count,
    front_up, front_down, waited, waited_down}
use Rattle.law_sessions.specs.sessions.Sessions.{is_ops}
use Rattle.law_order.specs.order.Newest.{Pair}
use Rattle.law_order.specs.order.Contents.{Contents, edits, lists, formed, isolating, clashes, bytes_after, reply_to,
    ends_before, file_at, pends, last_id, is_final, PARTS}
use Rattle.law_order.proofs.order.Moved.{Steps, Moves, live_back}
use Rattle.law_order.proofs.order.Words.{WORDS}
""".replace("PARTS", ", ".join(type_name(p) for p in PARTS))



STATE = "(c : Client) (conns : ℕ → Conn) (s : Server) (t : Trace) (l : Log) (a : ℕ → ℕ)"
LOWER = {p: " ".join(arguments_in(CONNECTIONS, type_name(p))) for p in re.findall(r"^  pub (\w+) : ",
    CONNECTIONS[CONNECTIONS.index("pub record Connections"):], re.M)}
SPOKEN = {part: " ".join(arguments) for part, arguments in ARGUMENTS.items()}


def emit(event):
    low = low_name(event.name)
    over = STATE + (" " + event.arguments if event.arguments else "")
    before = names(over)
    out = [sentence(event.about), HEAD, "\n"]
    calls = {}
    lower_used = []
    for part, (variables, columns) in PARTS.items():
        if part not in event.parts and not (set(columns.split()) & event.changes):
            calls[part] = "i.%s" % part
            continue
        term = event.parts.get(part) or default(part)
        parts = [part] + sorted(named_in("i", term) - {part})
        lower = sorted(named_in("cn", term))
        for q in lower:
            if q not in lower_used:
                lower_used.append(q)
        needs = narrowed(event.needs, re.sub(r"\b(i|cn)\.\w+", "", term), lambda name, wanted: name in event.narrow)
        premises = premised(needs) + held(lower, LOWER, "C.") + held(parts, SPOKEN)
        goal = type_name(part) + " " + " ".join(event.state[w] for w in ARGUMENTS[part])
        given = before + [n for n, _ in needs] + ["cn_" + q for q in lower]
        name = "%s_%s" % (low, part)
        out.append(lemma(name, over, premises, goal, " ".join(given + ["i_" + q for q in parts]), bound("cn", bound("i", term))))
        calls[part] = " ".join([name] + given + ["i." + q for q in parts])
    premises = premised(event.needs) + held(lower_used, LOWER, "C.")
    words = " ".join(before + [n for n, _ in event.needs] + ["cn_" + q for q in lower_used] + ["i"])
    behind = " ".join(event.state[w] for w in ("c", "conns", "s", "t", "l", "a"))
    out.append(step(low + "_keeps", over, premises, "Contents c conns s t l a", "Contents " + behind, words))
    out.append(fields(PARTS, calls))
    text = "".join(out)
    used = sorted(set(re.findall(r"\bC\.(\w+)", text)))
    text = text.replace("CONNECTIONS", ", ".join("%s as C%s" % (u, u) for u in used) if used else "copies").replace("C.", "C")
    words_used = [w for w in WORDS if re.search(r"(?<![\w.])%s\b" % w, "".join(out[2:]))]
    text = text.replace("use Rattle.law_order.proofs.order.Words.{WORDS}\n", "use Rattle.law_order.proofs.order.Words.{%s}\n"
        % ", ".join(words_used) if words_used else "")
    write_module(TOP, "On" + event.name, text)


if __name__ == "__main__":
    write_wanted(EVENTS, emit)
