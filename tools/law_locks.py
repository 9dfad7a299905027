#!/usr/bin/env python3
"""Writes the regular part of the proofs about locks: for each small step one lemma for each part that the step may touch.

The rule is one line: the old part at the goal's own variables, then grind. EVENTS names each step with what it needs,
the columns that it touches, and the parts whose proof needs more than that. A part that reads none of these columns
stays as it is, with no lemma. Run `rt tidy` and `rt fmt` afterwards: each file gets all imports.
"""
import os
import re

from law_locks_before import BEFORE
from law_text import (
    bound, fields, kept_part, low_name, named_in, names, narrowed, part_lemma, premised, proofs_of, sentence,
    standing, step, type_name, write_list, write_module, write_wanted,
)

TOP = proofs_of("law_locks")

# part: (its type's arguments, the variables that it is quantified by, the columns that it reads)
PARTS = {
    "slot_index": ("c", "p", "sent op slot_of"),
    "user_body": ("c", "q r p", "slot_user op slot_of sent"),
    "in_use": ("c", "p", "sent op outcome slot_user slot_of"),
    "full_free": ("c", "p", "sent op outcome full slot_of"),
    "attached_low": ("c", "q", "attached session_number"),
    "shut_ok": ("c", "p", "op outcome closed_ok"),
    "shut_made": ("c", "q", "closed_ok outcome taken"),
    "shut_gone": ("c", "p", "taken op closed_ok sent outcome"),
    "close_before": ("c", "p q", "sent op outcome"),
    "close_after": ("c", "q p", "sent op outcome"),
    "unsent_gone": ("c", "p", "outcome sent"),
    "unanswered": ("c conns", "j n p x", "up open unanswered"),
    "ask_up": ("c conns", "j n p x", "up taken op outcome file"),
    "ask_down": ("c conns", "j n p y", "down taken op outcome"),
    "users": ("c conns s", "j n p x", "up op slot_user slot_of present"),
    "copy_now": ("c conns s", "j n p x", "up op live attached session_number asks_attach present"),
    "retried_on": ("c conns s", "j n p x", "up open op live outstanding_on retried slot_of session_number present"),
    "retried_done": ("c conns s", "j n p x", "up open op live outcome retried slot_of session_number present"),
    "copy_attached": ("c conns s", "j n p x", "up op file present standing session_of_open"),
    "now_attached": ("c s", "q", "op outcome live attached session_number session file present standing session_of_open"),
    "opened_reply": ("c conns s", "j n p y", "down op live session present standing session_of_open"),
    "join_reply": ("c conns s", "j n p y", "down op live file session present standing session_of_open"),
    "joined_reply": ("c conns s", "j n p y", "down op live file session attached session_number present standing"),
    "lost_reply": ("c conns s", "j n p y", "down op file standing"),
    "kept_says": ("c s a", "p st", "slot_user op slot_of number_of file standing lock_sequences a"),
    "not_kept": ("c s a", "p", "slot_user op slot_of number_of file standing lock_sequences a"),
    "firm_kept": ("c s", "p", "slot_user op slot_of number_of file standing lock_sequences outcome full"),
    "no_user": ("c s", "q r", "outcome op slot_user file standing lock_sequences"),
    "no_slots": ("c s", "q r o", "op outcome by_guid lock_sequences"),
    "full_dead": ("c conns s", "j n p x", "up op outcome full slot_of present"),
    "ok_reply": ("c conns a", "j n p y", "down op a"),
    "no_reply": ("c conns a", "j n p y", "down op a"),
    "kept_reply": ("c conns s", "j n p y", "down op file slot_of number_of standing lock_sequences"),
    "first_reply": ("c conns a", "j n p y", "down op unanswered a"),
    "closed_not": ("c s a", "p", "op sent outcome live attached session_number session file present standing a"),
    "kept_files": ("s", "o", "standing opened"),
    "left_full": ("c conns s", "j n p x", "up op live outcome file present standing opened journal"),
    "left_stuck": ("c conns s", "j n p x", "up op live outcome file present standing opened journal files"),
    "left_idle": ("c conns s a", "j n p q x", "up op live outcome file present standing opened a"),
    "close_done": ("c conns s", "j n p y", "down op file standing"),
    "close_full": ("c conns s", "j n p y", "down op file standing opened journal"),
    "close_stuck": ("c conns s", "j n p y", "down op file standing opened journal files"),
    "made_plain": ("c a", "p", "op a"),
    "at_most": ("c a", "p", "op a"),
    "ok_acted": ("c a", "p", "op outcome a"),
    "refused_not": ("c a", "p", "op outcome a"),
}

UP = [p for p, v in PARTS.items() if " up " in " %s " % v[2]]
DOWN = [p for p, v in PARTS.items() if " down " in " %s " % v[2]]
OWN_UP = [p for p in UP if p != "ask_up"]
OWN_DOWN = [p for p in DOWN if p not in ("ask_down", "join_reply", "joined_reply", "lost_reply")]
ASK_DOWN = [p for p in DOWN if p not in OWN_DOWN]


def default(part, touched):
    arguments, variables, reads = PARTS[part]
    tactic = "grind (arith, get-push)" if set(touched) & {"up", "down"} & set(reads.split()) else "grind arith"
    return kept_part(part, variables, tactic)


def with_facts(part, facts, tactic=None):
    """the default with facts in front, which may speak of the part's own variables and premises"""
    v = PARTS[part][1]
    return "λ %s. let old = i.%s %s in %s%s" % (v, part, v, facts, tactic or "grind arith")


C_PARTS = {
    "once": "conns", "outstanding": "c conns", "own_up": "c conns", "attach_up": "c conns", "own_down": "c conns",
        "attach_down": "c conns", "down_open": "conns", "on_ready": "c",
    "ready": "c conns", "stages": "c", "settled": "c", "taken": "c", "taken_on": "c", "creates": "c", "lower": "c",
        "has_open": "c", "asked_open": "c", "fresh": "c a", "bodies": "c conns",
    "first": "c conns a", "unsent": "c a", "sent_replies": "c conns", "deleted": "c conns a",
}

WORDS = (
    "lock_kind, lock_stays, lock_once, close_kind, own_create, unsettled_firm, unsettled_unsent, unsettled_ok, "
    "unsettled_refused, unsent_firm, unsent_ok, ok_firm, ok_settled, firm_settled, unsent_settled, unsent_refused, "
    "refused_how, kept_none, kept_same, kept_other, kept_is_some, more_up, more_down, more_asks, down_is_open, up_on, "
    "down_on, ask_on, ok_of, made_of, own_ops, own_reply_ops, ask_reply_ops, split_at"
)

HEAD = """use Rattle.std.proofs.lemmas.Bool.{eqb-false}
use Rattle.std.proofs.lemmas.Bool.Decides.{nat_tests}
use Rattle.std.proofs.Common.{eqb-true, ◌≡◌, ◌≢◌, ℕ, ◌+◌, ◌≤◌, ◌<◌, ◌==◌, ◌%◌, Bool, true, false, not, ◌&&◌, ◌||◌,
    if◌then◌else◌, List, [], ◌∷◌, ◌++◌, ◌⊎◌, inl, inr, refl, arith, sym, subst, ◌∙◌, ap, Option, Some, None,
    slice_get, is_some, zero, suc}
use Rattle.spec_exchange.specs.Table.{put, put2}
use Rattle.spec_exchange.specs.Status.{success, user_session_deleted, file_closed, object_name_not_found, disk_full}
use Rattle.spec_exchange.specs.Commands.{TreeConnect, deletes_on_close}
use Rattle.spec_exchange.specs.CheckSetup.{tree_in}
use Rattle.spec_exchange.specs.State.{Server, Message, Reply, Kept, Range}
use Rattle.spec_exchange.specs.Records.{lower_limit}
use Rattle.spec_exchange.specs.Operations.{Op, Outcome, Why, is_unsettled, is_ok, is_create, is_close, is_lock,
    create_of, id_in, reconnect_of, HadStatus}
use Rattle.spec_exchange.specs.Client.{Client, Stage, AskedTree, create_for, guid_for, outstanding as put_out, asked,
    cut_channel, end_session, finish, bind_channel, begin_session, leave_dialog, note_refusal}
use Rattle.spec_exchange.specs.Settling.{answered}
use Rattle.spec_exchange.specs.Dialogs.{open_channel, went_on, accepted}
use Rattle.spec_exchange.specs.Network.{Conn, Sent, Received, Token, ForDialog, ForOp, ForAttach, op_of,
    fresh as fresh_conn, server_off, client_off, send_up, behind_front, take_front}
use Rattle.law_sessions.specs.messages.Connections.{Connections, copies, count_up, count_down, no_copy_out, makes_open,
    shuts_open, acts_once, its_create, its_request, create_at, opens, CPARTS}
use Rattle.law_sessions.proofs.messages.Lists.{get-push, rest_of, own_up_count, own_down_count, attach_up_count,
    attach_down_count, front_up, front_down, waited, waited_down}
use Rattle.law_sessions.specs.sessions.Sessions.{is_ops}
use Rattle.law_locks.specs.Locks.{Locks, locking, kept_at, firm, is_unsent, refused_for_good, in_slots, user_at,
    open_at, kept_of, is_stuck, piped, PARTS}
use Rattle.law_locks.proofs.Words.{WORDS}
"""
for marked, parts in (("CPARTS", C_PARTS), ("PARTS", PARTS)):
    HEAD = HEAD.replace(marked, ", ".join(type_name(p) for p in parts))
HEAD = HEAD.replace("WORDS", WORDS)


class Event:
    def __init__(self, name, about, touched, arguments="", needs=(), c="c", conns="conns", s="s", a="a", parts=None):
        self.name, self.about, self.touched, self.arguments, self.needs = name, about, touched.split(), arguments, list(needs)
        self.c, self.conns, self.s, self.a = c, conns, s, a
        self.parts = parts or {}


EVENTS = []


def event(*arguments, **keywords):
    e = Event(*arguments, **keywords)
    EVENTS.append(e)
    return e


# ---- facts put in front of grind
SENT_UP = "let b = C.bodies j n p x h t in let tk = C.taken p b.0 in "  # behind λ .. h t
SENT_DOWN = "let sent = C.sent_replies j n p y h t in let tk = C.taken p sent in "
USER = "let ub = i.user_body _ _ p e in let tk = C.taken p ub.3 in "  # behind λ p e, or λ p st e
OLD = "let w = waited conns k x0 rest j n x is h in "
OLD_DOWN = "let w = waited_down conns k y0 rest j n y is h in "
PUSHED = "grind (arith, get-push)"


def more(part, facts, tactic="grind arith", bound="h t"):
    v = PARTS[part][1]
    return "λ %s %s. let old = i.%s %s %s in %s%s" % (v, bound, part, v, bound, facts, tactic)


# ---- Submit
submit = event("Submit", "an operation is taken", "taken op outcome", "(g : ℕ) (op : Op) (out : Outcome)",
      [("next", "g ≡ c.taken + 1"), ("fired", "firm out ≡ false"), ("okay", "is_ok out ≡ false"),
          ("unknown", "s.by_guid c.who.guid (guid_for c g) ≡ None"),
       ("gone", "makes_open op ≡ false → c.closed_ok (its_create g op) ≡ true → is_unsettled out ≡ false"), ("never", "a g ≡ 0")],
      c="(record c { taken = g; op = put c.op g op; outcome = put c.outcome g out })",
      parts={
          "slot_index": "λ p s0. let tk = C.taken p s0 in let old = i.slot_index p s0 in grind arith",
          "user_body": "λ q r p e. let old = i.user_body q r p e in let tk = C.taken p old.3 in grind arith",
          "in_use": "λ p s0. let tk = C.taken p s0 in let old = i.in_use p s0 in grind arith",
          "full_free": "λ p s0. let tk = C.taken p s0 in let old = i.full_free p s0 in grind arith",
          "shut_gone": "λ p l m. let old = i.shut_gone p l in let g1 = gone in grind arith",
          "close_before": "λ p q s0. let tk = C.taken p s0 in let old = i.close_before p q s0 in grind arith",
          "close_after": "λ q p s0. let tk = C.taken q s0 in let old = i.close_after q p s0 in grind arith",
          "unsent_gone": "λ p. let old = i.unsent_gone p in let tk = C.taken p in grind arith",
          "closed_not": "λ p l s0. let tk = C.taken p s0 in let old = i.closed_not p in grind arith",
          "ask_up": "λ j n p x h t. let old = i.ask_up j n p x h t in let cr = C.creates p old.0 old.1 old.2 in grind arith",
          "ask_down": "λ j n p y h t. let old = i.ask_down j n p y h t in let cr = C.creates p old.0 old.1 old.2 in grind arith",
          "kept_says": "λ p st e. let old = i.kept_says p st in " + USER + "grind arith",
          "not_kept": "λ p e. let old = i.not_kept p in " + USER + "grind arith",
          "firm_kept": "λ p e. let old = i.firm_kept p in " + USER + "grind arith",
          "left_idle": "λ j n p q x h t. let old = i.left_idle j n p q x h t in let b = C.bodies j n p x h t in "
              "let tk = C.taken p b.0 in grind arith",
      })
for part in OWN_UP:
    if part not in ("unanswered", "left_idle"):
        submit.parts[part] = more(part, SENT_UP)
for part in OWN_DOWN:
    submit.parts[part] = more(part, SENT_DOWN)
for part in ("join_reply", "joined_reply", "lost_reply"):
    submit.parts[part] = more(part, "let ad = i.ask_down j n p y h t in ")

# ---- connections and dialogs
event("Opened", "a connection is made", "stage up down open", "(k : ℕ) (served : Bool)",
    [("closed", "(conns k).client_open ≡ false")], c="(open_channel c k)", conns="(put conns k (fresh_conn c k served))")
event("Dropped", "the server closes its end", "up", "(k : ℕ)", conns="(put conns k (server_off (conns k)))")
event("AllDropped", "the server starts anew", "up", "", conns="(λ j. server_off (conns j))")
event("Behind", "a reply leaves its connection", "down", "(k : ℕ) (y0 : Received) (rest : List Received)",
    [("is", "(conns k).down ≡ y0 ∷ rest")], conns="(put conns k (take_front (conns k) rest))",
      parts={p: "λ %s h. %si.%s %s" % (PARTS[p][1], OLD_DOWN, p,
          " ".join("w.0" if v == "n" else v for v in PARTS[p][1].split()) + " w.1") for p in DOWN})
event("Front", "the server takes the front", "up", "(k : ℕ) (x0 : Sent) (rest : List Sent)",
    [("is", "(conns k).up ≡ x0 ∷ rest")], conns="(put conns k (behind_front (conns k) rest))",
      parts={p: "λ %s h. %slet old = i.%s %s in grind arith" % (PARTS[p][1], OLD, p,
          " ".join("w.0" if v == "n" else v for v in PARTS[p][1].split()) + " w.1") for p in UP})
event("DialogSent", "the next message of a dialog goes out", "up", "(k n0 : ℕ) (m0 : Message)",
    conns="(put conns k (send_up (conns k) ForDialog m0 n0))")
event("WentOn", "a dialog goes on", "stage pending", "(k : ℕ) (stage : Stage) (r0 : Reply)", c="(went_on c k stage r0)")
event("Accepted", "a new session is accepted", "stage accepted", "(k : ℕ)", c="(accepted c k)")
event("Bound", "a further channel is ready", "stage", "(k : ℕ)", c="(bind_channel c k)")
event("DialogRefused", "a dialog is refused, and the client closes its channel", "stage open down", "(k status : ℕ)",
    [("apart", "c.ready k ≡ false")],
      c="(note_refusal c k (HadStatus status))", conns="(put conns k (client_off (conns k)))")
event("DialogOff", "the client closes a channel that isn't ready", "stage open down", "(k : ℕ)", [("apart", "c.ready k ≡ false")],
      c="(leave_dialog c k)", conns="(put conns k (client_off (conns k)))")
ON_UP = "let on1 = up_on c conns C.outstanding j n p x h' t tk.0 in let rd = C.on_ready p k in "
for e in EVENTS:
    if e.name in ("DialogRefused", "DialogOff"):
        for part in ("unanswered", "retried_on", "retried_done"):
            v = PARTS[part][1]
            e.parts[part] = (
                "λ %s h t. let h' : slice_get (conns j).up n ≡ Some x = grind arith in let old = i.%s %s h' t in "
                "let b = C.bodies j n p x h' t in let tk = C.taken p b.0 in %slet st1 = C.settled p in grind arith"
                % (v, part, v, ON_UP)
            )
event("Readied", "a session is ready", "stage live session session_number", "(k session tree : ℕ)",
      [("gone", "(j n : ℕ) (x : Sent) → slice_get (conns j).up n ≡ Some x → is_ops x.token ≡ true "
          "→ s.present x.message.session_id ≡ false"),
       ("idle", "(j n : ℕ) (y : Received) → slice_get (conns j).down n ≡ Some y → is_ops y.token ≡ false")],
      c="(begin_session c k session tree)",
      parts={"now_attached": "λ q. let l = i.attached_low q in grind arith",
          "closed_not": "λ p. let l = i.attached_low (create_at c p) in grind arith"})
readied = EVENTS[-1]
for part in OWN_UP:
    if "session_number" in PARTS[part][2] or "live" in PARTS[part][2] or "session" in PARTS[part][2]:
        readied.parts[part] = "λ %s h t. let v = gone j n x h (own_ops x p t) in grind arith" % PARTS[part][1]
for part in DOWN:
    if set(PARTS[part][2].split()) & {"live", "session", "session_number"}:
        readied.parts[part] = (
            "λ %s h t. let v = idle j n y h in let o1 = %s y p t in grind arith" % (PARTS[part][1],
            "own_reply_ops" if part in OWN_DOWN else "ask_reply_ops")
        )

# ---- Push
event("Begin", "an operation other than a lock goes out first", "sent", "(g : ℕ)",
      [("new", "c.sent g ≡ false"), ("other", "locking (c.op g) ≡ false"), ("pending", "is_unsettled (c.outcome g) ≡ true"),
       ("before", "(h : ℕ) → 0 < h → h < g → create_at c h ≡ create_at c g → shuts_open (c.op h) ≡ true "
           "→ is_unsettled (c.outcome h) ≡ false × is_ok (c.outcome h) ≡ false"),
       ("after", "(p : ℕ) → 0 < p → p < g → create_at c p ≡ create_at c g → makes_open (c.op p) ≡ false "
           "→ shuts_open (c.op g) ≡ true → is_unsettled (c.outcome p) ≡ false")],
      c="(record c { sent = put c.sent g true })",
      parts={
          "unsent_gone": "λ p. let old = i.unsent_gone p in let st = unsettled_unsent (c.outcome p) in grind arith",
          "close_before": "λ p q. let old = i.close_before p q in let bf = before q in grind arith",
          "close_after": "λ q p. let old = i.close_after q p in let af = after p in grind arith",
      })
begin_lock = event("BeginLock", "a lock takes its slot and goes out first", "sent slot_of number_of slot_user", "(g q0 i0 m0 : ℕ)",
      [("new", "c.sent g ≡ false"), ("lock", "locking (c.op g) ≡ true"), ("slot", "in_slots i0 ≡ true"),
          ("its", "q0 ≡ create_at c g"), ("pending", "is_unsettled (c.outcome g) ≡ true"), ("live", "c.live ≡ true"),
       ("ok", "is_ok (c.outcome q0) ≡ true"), ("made", "makes_open (c.op q0) ≡ true"),
       ("before", "(h : ℕ) → 0 < h → h < g → create_at c h ≡ create_at c g → shuts_open (c.op h) ≡ true "
           "→ is_unsettled (c.outcome h) ≡ false × is_ok (c.outcome h) ≡ false"),
       ("unretried", "c.retried q0 i0 ≢ c.session_number"), ("unfull", "c.full q0 i0 ≡ false"),
           ("unused", "(h : ℕ) → c.slot_user q0 i0 ≡ Some h → firm (c.outcome h) ≡ true × m0 ≢ c.number_of h")],
      c="(record c { slot_of = put c.slot_of g i0; number_of = put c.number_of g m0; slot_user = put2 c.slot_user q0 "
          "i0 (Some g); sent = put c.sent g true })",
      parts={
          "slot_index": "λ p. let old = i.slot_index p in let sl = slot in grind arith",
          "user_body": "λ q r p. let old = i.user_body q r p in grind arith",
          "in_use": "λ p. let old = i.in_use p in let un = unused p in grind arith",
          "unsent_gone": "λ p. let old = i.unsent_gone p in let st = unsettled_unsent (c.outcome p) in grind arith",
          "close_before": "λ p q. let old = i.close_before p q in let bf = before q in grind arith",
          "close_after": "λ q p. let old = i.close_after q p in let ls = lock_stays (c.op g) lock in grind arith",
          "not_kept": "λ p. let old = i.not_kept p in let fr = C.fresh g new in grind arith",
          "closed_not": "λ p. let old = i.closed_not p in let fr = C.fresh g new in grind arith",
          "firm_kept": "λ p. let old = i.firm_kept p in let uf = unsettled_firm (c.outcome p) in grind arith",
          "kept_says": "λ p st. elim (p == g) as (λ b. p == g ≡ b → Says STATE s a p st) [ "
              "| true ↦ λ e. subst (λ z. Says STATE s a z st) (sym (eqb-true p g e)) (says_own c s a g q0 i0 m0 st its "
              "(fresh_number c s q0 i0 m0 unused unfull i.user_body i.firm_kept (i.no_user q0 i0 ok made) "
              "(c.slot_user q0 i0) refl)) | false ↦ λ e. says_other c s a g q0 i0 m0 p st (eqb-false p g e) "
              "(i.kept_says p st) ] refl",
          "users": more("users", SENT_UP + "let un = unused p in let fs = firm_settled (c.outcome p) in "
              "let rt = i.retried_done j n p x h t in let st1 = C.settled p in "
              "let on1 = up_on c conns C.outstanding j n p x h t tk.0 in grind arith", ""),
          "retried_on": more("retried_on", SENT_UP), "retried_done": more("retried_done", SENT_UP),
              "full_dead": more("full_dead", SENT_UP), "kept_reply": more("kept_reply", SENT_DOWN),
      })
event("Again", "a slot's lock goes out again", "retried", "(q0 i0 : ℕ)", c="(record c { retried = put2 c.retried q0 i0 c.session_number })")
send = event("Send", "an operation goes out itself", "outstanding_on asks_attach up", "(k g n0 : ℕ) (m0 : Message)",
      [("ready", "c.ready k ≡ true"), ("none", "c.outstanding_on g ≡ None"),
          ("pending", "is_unsettled (c.outcome g) ≡ true"), ("sent", "c.sent g ≡ true"),
          ("stands", "(conns k).client_open ≡ true"), ("mine", "m0.session_id ≡ c.session"), ("live", "c.live ≡ true"),
       ("att", "makes_open (c.op g) ≡ false → c.attached (create_at c g) ≡ c.session_number"),
       ("again", "(j n : ℕ) (x : Sent) → slice_get (conns j).up n ≡ Some x → x.token ≡ ForOp g "
           "→ locking (c.op g) ≡ true → c.retried (create_at c g) (c.slot_of g) ≡ c.session_number"),
       ("ok", "makes_open (c.op g) ≡ false → is_ok (c.outcome (create_at c g)) ≡ true × makes_open (c.op (create_at c g)) ≡ true")],
      c="(put_out c k g)", conns="(put conns k (send_up (conns k) (ForOp g) m0 n0))",
      parts={
          "users": "λ j n p x. let old = i.users j n p x in let iu = i.in_use p in let uf = unsettled_firm (c.outcome p) in " + PUSHED,
          "copy_now": "λ j n p x. let old = i.copy_now j n p x in let at1 = att in " + PUSHED,
          "copy_attached": "λ j n p x. let old = i.copy_attached j n p x in let at1 = att in let ok1 = ok in "
              "let na = i.now_attached (create_at c g) in " + PUSHED,
          "retried_on": "λ j n p x. let old = i.retried_on j n p x in let ag = again j n x in " + PUSHED,
          "full_dead": "λ j n p x. let old = i.full_dead j n p x in let uf = unsettled_firm (c.outcome p) in " + PUSHED,
      })
event("Ask", "a DH2C goes out in an operation's place", "outstanding_on asks_attach up", "(k g n0 : ℕ) (m0 : Message)",
      [("ready", "c.ready k ≡ true"), ("none", "c.outstanding_on g ≡ None"), ("above", "0 < g"),
          ("within", "g ≤ c.taken"), ("kind", "makes_open (c.op g) ≡ false"),
          ("ok", "is_ok (c.outcome (create_at c g)) ≡ true"), ("mine", "m0.session_id ≡ c.session"),
          ("live", "c.live ≡ true"),
       ("body", "m0.command ≡ reconnect_of (c.op (create_at c g)) (guid_for c (create_at c g)) (open_at c g)"),
           ("loose", "c.attached (create_at c g) ≢ c.session_number"), ("stands", "(conns k).client_open ≡ true")],
      c="(asked c k g)", conns="(put conns k (send_up (conns k) (ForAttach g) m0 n0))",
      parts={
          "copy_now": "λ j n p x. let old = i.copy_now j n p x in " + PUSHED,
          "retried_on": "λ j n p x. let old = i.retried_on j n p x in let cn = i.copy_now j n p x in "
              "let lk = lock_kind (c.op p) in " + PUSHED,
      })

# ---- Take
opens = event("Opens", "a create that is outstanding names its open", "file attached", "(g id : ℕ)",
    [("create", "makes_open (c.op g) ≡ true"), ("pending", "is_unsettled (c.outcome g) ≡ true")],
      c="(record c { file = put c.file g id; attached = put c.attached g c.session_number })",
      parts={
          "kept_says": "λ p st e. let old = i.kept_says p st e in let ub = i.user_body _ _ p e in "
              "let ok1 = ok_of c C.has_open p ub.3 (lock_kind (c.op p) ub.0) in "
              "let os = ok_settled (c.outcome (create_at c p)) ok1 in grind arith",
          "not_kept": "λ p e. let old = i.not_kept p e in let ub = i.user_body _ _ p e in "
              "let ok1 = ok_of c C.has_open p ub.3 (lock_kind (c.op p) ub.0) in "
              "let os = ok_settled (c.outcome (create_at c p)) ok1 in grind arith",
          "firm_kept": "λ p e. let old = i.firm_kept p e in let ub = i.user_body _ _ p e in "
              "let ok1 = ok_of c C.has_open p ub.3 (lock_kind (c.op p) ub.0) in "
              "let os = ok_settled (c.outcome (create_at c p)) ok1 in grind arith",
          "now_attached": "λ q m ok1. let old = i.now_attached q m ok1 in let os = ok_settled (c.outcome q) ok1 in grind arith",
          "no_user": "λ q r ok1. let old = i.no_user q r ok1 in let os = ok_settled (c.outcome q) ok1 in grind arith",
          "closed_not": "λ p l s0. let old = i.closed_not p l s0 in let ok1 = ok_of c C.has_open p s0 (lock_kind "
              "(c.op p) l) in let os = ok_settled (c.outcome (create_at c p)) ok1 in grind arith",
      })
for part in UP:
    if set(PARTS[part][2].split()) & {"file", "attached"} and part != "ask_up":
        opens.parts[part] = (
            more(part, "let b = C.bodies j n p x h t in let ok1 = ok_of c C.has_open p b.0 in "
            "let os = ok_settled (c.outcome (create_at c p)) in let ck = close_kind (c.op p) in ")
        )
opens.parts["ask_up"] = more("ask_up", "let os = ok_settled (c.outcome (create_at c p)) old.3 in ")
for part in DOWN:
    if set(PARTS[part][2].split()) & {"file", "attached"}:
        if part in OWN_DOWN:
            opens.parts[part] = (
                more(part, "let s1 = C.sent_replies j n p y h t in let ok1 = ok_of c C.has_open p s1 in "
                "let os = ok_settled (c.outcome (create_at c p)) in let ck = close_kind (c.op p) in "
                "let lk = lock_kind (c.op p) in ")
            )
        else:
            opens.parts[part] = more(part, "let ad = i.ask_down j n p y h t in let os = ok_settled (c.outcome (create_at c p)) ad.3 in ")
SAME = [("same", "(h : ℕ) → h ≢ g → is_unsettled (c.outcome h) ≡ false → new h ≡ c.outcome h"),
        ("gives", "(h : ℕ) → h ≢ g → is_unsettled (c.outcome h) ≡ true → is_unsettled (new h) ≡ false "
            "→ is_unsent (new h) ≡ true × c.sent h ≡ false")]
settle = event("Settle", "a reply settles its operation", "outcome outstanding_on closed_ok full", "(k g : ℕ) "
    "(o0 : Outcome) (new : ℕ → Outcome) (sh : ℕ → Bool) (fu : ℕ → ℕ → Bool) (by0 : ℕ → Option ℕ) (order0 : List ℕ)",
      [("on", "c.outstanding_on g ≡ Some k"), ("own", "new g ≡ o0"), ("settled0", "is_unsettled o0 ≡ false"),
          ("real", "is_unsent o0 ≡ false")] + SAME
      + [("gone", "(p : ℕ) → 0 < p → p ≤ c.taken → makes_open (c.op p) ≡ false → sh (create_at c p) ≡ true "
          "→ c.sent p ≡ false → is_unsettled (new p) ≡ false"),
         ("shuts", "(h : ℕ) → shuts_open (c.op h) ≡ true → is_ok (new h) ≡ true → sh (create_at c h) ≡ true"),
         ("shut_ok", "(q : ℕ) → sh q ≡ true → is_ok (new q) ≡ true × q ≤ c.taken"),
         ("full_same", "(p : ℕ) → p ≢ g → user_at c p ≡ Some p → fu (create_at c p) (c.slot_of p) ≡ c.full (create_at c p) (c.slot_of p)"),
         ("kept", "firm o0 ≡ true → user_at c g ≡ Some g → fu (create_at c g) (c.slot_of g) ≡ false "
             "→ s.standing (open_at c g) ≡ true → is_some (kept_of c s g) ≡ true"),
         ("made", "(r : ℕ) → is_ok o0 ≡ true → makes_open (c.op g) ≡ true → s.standing (c.file g) ≡ true "
             "→ s.lock_sequences (c.file g) r ≡ None"),
         ("near", "makes_open (c.op g) ≡ true → is_ok o0 ≡ true → c.live ≡ true → s.present c.session ≡ true "
             "→ s.standing (c.file g) ≡ true → s.session_of_open (c.file g) ≡ Some c.session"),
         ("dead", "(j n : ℕ) (x : Sent) → slice_get (conns j).up n ≡ Some x → x.token ≡ ForOp g "
             "→ locking (c.op g) ≡ true → firm o0 ≡ true → s.present x.message.session_id ≡ true "
             "→ fu (create_at c g) (c.slot_of g) ≡ false"),
         ("full", "(j n : ℕ) (x : Sent) → slice_get (conns j).up n ≡ Some x → x.token ≡ ForOp g "
             "→ shuts_open (c.op g) ≡ true → is_ok o0 ≡ false → s.present x.message.session_id ≡ true "
             "→ s.standing (open_at c g) ≡ true → (s.opened (open_at c g)).persistent ≡ true "
             "→ lower_limit < s.journal + 66"),
         ("stuck", "(j n : ℕ) (x : Sent) → slice_get (conns j).up n ≡ Some x → x.token ≡ ForOp g "
             "→ shuts_open (c.op g) ≡ true → is_ok o0 ≡ false → s.present x.message.session_id ≡ true "
             "→ s.standing (open_at c g) ≡ true → (s.opened (open_at c g)).persistent ≡ false "
             "→ is_stuck s (open_at c g) ≡ true"),
         ("acted", "locking (c.op g) ≡ true → is_ok o0 ≡ true → a g ≡ 1"),
             ("unacted", "locking (c.op g) ≡ true → refused_for_good o0 ≡ true → a g ≡ 0")],
      c="(record c { outcome = new; outstanding_on = put c.outstanding_on g None; settled_by = by0; order = order0; "
          "closed_ok = sh; full = fu })",
      parts={
          "shut_gone": "λ p l m e f. gone p l m e f", "shut_ok": "λ p. shuts p", "shut_made": "λ q. shut_ok q",
      })


def split_g(part, head, mine, other, motive=None):
    return None


PEND = (
    "let pend = C.settled g in let sm = same p in let gv = gives p in let uf = unsettled_firm (c.outcome p) in "
    "let us = unsettled_unsent (c.outcome p) in let sf = unsent_firm (new p) in let so = unsent_ok (new p) in "
    "let uk = unsettled_ok (c.outcome p) in "
)
settle.parts.update({
    "in_use": "λ p s0 l. let old = i.in_use p s0 l in " + PEND + "grind arith",
    "close_before": "λ p q s0 m l l2 e f. let old = i.close_before p q s0 m l l2 e f in let pend = C.settled g in "
        "let sm = same q in grind arith",
    "close_after": "λ q p s0 f l l2 e m. let old = i.close_after q p s0 f l l2 e m in let sm = same p in grind arith",
    "unsent_gone": "λ p. let old = i.unsent_gone p in " + PEND + "grind arith",
    "full_free": "λ p s0 l u. let old = i.full_free p s0 l in let sm = same p in let gv = gives p in "
        "let uf = unsettled_firm (c.outcome p) in let iu = i.in_use p s0 l in let fs = full_same p in grind arith",
    "firm_kept": "λ p e f. let old = i.firm_kept p e in let kp = kept in let fs = full_same p in "
        "let wf = was_firm c g new p (same p) (gives p) in grind arith",
    "no_user": "λ q r. let old = i.no_user q r in let md = made r in let sm = same q in let gv = gives q in "
        "let so = unsent_ok (new q) in let us = unsettled_ok (new q) in grind arith",
    "no_slots": "λ q r o m. let old = i.no_slots q r o m in let sm = same q in let os = ok_settled (c.outcome q) in "
        "let pend = C.settled g in grind arith",
    "now_attached": "λ q m. let old = i.now_attached q m in let nr = near in let sm = same q in let gv = gives q in "
        "let so = unsent_ok (new q) in let us = unsettled_ok (new q) in grind arith",
    "retried_on": more("retried_on", ""),
    "retried_done": "λ j n p x h t. let old = i.retried_done j n p x h t in let ron = i.retried_on j n p x h t in "
        "let b = C.bodies j n p x h t in let sm = same p in let gv = gives p in grind arith",
    "full_dead": "λ j n p x h t l. let old = i.full_dead j n p x h t l in let dd = dead j n x in "
        "let us = i.users j n p x h t l in let fs = full_same p in let wf = was_firm c g new p (same p) (gives p) "
        "in grind arith",
    "closed_not": "λ p. let old = i.closed_not p in let sm = same p in grind arith",
    "ask_up": "λ j n p x h t. let old = i.ask_up j n p x h t in let sm = same (create_at c p) in "
        "let os = ok_settled (c.outcome (create_at c p)) old.3 in let pend = C.settled g in grind arith",
    "ask_down": "λ j n p y h t. let old = i.ask_down j n p y h t in let sm = same (create_at c p) in "
        "let os = ok_settled (c.outcome (create_at c p)) old.3 in let pend = C.settled g in grind arith",
    "ok_acted": "λ p. let old = i.ok_acted p in let ac = acted in " + PEND + "grind arith",
    "refused_not": "λ p. let old = i.refused_not p in let ac = unacted in let fr = C.fresh p in "
        "let ur = unsettled_refused (new p) in let sm = same p in let gv = gives p in grind arith",
})
for part, need in (("left_full", "full"), ("left_stuck", "stuck"), ("left_idle", "")):
    v = PARTS[part][1]
    settle.parts[part] = (
        "λ %s h t. let old = i.%s %s h t in let b = C.bodies j n p x h t in %slet sm = same p in "
        "let gv = gives p in grind arith" % (v, part, v, ("let nd = %s j n x in " % need) if need else "let cb = "
        "i.close_before q p in let fr = C.fresh q in let lk = lock_kind (c.op q) in let tkp = C.taken p b.0 in "
        "let pend = C.settled g in ")
    )
event("NoSlot", "operations that never went out settle", "outcome", "(g : ℕ) (new : ℕ → Outcome)",
    [("above", "0 < g"), ("pending", "is_unsettled (c.outcome g) ≡ true"), ("unsent", "c.sent g ≡ false"),
    ("own", "is_unsent (new g) ≡ true"), ("same", "(h : ℕ) → h ≢ g → new h ≡ c.outcome h")],
      c="(record c { outcome = new })",
      parts={
          "in_use": "λ p. let old = i.in_use p in let sm = same p in grind arith",
          "full_free": "λ p. let old = i.full_free p in let sm = same p in grind arith",
          "shut_ok": "λ p. let old = i.shut_ok p in let sm = same p in let so = unsent_ok (new p) in grind arith",
          "shut_made": "λ q e. let old = i.shut_made q e in let sm = same q in let so = ok_settled (c.outcome q) old.0 in grind arith",
          "shut_gone": "λ p. let old = i.shut_gone p in let sm = same p in let so = unsent_settled (new p) in grind arith",
          "close_before": "λ p q. let old = i.close_before p q in let sm = same q in grind arith",
          "close_after": "λ q p. let old = i.close_after q p in let sm = same p in grind arith",
          "unsent_gone": "λ p. let old = i.unsent_gone p in let sm = same p in grind arith",
          "firm_kept": "λ p. let old = i.firm_kept p in let sm = same p in let so = unsent_firm (new p) in grind arith",
          "no_user": "λ q r. let old = i.no_user q r in let sm = same q in let so = unsent_ok (new q) in grind arith",
          "no_slots": "λ q r o. let old = i.no_slots q r o in let sm = same q in let so = unsettled_ok (c.outcome q) in grind arith",
          "now_attached": "λ q. let old = i.now_attached q in let sm = same q in let so = unsent_ok (new q) in grind arith",
          "full_dead": more("full_dead", "let b = C.bodies j n p x h t in let sm = same p in "),
          "retried_done": more("retried_done", "let b = C.bodies j n p x h t in let sm = same p in "),
          "closed_not": "λ p. let old = i.closed_not p in let sm = same p in grind arith",
          "ask_up": more("ask_up", "let sm = same (create_at c p) in let os = ok_settled (c.outcome (create_at c p)) old.3 in "),
          "ask_down": more("ask_down", "let sm = same (create_at c p) in let os = ok_settled (c.outcome (create_at c p)) old.3 in "),
          "left_full": more("left_full", "let b = C.bodies j n p x h t in let sm = same p in "),
          "left_stuck": more("left_stuck", "let b = C.bodies j n p x h t in let sm = same p in "),
          "left_idle": more("left_idle", "let b = C.bodies j n p x h t in let sm = same p in "),
          "ok_acted": "λ p. let old = i.ok_acted p in let sm = same p in let so = unsent_ok (new p) in grind arith",
          "refused_not": "λ p. let old = i.refused_not p in let sm = same p in let fr = C.fresh p in grind arith",
      })
event("Joined", "a DH2C attached its open", "outstanding_on attached", "(g q0 : ℕ)", [("its", "q0 ≡ create_at c g"),
      ("at", "makes_open (c.op q0) ≡ true → is_ok (c.outcome q0) ≡ true → c.live ≡ true → s.present c.session ≡ true "
          "→ s.standing (c.file q0) ≡ true → s.session_of_open (c.file q0) ≡ Some c.session"),
      ("was", "c.live ≡ true → s.present c.session ≡ true → s.standing (c.file q0) ≡ false → c.attached q0 ≡ c.session_number")],
      c="(record c { outstanding_on = put c.outstanding_on g None; attached = put c.attached q0 c.session_number })",
      parts={"now_attached": "λ q. let old = i.now_attached q in let n1 = at in grind arith",
          "closed_not": "λ p. let old = i.closed_not p in let w1 = was in grind arith"})
event("Answered", "an operation is answered and isn't settled", "outstanding_on", "(g : ℕ)", c="(answered c g)")

# ---- Cut, the end of the session, Finish
cut = event("Cut", "a ready channel is cut", "outstanding_on unanswered open down", "(k : ℕ)", c="(cut_channel c k)",
    conns="(put conns k (client_off (conns k)))")
leave = event("Leave", "the session ends", "live outstanding_on unanswered outcome stage open down", "(new : ℕ → Outcome)",
      [("same", "(h : ℕ) → is_unsettled (c.outcome h) ≡ false → new h ≡ c.outcome h"),
          ("unfirm", "(h : ℕ) → is_unsettled (c.outcome h) ≡ true → firm (new h) ≡ false × is_ok (new h) ≡ false"),
       ("unsent", "(h : ℕ) → is_unsettled (c.outcome h) ≡ true → refused_for_good (new h) ≡ true → c.sent h ≡ false")],
      c="(record (end_session c) { outcome = new })", conns="(λ j. client_off (conns j))")
finish = event("Finish", "no session can be had", "outcome", "(new : ℕ → Outcome) (given : ℕ → Option ℕ)",
      [("dead", "c.live ≡ false"), ("same", "(h : ℕ) → is_unsettled (c.outcome h) ≡ false → new h ≡ c.outcome h"),
          ("unfirm", "(h : ℕ) → is_unsettled (c.outcome h) ≡ true → firm (new h) ≡ false × is_ok (new h) ≡ false"),
       ("unsent", "(h : ℕ) → is_unsettled (c.outcome h) ≡ true → refused_for_good (new h) ≡ true → c.sent h ≡ false")],
      c="(record c { outcome = new; given_up = given })")
CUT_UP = (
    "let h' : slice_get (conns j).up n ≡ Some x = grind arith in let b = C.bodies j n p x h' t in "
    "let tk = C.taken p b.0 in let on1 = up_on c conns C.outstanding j n p x h' t tk.0 in "
    "let ou = C.own_up j n p x h' in "
)
for e in (cut, leave):
    e.parts["unanswered"] = (
        "λ j n p x h t. let h' : slice_get (conns j).up n ≡ Some x = grind arith in "
        "let old = i.unanswered j n p x h' t in " + CUT_UP + "grind arith"
    )
for part in ("retried_on", "retried_done"):
    v = PARTS[part][1]
    cut.parts[part] = (
        "λ %s h t l. let h' : slice_get (conns j).up n ≡ Some x = grind arith in "
        "let old = i.%s %s h' t l in %slet st1 = C.settled p in grind arith" % (v, part, v, CUT_UP)
    )
for e in (leave, finish):
    e.parts.update({
        "in_use": "λ p s0 l. let old = i.in_use p s0 l in let sm = same p in let uf = unsettled_firm (c.outcome p) in grind arith",
        "full_free": "λ p s0 l. let old = i.full_free p s0 l in let sm = same p in grind arith",
        "shut_ok": "λ p. let old = i.shut_ok p in let sm = same p in let uf = unfirm p in grind arith",
        "shut_made": "λ q e. let old = i.shut_made q e in let sm = same q in let so = ok_settled (c.outcome q) old.0 in grind arith",
        "shut_gone": "λ p l m. let old = i.shut_gone p l m in let sm = same p in grind arith",
        "close_before": "λ p q. let old = i.close_before p q in let sm = same q in grind arith",
        "close_after": "λ q p. let old = i.close_after q p in let sm = same p in grind arith",
        "unsent_gone": "λ p. let old = i.unsent_gone p in let sm = same p in let un = unsent p in "
            "let ur = unsent_refused (new p) in grind arith",
        "firm_kept": "λ p e. let old = i.firm_kept p e in let sm = same p in let uf = unfirm p in grind arith",
        "no_user": "λ q r. let old = i.no_user q r in let sm = same q in let uf = unfirm q in grind arith",
        "no_slots": "λ q r o m. let old = i.no_slots q r o m in let sm = same q in let os = ok_settled (c.outcome q) in grind arith",
        "ask_up": more("ask_up", "let sm = same (create_at c p) in let os = ok_settled (c.outcome (create_at c p)) old.3 in "),
        "ok_acted": "λ p l. let old = i.ok_acted p l in let sm = same p in let uf = unfirm p in grind arith",
        "refused_not": "λ p l. let old = i.refused_not p l in let sm = same p in let un = unsent p in let fr = C.fresh p in grind arith",
        "full_dead": "λ j n p x h t l. let h' : slice_get (conns j).up n ≡ Some x = grind arith in "
            "let old = i.full_dead j n p x h' t l in let sm = same p in let uf = unfirm p in grind arith",
    })
    if e is finish:
        e.parts["ask_down"] = more("ask_down", "let sm = same (create_at c p) in let os = ok_settled (c.outcome (create_at c p)) old.3 in ")
        for part in ("now_attached", "closed_not"):
            e.parts[part] = "λ %s. let d = dead in grind arith" % PARTS[part][1]
        for part in ("copy_now", "retried_on", "retried_done", "left_full", "left_stuck", "left_idle"):
            e.parts[part] = "λ %s h t. let d = dead in grind arith" % PARTS[part][1]

# ---- the server moves, and no lock is carried out
OK = "makes_open (c.op q) ≡ true → is_ok (c.outcome q) ≡ true → "
moves = event("Moves", "the server moves, and carries out no lock",
    "present standing session_of_open lock_sequences opened journal files by_guid a", "(s2 : Server) (a2 : ℕ → ℕ)",
      [("same_a", "(p : ℕ) → locking (c.op p) ≡ true → a2 p ≡ a p"), ("journal", "s.journal ≤ s2.journal"),
       ("stay", "(j n : ℕ) (x : Sent) → slice_get (conns j).up n ≡ Some x → is_ops x.token ≡ true "
           "→ s2.present x.message.session_id ≡ true → s.present x.message.session_id ≡ true"),
       ("stay_now", "c.live ≡ true → s2.present c.session ≡ true → s.present c.session ≡ true"),
       ("stands", "(q : ℕ) → " + OK + "s2.standing (c.file q) ≡ true → s.standing (c.file q) ≡ true"),
       ("keeps_at", "(o y : ℕ) → s.session_of_open o ≡ Some y → s2.standing o ≡ true → s2.present y ≡ true "
           "→ s2.session_of_open o ≡ Some y"),
       ("slots", "(q r : ℕ) → " + OK + "s2.standing (c.file q) ≡ true → s2.lock_sequences (c.file q) r ≡ s.lock_sequences (c.file q) r"),
       ("opened", "(q : ℕ) → " + OK
           + "s2.standing (c.file q) ≡ true → (s2.opened (c.file q)).persistent ≡ (s.opened (c.file q)).persistent"),
       ("stuck", "(q : ℕ) → " + OK + "s2.standing (c.file q) ≡ true → (s.opened (c.file q)).persistent ≡ false "
           "→ is_stuck s (c.file q) ≡ true → is_stuck s2 (c.file q) ≡ true"),
       ("unmade", "(q r o : ℕ) → makes_open (c.op q) ≡ true → is_ok (c.outcome q) ≡ false → s2.by_guid c.who.guid "
           "(guid_for c q) ≡ Some o → s2.lock_sequences o r ≡ None"),
       ("plain", "(q : ℕ) → makes_open (c.op q) ≡ true → 1 ≤ a2 q → piped c.who.share ≡ false"),
       ("keeps", "(o : ℕ) → s2.standing o ≡ true → deletes_on_close (s2.opened o).options ≡ false"),
       ("open_stands", "(j n g : ℕ) (y : Received) → slice_get (conns j).down n ≡ Some y → y.token ≡ ForOp g "
           "→ makes_open (c.op g) ≡ true → y.reply.status ≡ success → s2.standing (id_in y.reply.body) ≡ true "
           "→ s.standing (id_in y.reply.body) ≡ true"),
       ("closed", "(g : ℕ) → locking (c.op g) ≡ true → c.sent g ≡ true → is_unsettled (c.outcome g) ≡ true "
           "→ c.live ≡ true → c.attached (create_at c g) ≡ c.session_number → s2.present c.session ≡ true "
           "→ s.standing (open_at c g) ≡ true → s2.standing (open_at c g) ≡ false → a g ≡ 0"),
       ("joined", "(j n g : ℕ) (y : Received) → slice_get (conns j).down n ≡ Some y → y.token ≡ ForAttach g "
           "→ y.reply.status ≡ success → c.live ≡ true → s2.present c.session ≡ true → s.standing (open_at c g) ≡ true "
           "→ s2.standing (open_at c g) ≡ false → c.attached (create_at c g) ≡ c.session_number")],
      s="s2", a="a2")
ITS = "let ok1 = ok_of c C.has_open p sent m1 in let mk = made_of c C.taken C.creates p sent m1 in "
UPS = "let b = C.bodies j n p x h t in let sent = b.0 in "
DOWNS = "let sent = C.sent_replies j n p y h t in "
OPS = "let sy = stay j n x h (own_ops x p t) in "


def copy_term(part, facts):
    v = PARTS[part][1]
    return "λ %s h t m. let old = i.%s %s h t m in %s" % (v, part, v, UPS) + facts + "grind arith"


LOCK1 = "let m1 = lock_kind (c.op p) m in "
CLOSE1 = "let m1 = close_kind (c.op p) m in "
PLAIN1 = "let m1 = m in "
for part in ("users", "retried_on", "retried_done", "full_dead"):
    moves.parts[part] = "λ %s h t m. let old = i.%s %s h t m in %sgrind arith" % (PARTS[part][1], part, PARTS[part][1], OPS)
moves.parts["copy_now"] = "λ j n p x h t m. let old = i.copy_now j n p x h t m in " + OPS + "grind arith"
moves.parts["copy_attached"] = (
    copy_term("copy_attached",
    PLAIN1 + ITS + OPS + "let sd = stands (create_at c p) mk ok1 in "
    "let ka = keeps_at (open_at c p) x.message.session_id in ")
)
moves.parts["left_full"] = (
    copy_term("left_full",
    CLOSE1 + ITS + OPS + "let sd = stands (create_at c p) mk ok1 in let op1 = opened (create_at c p) mk ok1 in ")
)
moves.parts["left_stuck"] = (
    copy_term("left_stuck", CLOSE1 + ITS + OPS + "let sd = stands (create_at c p) mk ok1 in "
    "let op1 = opened (create_at c p) mk ok1 in let sk = stuck (create_at c p) mk ok1 in ")
)
moves.parts["left_idle"] = (
    "λ j n p q x h t m. let old = i.left_idle j n p q x h t m in " + UPS + CLOSE1 + ITS + OPS + "let sd = stands "
    "(create_at c p) mk ok1 in let op1 = opened (create_at c p) mk ok1 in let sa = same_a q in grind arith"
)
moves.parts["now_attached"] = (
    "λ q m ok1. let old = i.now_attached q m ok1 in let sn = stay_now in let sd = stands q m ok1 in "
    "let ka = keeps_at (c.file q) c.session in grind arith"
)
moves.parts["opened_reply"] = (
    "λ j n p y h t m e. let old = i.opened_reply j n p y h t m e in let os = open_stands j n p y h t m e in "
    "let sn = stay_now in let ka = keeps_at (id_in y.reply.body) c.session in grind arith"
)
ASKS = "let ad = i.ask_down j n p y h t in let cr = C.creates p ad.0 ad.1 ad.2 in let sd = stands (create_at c p) cr.2 ad.3 in "
moves.parts["join_reply"] = (
    "λ j n p y h t. let old = i.join_reply j n p y h t in " + ASKS
    + "let sn = stay_now in let ka = keeps_at (open_at c p) c.session in grind arith"
)
moves.parts["joined_reply"] = (
    "λ j n p y h t e. let old = i.joined_reply j n p y h t e in let jn = joined j n p y h t e in "
    "let sn = stay_now in grind arith"
)
moves.parts["lost_reply"] = "λ j n p y h t. let old = i.lost_reply j n p y h t in " + ASKS + "grind arith"
USES = (
    "let ub = i.user_body _ _ p e in let sent = ub.3 in let m1 = lock_kind (c.op p) ub.0 in " + ITS
    + "let sd = stands (create_at c p) mk ok1 in let sl = slots (create_at c p) (c.slot_of p) mk ok1 in "
)
moves.parts["kept_says"] = "λ p st e f. let old = i.kept_says p st e in " + USES + "let sa = same_a p ub.0 in grind arith"
moves.parts["not_kept"] = "λ p e f. let old = i.not_kept p e in " + USES + "let sa = same_a p ub.0 in grind arith"
moves.parts["firm_kept"] = "λ p e. let old = i.firm_kept p e in " + USES + "grind arith"
moves.parts["no_user"] = (
    "λ q r ok1 mk. let old = i.no_user q r ok1 mk in let sd = stands q mk ok1 in "
    "let sl = slots q r mk ok1 in grind arith"
)
moves.parts["made_plain"] = "λ q m l. plain q m l"
moves.parts["kept_files"] = "λ o e. keeps o e"
moves.parts["no_slots"] = "λ q r o m ok1 e. unmade q r o m ok1 e"
for part in ("ok_reply", "no_reply", "first_reply"):
    moves.parts[part] = "λ j n p y h t m. let old = i.%s j n p y h t m in let sa = same_a p m in grind arith" % part
moves.parts["kept_reply"] = (
    "λ j n p y h t m. let old = i.kept_reply j n p y h t m in " + DOWNS + LOCK1 + ITS
    + "let sd = stands (create_at c p) mk ok1 in let sl = slots (create_at c p) (c.slot_of p) mk ok1 in grind arith"
)
CLS = "let sd = stands (create_at c p) mk ok1 in let op1 = opened (create_at c p) mk ok1 in "
moves.parts["close_done"] = "λ j n p y h t m. let old = i.close_done j n p y h t m in " + DOWNS + CLOSE1 + ITS + CLS + "grind arith"
moves.parts["close_full"] = "λ j n p y h t m. let old = i.close_full j n p y h t m in " + DOWNS + CLOSE1 + ITS + CLS + "grind arith"
moves.parts["close_stuck"] = (
    "λ j n p y h t m. let old = i.close_stuck j n p y h t m in " + DOWNS + CLOSE1 + ITS + CLS
    + "let sk = stuck (create_at c p) mk ok1 in grind arith"
)
moves.parts["closed_not"] = (
    "λ p m s0 u l at1. let old = i.closed_not p m s0 u l at1 in let cl = closed p m s0 u l at1 in let sn = stay_now in "
    "let sa = same_a p m in grind arith"
)
for part in ("at_most", "ok_acted", "refused_not"):
    moves.parts[part] = "λ p m. let old = i.%s p m in let sa = same_a p m in grind arith" % part

# ---- a slot keeps a lock's answer
WROTE = (
    "(record s { sequence = sq; ranges = rg; lock_sequences = put2 s.lock_sequences (open_at c g) (c.slot_of g) "
    "(Some (record { number = c.number_of g; status = st0 })); journal = j0 })"
)
writes = event("Writes", "a slot keeps a lock's answer", "lock_sequences journal files a",
    "(g st0 j0 : ℕ) (sq : ℕ → ℕ) (rg : ℕ → List Range) (a2 : ℕ → ℕ)",
      [("lock", "locking (c.op g) ≡ true"), ("sent", "c.sent g ≡ true"), ("user", "user_at c g ≡ Some g"),
          ("free", "kept_of c s g ≡ None"), ("stands", "s.standing (open_at c g) ≡ true"),
          ("unfirm", "firm (c.outcome g) ≡ false"),
       ("journal", "s.journal ≤ j0"), ("others", "(p : ℕ) → locking (c.op p) ≡ true → p ≢ g → a2 p ≡ a p"),
           ("own", "a2 g ≡ (if st0 == success then 1 else 0)"),
           ("creates_same", "(q : ℕ) → makes_open (c.op q) ≡ true → a2 q ≡ a q"),
       ("room", "(s.opened (open_at c g)).persistent ≡ true → s.journal + 66 ≤ lower_limit"),
       ("stuck_same", "(o : ℕ) → is_stuck s o ≡ true → is_stuck SERVER o ≡ true"),
       ("inj", "(q : ℕ) → " + OK + "s.standing (c.file q) ≡ true → c.file q ≡ open_at c g → q ≡ create_at c g"),
       ("unmade", "(q : ℕ) → makes_open (c.op q) ≡ true → is_ok (c.outcome q) ≡ false → s.by_guid c.who.guid "
           "(guid_for c q) ≢ Some (open_at c g)"),
       ("alone", "c.unanswered g ≡ false → (j n : ℕ) (y : Received) → slice_get (conns j).down n ≡ Some y → y.token ≢ ForOp g")],
      s=WROTE, a="a2")
writes.needs = [(n, ty.replace("SERVER", WROTE)) for n, ty in writes.needs]
USES2 = (
    "let ub = i.user_body _ _ p e in let sent1 = ub.3 in let m1 = lock_kind (c.op p) ub.0 in "
    "let ok1 = ok_of c C.has_open p sent1 m1 in let mk = made_of c C.taken C.creates p sent1 m1 in "
    "let ij = inj (create_at c p) mk ok1 in "
)
NK = "let nk = i.not_kept g user stands free in "
writes.parts.update({
    "made_plain": "λ q m l. let cs = creates_same q m in i.made_plain q m (subst (λ z. 1 ≤ z) cs l)",
    "kept_says": "λ p st e f. let old = i.kept_says p st e f in " + USES2 + "split_at (λ z. kept_of c BEHIND z ≡ Some "
        "st → a2 z ≡ (if st == success then 1 else 0)) g p (λ d. let row = other_kept c s g p st0 d user e (ij f) in "
        "let ot = others p ub.0 d in says_it (kept_of c BEHIND p) (kept_of c s p) st (a2 p) row (λ k. ot "
        "∙ old k)) (says_own st st0 (a2 g) (kept_of c BEHIND g) (own_kept c s g st0) own)",
    "not_kept": "λ p e f. let old = i.not_kept p e f in " + USES2 + "split_at (λ z. kept_of c BEHIND z ≡ None "
        "→ a2 z ≡ 0) g p (λ d. let row = other_kept c s g p st0 d user e (ij f) in let ot = others p ub.0 d in λ k. ot "
        "∙ old (sym row ∙ k)) (not_none (kept_of c BEHIND g) st0 (a2 g) (own_kept c s g st0))",
    "firm_kept": "λ p e fm fl f. let old = i.firm_kept p e fm fl f in " + USES2 + "split_at (λ z. is_some (kept_of c "
        "BEHIND z) ≡ true) g p (λ d. let row = other_kept c s g p st0 d user e (ij f) in some_it (kept_of c BEHIND p) "
        "(kept_of c s p) row old) (kept_is_some (kept_of c BEHIND g) st0 (own_kept c s g st0))",
    "no_user": "λ q r ok1 mk. let old = i.no_user q r ok1 mk in let ij = inj q mk ok1 in grind arith",
    "no_slots": "λ q r o m ok1. let old = i.no_slots q r o m ok1 in let un = unmade q m ok1 in grind arith",
    "ok_reply": "λ j n p y h t m. let old = i.ok_reply j n p y h t m in let ot = others p m in " + NK + "grind arith",
    "no_reply": "λ j n p y h t m e0 e1 e3. let old = i.no_reply j n p y h t m e0 e1 e3 in "
        "let kr = i.kept_reply j n p y h t m e1 e3 in let ot = others p m in grind arith",
    "kept_reply": "λ j n p y h t m e1 e3 f. let old = i.kept_reply j n p y h t m e1 e3 f in "
        "let sent1 = C.sent_replies j n p y h t in let m1 = lock_kind (c.op p) m in "
        "let ok1 = ok_of c C.has_open p sent1 m1 in let mk = made_of c C.taken C.creates p sent1 m1 in "
        "let ij = inj (create_at c p) mk ok1 in let tk = C.taken p sent1 in "
        "let on1 = down_on c conns C.outstanding C.down_open j n p y h t tk.0 in "
        "let e = in_use_out c p i.in_use C.settled sent1 m j on1 in split_at (λ z. is_some (kept_of c BEHIND "
        "z) ≡ true) g p (λ d. let row = other_kept c s g p st0 d user e (ij f) in some_it (kept_of c BEHIND p) "
        "(kept_of c s p) row old) (kept_is_some (kept_of c BEHIND g) st0 (own_kept c s g st0))",
    "first_reply": "λ j n p y h t m. let old = i.first_reply j n p y h t m in let al = alone in let ot = others p m in grind arith",
    "closed_not": "λ p m. let old = i.closed_not p m in let ot = others p m in grind arith",
    "left_full": "λ j n p x h t. let old = i.left_full j n p x h t in grind arith",
    "left_stuck": "λ j n p x h t. let old = i.left_stuck j n p x h t in let sk = stuck_same (open_at c p) in grind arith",
    "left_idle": "λ j n p q x h t. let old = i.left_idle j n p q x h t in let lf = i.left_full j n p x h t in "
        "let rm = room in let ot = others q in " + "grind arith",
    "close_full": "λ j n p y h t. let old = i.close_full j n p y h t in grind arith",
    "close_stuck": "λ j n p y h t. let old = i.close_stuck j n p y h t in let sk = stuck_same (open_at c p) in grind arith",
    "at_most": "λ p m. let old = i.at_most p m in let ot = others p m in let ow = own in grind arith",
    "ok_acted": "λ p m e. let old = i.ok_acted p m e in let ot = others p m in let okf = ok_firm (c.outcome p) e in grind arith",
    "refused_not": "λ p m e. let old = i.refused_not p m e in let ot = others p m in "
        "let rh = refused_how (c.outcome p) e in let ug = i.unsent_gone p in grind arith",
})

# ---- the server's reply: of it is given what each part says of a reply
SPECS = open(os.path.join(TOP, "..", "specs", "Locks.antt")).read()
say = event("Say", "a reply is on its way", "down", "(k : ℕ) (y0 : Received)", [],
    conns="(put conns k (record (conns k) { down = (conns k).down ++ y0 ∷ [] }))")
for part in DOWN:
    found = re.search(r"^%s [a-z ]*= \(k n (\w) : ℕ\) \(y : Received\)\s*→ slice_get \(conns k\).down n ≡ Some y\s*→ "
        r"(.*(?:\n    .*)*)" % type_name(part), SPECS, re.M)
    say.needs.append(("of_" + part,
        "(%s : ℕ) → %s" % (found.group(1), re.sub(r"\by\.", "y0.", re.sub(r"\s+", " ", found.group(2).strip())))))
    v = PARTS[part][1]
    say.parts[part] = "λ %s. let old = i.%s %s in let m1 = of_%s p in %s" % (v, part, v, part, PUSHED)


BASE = "(c : Client) (conns : ℕ → Conn) (s : Server) (a : ℕ → ℕ)"
ARGUMENTS = {part: row[0] for part, row in PARTS.items()}


def emit(event):
    state = {"c": event.c, "conns": event.conns, "s": event.s, "a": event.a}
    over = BASE + (" " + event.arguments if event.arguments else "")
    variables = names(over)
    out = [sentence(event.about), HEAD, "\n", BEFORE.get(event.name, "").replace("STATE", event.c).replace("BEHIND", "(%s)" % event.s)]
    calls = {}
    for part, (arguments, _, reads) in PARTS.items():
        if not set(reads.split()) & set(event.touched) and not (event.conns.startswith("(put") and "conns" in arguments):
            calls[part] = "i." + part
            continue
        term = (event.parts.get(part) or default(part, event.touched)).replace("STATE", event.c).replace("BEHIND", "(%s)" % event.s)
        mine = [part] + sorted(named_in("i", term) - {part})
        lower = sorted(named_in("C", term))
        needs = narrowed(event.needs, re.sub(r"\b[iC]\.\w+", "", term))
        goal = type_name(part) + " " + " ".join(state[w] for w in arguments.split())
        records = [("C", lower, C_PARTS), ("i", mine, ARGUMENTS)]
        text, calls[part] = part_lemma("%s_%s" % (low_name(event.name), part), over, variables, needs, records, goal, term)
        out.append(text)
    uses_c = any("C." in call for call in calls.values())
    premises = premised(event.needs) + ("Connections c conns a → " if uses_c else "")
    words = " ".join(variables + [n for n, _ in event.needs] + (["C"] if uses_c else []) + ["i"])
    out.append(step(low_name(event.name) + "_keeps", over, premises, "Locks c conns s a",
        "Locks %s %s %s %s" % (event.c, event.conns, event.s, event.a), words))
    out.append(fields(PARTS, calls))
    if event.name == "Say":
        record = (
            "pub record MaySay (c : Client) (s : Server) (a : ℕ → ℕ) (y0 : Received) : Type 0 where\n"
            + "".join("  pub %s : %s\n" % (n, t) for n, t in event.needs) + "\n"
        )
        out.insert(2, "-- what is to be known of the reply\n" + record)
        out.append("\npub say_told : %s (k : ℕ) (y0 : Received) → MaySay c s a y0 → Locks c conns s a "
            "→ Locks c %s s a\nsay_told c conns s a k y0 m i = say_keeps c conns s a k y0 %s i\n" % (BASE, event.conns,
            " ".join("m." + n for n, _ in event.needs)))
    write_module(TOP, event.name, "".join(out))


if __name__ == "__main__":
    write_wanted(EVENTS, emit)
    first = ["Words", "Views", "Calm", "Rooms", "Verdicts", "Steady", "Bare", "Undeleting"]
    first = standing(TOP, first)
    later = standing(TOP,
        ("Facing", "Sees", "Serving", "Others", "Locking", "Closing", "Serve", "Ends", "Pushing", "Lines", "Settling",
        "Taking", "Run", "Law"))
    write_list(TOP, first + [e.name for e in EVENTS] + later)
