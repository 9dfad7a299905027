#!/usr/bin/env python3
"""Writes the regular part of the proofs about creates: for each small step one lemma for each part that it touches.

The rule is one line: the old part at the goal's own variables, then grind. EVENTS names each step with what it needs,
what it does to the client's table, the connections, what the server keeps and the counts, which columns it changes, and
the parts whose proof needs more than that. A part that reads no column that changes is the old one.

Run `rt tidy` and `rt fmt` in the crate behind it: it writes all imports into each file.
"""
import re

from law_text import (
    fields, kept_part, low_name, named_in, names, narrowed, part_lemma, premised, proofs_of, quantifies, sentence,
    standing, step, type_name, write_list, write_module, write_wanted,
)

TOP = proofs_of("law_creates")

# part: (its type's arguments, the variables that it is quantified by, the columns that it reads)
PARTS = {
    "made": ("c v a", "p o", "op by_guid a"),
    "named": ("c v", "p o", "by_guid standing opened"),
    "named_kind": ("c v", "p o", "by_guid opened op"),
    "named_given": ("c v", "p o", "by_guid last"),
    "attached": ("c v", "o z", "session_of_open present rank"),
    "plain_attached": ("v", "o", "standing opened session_of_open"),
    "unclosed": ("c v a", "p", "op outcome live session by_guid expired_guids present a"),
    "acted_kept": ("c conns v a", "j n p y", "op up present closed by_guid expired_guids a"),
    "at_most": ("c a", "p", "op a"),
    "form_acted": ("c a", "p", "op a"),
    "refused_not": ("c a", "p", "op outcome a"),
    "dead_refused": ("c conns v", "j n p y", "op outcome up present refused guids"),
    "no_reply": ("c conns a", "j n p y", "op down unanswered a"),
    "barred_reply": ("c conns v", "j n p y", "op down unanswered live session present refused guids"),
    "refused_status": ("v", "z q t", "refused"),
    "ok_acted": ("c a", "p", "op outcome a"),
    "ok_reply": ("c conns a", "j n p y", "op down a"),
    "file_guid": ("c v", "p", "op outcome file last standing opened"),
    "file_of": ("c v", "p o", "op outcome file by_guid"),
    "reply_guid": ("c conns v", "j n p y", "op down last standing opened"),
    "reply_of": ("c conns v", "j n p o y", "op down by_guid"),
    "plain_dead": ("c", "p", "live op sent outcome"),
    "asking_other": ("c", "p", "asks_attach op taken"),
    "dialog_up": ("conns", "j n y", "up"),
    "ask_up": ("conns", "j n p y", "up"),
}

# parts of the layer of connections, cited as f.NAME
FIT = {
    "once": "conns", "outstanding": "c conns", "own_up": "c conns", "down_open": "conns", "on_ready": "c",
    "ready": "c conns", "settled": "c", "taken": "c",
    "fresh": "c a", "bodies": "c conns", "first": "c conns a", "sent_replies": "c conns",
}


def default(part):
    _, variables, reads = PARTS[part]
    tactic = "grind (arith, get-push)" if "up" in reads.split() or "down" in reads.split() else "grind arith"
    return kept_part(part, variables, tactic)


HEAD = """use Rattle.std.proofs.lemmas.Bool.{eqb-false}
use Rattle.std.proofs.lemmas.Bool.Decides.{nat_tests}
use Rattle.std.proofs.Common.{eqb-true, ◌≡◌, ◌≢◌, ℕ, ◌+◌, ◌≤◌, ◌<◌, ◌==◌, Bool, true, false, not, ◌&&◌, ◌||◌,
    if◌then◌else◌, List, [], ◌∷◌, ◌++◌, ◌⊎◌, inl, inr, refl, arith, sym, subst, ◌∙◌, ap, Option, Some, None, slice_get, is_some, zero, suc}
use Rattle.spec_exchange.specs.Table.{put, put2}
use Rattle.spec_exchange.specs.Status.{success, user_session_deleted}
use Rattle.spec_exchange.specs.State.{Message, Reply, Open as OpenRow}
use Rattle.spec_exchange.specs.Operations.{Op, Outcome, Unsettled, Why, is_unsettled, is_ok, id_in, HadStatus}
use Rattle.spec_exchange.specs.Client.{Client, Stage, take_slot, outstanding as put_out, asked, cut_channel,
    end_session, finish, bind_channel, begin_session, leave_dialog, note_refusal}
use Rattle.spec_exchange.specs.Settling.{answered, joined, settled as settled_by}
use Rattle.spec_exchange.specs.Dialogs.{open_channel, went_on, accepted}
use Rattle.spec_exchange.specs.Network.{Conn, Sent, Received, Token, ForDialog, ForOp, ForAttach, op_of,
    fresh as fresh_conn, server_off, client_off, send_up, behind_front, take_front}
use Rattle.spec_exchange.specs.Runs.{never_acted}
use Rattle.law_sessions.specs.messages.Connections.{copies, makes_open, FIT}
use Rattle.law_sessions.proofs.messages.Lists.{get-push, counted_up, counted_down, own_up_count, own_down_count, front_up,
    front_down, waited, waited_down}
use Rattle.law_sessions.specs.sessions.Sessions.{logon_user}
use Rattle.law_creates.specs.Creates.{Seen, Creates, Restarts, own_guid, guid_at, named, is_kept, is_current, is_barred,
    is_full, refuses, outlives, keeps_form, is_of_dialog, is_of_ask, has_files, may_act, PARTS}
use Rattle.law_creates.proofs.Words.{guid_once, full_more, after_end}
use Rattle.law_creates.proofs.Moves.{refuse_in, attach_to, make_new, leave_by, closed_by, shut_in, expire_by, goes_with,
    named_still, end_of, begin_of}
"""
CLASH = {"Named": "Named", "Attached": "Attached"}
HEAD = HEAD.replace("PARTS", ", ".join(type_name(p) for p in PARTS)).replace("FIT", ", ".join(type_name(p) for p in FIT))


class Event:
    def __init__(self, name, about, changes, arguments="", needs=(), c="c", conns="conns", v="v", a="a", parts=None):
        self.name, self.about, self.arguments, self.needs = name, about, arguments, list(needs)
        self.changes = set(changes.split())
        self.c, self.conns, self.v, self.a = c, conns, v, a
        self.parts = parts or {}
        if "put conns" in conns:
            self.changes |= {"up", "down"}


OLD_UP = "let o9 = waited conns k x0 rest j n y is h in "
OLD_DOWN = "let o9 = waited_down conns k y0 rest j n y is h in "
# what waits as a reply on an open connection is outstanding there
OUT = ("let n1 = own_down_count p (conns j).down n y h' t in let u = f.outstanding j p in let d = "
    "f.down_open j in let sr = f.sent_replies j n p y h' t in let tk = f.taken p sr in ")
DOWN = "let h' : slice_get (conns j).down n ≡ Some y = grind arith in "
# the replies and copies of a create are of one that was sent, and so of one that was taken
SENT_UP = "let b9 = f.bodies j n p y h t in let tk = f.taken p b9.0 in "
SENT_DOWN = "let b9 = f.sent_replies j n p y h t in let tk = f.taken p b9 in "
ONCE = "let same = guid_once c.who.salt p g in "

EVENTS = [
    Event("Submit", "an operation is taken", "taken op outcome", "(g : ℕ) (op : Op) (out : Outcome)",
          [("next", "g ≡ c.taken + 1"), ("new", "makes_open op ≡ true → out ≡ Unsettled")],
          c="(record c { taken = g; op = put c.op g op; outcome = put c.outcome g out })",
          parts={
              "made": "λ p o h. let old = i.made p o h in let fr = f.fresh p in let tk = f.taken p in grind arith",
              "named_kind": "λ p o h. let old = i.named_kind p o h in let md = i.made p o h in let fr = f.fresh p in let tk = "
                  "f.taken p in grind arith",
              "unclosed": "λ p. let old = i.unclosed p in let fr = f.fresh p in let tk = f.taken p in grind arith",
              "acted_kept": "λ j n p y h t. let old = i.acted_kept j n p y h t in " + SENT_UP + "grind arith",
              "at_most": "λ p. let old = i.at_most p in let fr = f.fresh p in let tk = f.taken p in grind arith",
              "form_acted": "λ p. let old = i.form_acted p in let fr = f.fresh p in let tk = f.taken p in grind arith",
              "refused_not": "λ p. let old = i.refused_not p in let nw = new in grind arith",
              "dead_refused": "λ j n p y h t. let old = i.dead_refused j n p y h t in " + SENT_UP + "grind arith",
              "no_reply": "λ j n p y h t. let old = i.no_reply j n p y h t in " + SENT_DOWN + "grind arith",
              "barred_reply": "λ j n p y h t. let old = i.barred_reply j n p y h t in " + SENT_DOWN + "grind arith",
              "ok_acted": "λ p. let old = i.ok_acted p in let nw = new in grind arith",
              "ok_reply": "λ j n p y h t. let old = i.ok_reply j n p y h t in " + SENT_DOWN + "grind arith",
              "file_guid": "λ p. let old = i.file_guid p in let nw = new in grind arith",
              "file_of": "λ p o. let old = i.file_of p o in let nw = new in grind arith",
              "reply_guid": "λ j n p y h t. let old = i.reply_guid j n p y h t in " + SENT_DOWN + "grind arith",
              "reply_of": "λ j n p o y h t. let old = i.reply_of j n p o y h t in " + SENT_DOWN + "grind arith",
              "plain_dead": "λ p. let old = i.plain_dead p in let tk = f.taken p in grind arith",
              "asking_other": "λ p. let old = i.asking_other p in grind arith",
          }),
    Event("Opened", "a connection is made", "up down", "(k : ℕ) (served : Bool)", c="(open_channel c k)",
    conns="(put conns k (fresh_conn c k served))"),
    Event("Dropped", "the server closes its end", "up", "(k : ℕ)", conns="(put conns k (server_off (conns k)))"),
    Event("Outcomes", "operations other than creates settle without a reply", "outcome", "(new : ℕ → Outcome)",
          [("same", "(h : ℕ) → makes_open (c.op h) ≡ true → new h ≡ c.outcome h")], c="(record c { outcome = new })",
          parts={p: None for p in ("unclosed", "refused_not", "dead_refused", "ok_acted", "file_guid", "file_of", "plain_dead")}),
    Event("TakeSlot", "a lock takes a slot", "", "(g s : ℕ)", c="(take_slot c g s)"),
    Event("Start", "an operation goes out first", "sent", "(g : ℕ)", [("lives", "c.live ≡ true")],
    c="(record c { sent = put c.sent g true })"),
    Event("Front", "the front leaves", "up", "(k : ℕ) (x0 : Sent) (rest : List Sent)",
    [("is", "(conns k).up ≡ x0 ∷ rest")], conns="(put conns k (behind_front (conns k) rest))",
          parts={
              "acted_kept": "λ j n p y h. " + OLD_UP + "i.acted_kept j o9.0 p y o9.1",
              "dead_refused": "λ j n p y h. " + OLD_UP + "i.dead_refused j o9.0 p y o9.1",
              "dialog_up": "λ j n y h. " + OLD_UP + "i.dialog_up j o9.0 y o9.1",
              "ask_up": "λ j n p y h. " + OLD_UP + "i.ask_up j o9.0 p y o9.1",
          }),
    Event("Behind", "a reply leaves its connection", "down", "(k : ℕ) (y0 : Received) (rest : List Received)",
    [("is", "(conns k).down ≡ y0 ∷ rest")],
          conns="(put conns k (take_front (conns k) rest))",
          parts={
              "no_reply": "λ j n p y h. " + OLD_DOWN + "i.no_reply j o9.0 p y o9.1",
              "barred_reply": "λ j n p y h. " + OLD_DOWN + "i.barred_reply j o9.0 p y o9.1",
              "ok_reply": "λ j n p y h. " + OLD_DOWN + "i.ok_reply j o9.0 p y o9.1",
              "reply_guid": "λ j n p y h. " + OLD_DOWN + "i.reply_guid j o9.0 p y o9.1",
              "reply_of": "λ j n p o y h. " + OLD_DOWN + "i.reply_of j o9.0 p o y o9.1",
          }),
    Event("WentOn", "a dialog goes on", "", "(k : ℕ) (stage : Stage) (r : Reply)", c="(went_on c k stage r)"),
    Event("Accepted", "a new session is accepted", "rank", "(k : ℕ)", c="(accepted c k)"),
    Event("DialogRefused", "a dialog is refused, and the client closes its channel", "down", "(k status : ℕ)",
    c="(note_refusal c k (HadStatus status))", conns="(put conns k (client_off (conns k)))"),
    Event("DialogSent", "the next message of a dialog goes out", "up", "(k n0 : ℕ) (m : Message)",
    [("says", "is_of_dialog m.command ≡ true")],
          conns="(put conns k (send_up (conns k) ForDialog m n0))"),
    Event("Bound", "a further channel is ready", "", "(k : ℕ)", c="(bind_channel c k)"),
    Event("Readied", "a session is ready", "live session", "(k session tree : ℕ)", [("dead", "c.live ≡ false")],
    c="(begin_session c k session tree)",
          parts={
              "unclosed": "λ p. let old = i.unclosed p in let pd = i.plain_dead p in let fr = f.fresh p in grind arith",
              "barred_reply": "λ j n p y h t. let h' = h in " + OUT + "let on = f.on_ready p j in let rd = f.ready j in grind arith",
          }),
    Event("DialogOff", "the client closes a channel that isn't ready", "down", "(k : ℕ)", c="(leave_dialog c k)",
    conns="(put conns k (client_off (conns k)))"),
    Event("Cut", "a ready channel is cut", "down unanswered", "(k : ℕ)", c="(cut_channel c k)",
    conns="(put conns k (client_off (conns k)))",
          parts={
              "no_reply": "λ j n p y h t. " + DOWN + OUT + "let old = i.no_reply j n p y h' t in grind arith",
              "barred_reply": "λ j n p y h t. " + DOWN + OUT + "let old = i.barred_reply j n p y h' t in grind arith",
          }),
    Event("Leave", "the session ends", "down unanswered live outcome", c="(end_session c)", conns="(λ q. client_off (conns q))",
          parts={
              "unclosed": "λ p m u l s. let e = after_end c p m in let old = i.unclosed p m (e.still u) l in let lasts = "
                  "e.lasts u in let fr = f.fresh p in grind arith",
              "refused_not": "λ p m. let e = (after_end c p m).never in let old = i.refused_not p m in grind arith",
              "dead_refused": "λ j n p y h t m. let h' : slice_get (conns j).up n ≡ Some y = grind arith in let e = (after_end c p "
                  "m).never in let old = i.dead_refused j n p y h' t m in grind arith",
              "ok_acted": "λ p m. let e = (after_end c p m).ok in let old = i.ok_acted p m in grind arith",
              "file_guid": "λ p m. let e = (after_end c p m).ok in let old = i.file_guid p m in grind arith",
              "file_of": "λ p o m. let e = (after_end c p m).ok in let old = i.file_of p o m in grind arith",
              "plain_dead": "λ p l m. let e = (after_end c p m).lasts in grind arith",
          }),
    Event("Answered", "an operation is answered and isn't settled", "", "(g : ℕ)", c="(answered c g)"),
    Event("Opens", "a create that is outstanding names its open", "file", "(g id : ℕ)",
    [("pending", "is_unsettled (c.outcome g) ≡ true")],
    c="(record c { file = put c.file g id; attached = put c.attached g c.session_number })"),
    Event("Joined", "a DH2C attached its open", "", "(g : ℕ)", c="(joined c g)"),
    Event("Shuts", "a close shut its open", "", "(create : ℕ)", c="(record c { closed_ok = put c.closed_ok create true })"),
    Event("Fills", "a lock met a full disk", "", "(create slot : ℕ)", c="(record c { full = put2 c.full create slot true })"),
    Event("Retried", "a slot's lock goes out again", "", "(create slot : ℕ)",
    c="(record c { retried = put2 c.retried create slot c.session_number })"),
    Event("Finished", "no session can be had", "outcome", "(why : Why)", c="(finish c why)"),
    Event("Settle", "a reply settles its operation", "outcome", "(g place : ℕ) (outcome : Outcome)",
          [("never", "makes_open (c.op g) ≡ true → never_acted outcome ≡ true → a g ≡ 0"),
           ("acted", "makes_open (c.op g) ≡ true → is_ok outcome ≡ true → 1 ≤ a g"),
           ("barred", "(j n : ℕ) (y : Sent) → slice_get (conns j).up n ≡ Some y → y.token ≡ ForOp g → makes_open (c.op g) "
               "≡ true → never_acted outcome ≡ true → v.present y.message.session_id ≡ true → is_barred c v "
               "y.message.session_id g ≡ true"),
           ("guid", "makes_open (c.op g) ≡ true → is_ok outcome ≡ true → c.file g ≤ v.last × (v.standing (c.file g) ≡ "
               "true → (v.opened (c.file g)).client_guid ≡ c.who.guid × (v.opened (c.file g)).create_guid ≡ Some "
               "(guid_at c g))"),
           ("names", "(o : ℕ) → makes_open (c.op g) ≡ true → is_ok outcome ≡ true → named c v g ≡ Some o → o ≡ c.file g"),
           ("firm", "is_unsettled outcome ≡ false")],
          c="(settled_by c g outcome place)",
          parts={
              "refused_not": "λ p. let old = i.refused_not p in let q = never in grind arith",
              "ok_acted": "λ p. let old = i.ok_acted p in let q = acted in grind arith",
              "dead_refused": "λ j n p y h t. let old = i.dead_refused j n p y h t in let q = barred j n y h in grind arith",
              "file_guid": "λ p. let old = i.file_guid p in let q = guid in grind arith",
              "file_of": "λ p o. let old = i.file_of p o in let q = names o in grind arith",
          }),
    Event("Send", "an operation goes out itself", "up asks_attach", "(k g n0 : ℕ) (m : Message)",
          [("pending", "is_unsettled (c.outcome g) ≡ true"), ("lives", "c.live ≡ true"), ("session", "m.session_id ≡ c.session")],
          c="(put_out c k g)", conns="(put conns k (send_up (conns k) (ForOp g) m n0))",
          parts={
              "acted_kept": "λ j n p y. let old = i.acted_kept j n p y in let un = i.unclosed g in grind (arith, get-push)",
          }),
    Event("Ask", "a DH2C goes out in an operation's place", "up asks_attach", "(k g n0 : ℕ) (m : Message)",
          [("other", "makes_open (c.op g) ≡ false"), ("within", "g ≤ c.taken"), ("says", "is_of_ask m.command ≡ true")],
          c="(asked c k g)", conns="(put conns k (send_up (conns k) (ForAttach g) m n0))"),
    Event("Say", "a reply is on its way", "down", "(k : ℕ) (y0 : Received)",
          [("never", "(g : ℕ) → y0.token ≡ ForOp g → makes_open (c.op g) ≡ true → refuses (c.unanswered g) "
              "y0.reply.status ≡ true → a g ≡ 0"),
           ("barred", "(g : ℕ) → y0.token ≡ ForOp g → makes_open (c.op g) ≡ true → c.unanswered g ≡ true → refuses true "
               "y0.reply.status ≡ true → is_current c v ≡ true → is_barred c v c.session g ≡ true"),
           ("acted", "(g : ℕ) → y0.token ≡ ForOp g → makes_open (c.op g) ≡ true → y0.reply.status ≡ success → 1 ≤ a g"),
           ("guid", "(g : ℕ) → y0.token ≡ ForOp g → makes_open (c.op g) ≡ true → y0.reply.status ≡ success → id_in "
               "y0.reply.body ≤ v.last × (v.standing (id_in y0.reply.body) ≡ true → (v.opened (id_in "
               "y0.reply.body)).client_guid ≡ c.who.guid × (v.opened (id_in y0.reply.body)).create_guid ≡ Some "
               "(guid_at c g))"),
           ("names", "(g o : ℕ) → y0.token ≡ ForOp g → makes_open (c.op g) ≡ true → y0.reply.status ≡ success → named c v "
               "g ≡ Some o → o ≡ id_in y0.reply.body")],
          conns="(put conns k (record (conns k) { down = (conns k).down ++ y0 ∷ [] }))",
          parts={
              "no_reply": "λ j n p y. let old = i.no_reply j n p y in let q = never p in grind (arith, get-push)",
              "barred_reply": "λ j n p y. let old = i.barred_reply j n p y in let q = barred p in grind (arith, get-push)",
              "ok_reply": "λ j n p y. let old = i.ok_reply j n p y in let q = acted p in grind (arith, get-push)",
              "reply_guid": "λ j n p y. let old = i.reply_guid j n p y in let q = guid p in grind (arith, get-push)",
              "reply_of": "λ j n p o y. let old = i.reply_of j n p o y in let q = names p o in grind (arith, get-push)",
          }),
    # ---- the server
    Event("RefuseIn", "a refusal is kept", "refused guids", "(x q0 status : ℕ)",
    [("bad", "(status == success) ≡ false")], v="(refuse_in v x q0 status)",
          parts={
              "dead_refused": "λ j n p y h t m e s. let old = i.dead_refused j n p y h t m e s in let fm = full_more (v.guids x) "
                  "in grind arith",
              "barred_reply": "λ j n p y h t m e s u. let old = i.barred_reply j n p y h t m e s u in let fm = full_more (v.guids "
                  "x) in grind arith",
          }),
    Event("AttachTo", "an open becomes a session's", "session_of_open guids", "(x o0 : ℕ)",
    [("ranked", "0 < c.rank x"), ("there", "v.present x ≡ true")], v="(attach_to v o0 x)",
          parts={
              "dead_refused": "λ j n p y h t m e s. let old = i.dead_refused j n p y h t m e s in let fm = full_more (v.guids x) "
                  "in grind arith",
              "barred_reply": "λ j n p y h t m e s u. let old = i.barred_reply j n p y h t m e s u in let fm = full_more (v.guids "
                  "x) in grind arith",
          }),
    Event("MakeNew", "a create acts", "standing opened session_of_open by_guid guids last a", "(g x o0 : ℕ) (row : OpenRow) (b : ℕ → ℕ)",
          [("create", "makes_open (c.op g) ≡ true"), ("idle", "a g ≡ 0"), ("counted", "b g ≡ 1"), ("formed", "may_act c g ≡ true"),
           ("above", "o0 ≡ v.last + 1"), ("ranked", "0 < c.rank x"), ("there", "v.present x ≡ true"),
           ("client", "row.client_guid ≡ c.who.guid"), ("guid", "row.create_guid ≡ Some (guid_at c g)"),
           ("kind", "row.persistent ≡ outlives (c.op g)"), ("user", "row.user ≡ logon_user c.who.logon"),
           ("alive", "never_acted (c.outcome g) ≡ false"),
           ("silent", "(j n : ℕ) (y : Received) → slice_get (conns j).down n ≡ Some y → y.token ≡ ForOp g → refuses "
               "(c.unanswered g) y.reply.status ≡ false"),
           ("others", "(h : ℕ) → makes_open (c.op h) ≡ true → h ≢ g → b h ≡ a h")],
          v="(make_new v o0 row x (guid_at c g))", a="b",
          parts={
              "made": "λ p o. let old = i.made p o in let same = guid_once c.who.salt p g in let oth = others p in grind arith",
              "named": "λ p o. let old = i.named p o in let gv = i.named_given p o in let same = guid_once c.who.salt p g in grind arith",
              "named_kind": "λ p o. let old = i.named_kind p o in let gv = i.named_given p o in let same = guid_once c.who.salt "
                  "p g in grind arith",
              "named_given": "λ p o. let old = i.named_given p o in let same = guid_once c.who.salt p g in grind arith",
              "unclosed": "λ p. let old = i.unclosed p in let same = guid_once c.who.salt p g in let oth = others p in grind arith",
              "acted_kept": "λ j n p y. let old = i.acted_kept j n p y in let same = guid_once c.who.salt p g in let oth = "
                  "others p in grind arith",
              "at_most": "λ p. let old = i.at_most p in let oth = others p in grind arith",
              "form_acted": "λ p. let old = i.form_acted p in let oth = others p in grind arith",
              "refused_not": "λ p. let old = i.refused_not p in let oth = others p in grind arith",
              "dead_refused": "λ j n p y h t m e s. let old = i.dead_refused j n p y h t m e s in let fm = full_more (v.guids x) "
                  "in grind arith",
              "no_reply": "λ j n p y h t. let old = i.no_reply j n p y h t in let oth = others p in let q = silent j n y h in grind arith",
              "barred_reply": "λ j n p y h t m e s u. let old = i.barred_reply j n p y h t m e s u in let fm = full_more (v.guids "
                  "x) in grind arith",
              "ok_acted": "λ p. let old = i.ok_acted p in let oth = others p in grind arith",
              "ok_reply": "λ j n p y h t. let old = i.ok_reply j n p y h t in let oth = others p in grind arith",
              "file_of": "λ p o m e. let old = i.file_of p o m e in let ac = i.ok_acted p m e in let same = guid_once "
                  "c.who.salt p g in grind arith",
              "reply_of": "λ j n p o y h t m e. let old = i.reply_of j n p o y h t m e in let ac = i.ok_reply j n p y h t m e "
                  "in let same = guid_once c.who.salt p g in grind arith",
          }),
    Event("ShutIn", "an open leaves by a close", "standing session_of_open by_guid closed", "(x o0 : ℕ) (q0 : Option ℕ)",
          [("guid", "(v.opened o0).create_guid ≡ q0"),
           ("settled", "(h : ℕ) → makes_open (c.op h) ≡ true → (v.opened o0).client_guid ≡ c.who.guid → q0 ≡ Some (guid_at "
               "c h) → is_unsettled (c.outcome h) ≡ false"),
           ("here", "(j n h : ℕ) (y : Sent) → slice_get (conns j).up n ≡ Some y → y.token ≡ ForOp h → v.present "
               "y.message.session_id ≡ true → y.message.session_id ≡ x")],
          v="(shut_in v o0 x q0)",
          parts={
              "unclosed": "λ p m u l s. let old = i.unclosed p m u l s in let q = settled p m in grind arith",
              "acted_kept": "λ j n p y h t m e s. let old = i.acted_kept j n p y h t m e s in let q = here j n p y h t e in grind arith",
          }),
    Event("ExpireBy", "an open leaves by its deadline", "standing session_of_open by_guid expired_guids",
    "(o0 : ℕ) (q0 : Option ℕ)", [("guid", "(v.opened o0).create_guid ≡ q0")], v="(expire_by v o0 q0)"),
    Event("EndOf", "a session ends", "standing by_guid session_of_open present closed refused guids", "(x : ℕ)",
          [("here", "(y : ℕ) → v.present y ≡ true → 0 < c.rank y → y ≡ c.accepted"),
           ("lives", "c.live ≡ true → c.session ≡ c.accepted"),
           ("ranked", "(j n h : ℕ) (y : Sent) → slice_get (conns j).up n ≡ Some y → y.token ≡ ForOp h → 0 < c.rank y.message.session_id")],
          v="(end_of v x)"),
    Event("BeginOf", "a session begins", "present", "(x : ℕ)",
          [("new", "c.rank x ≡ 0"), ("lives", "c.live ≡ true → 0 < c.rank c.session"),
           ("ranked", "(j n h : ℕ) (y : Sent) → slice_get (conns j).up n ≡ Some y → y.token ≡ ForOp h → 0 < c.rank y.message.session_id")],
          v="(begin_of v x)",
          parts={
              "unclosed": "λ p. let old = i.unclosed p in let l = lives in grind arith",
              "acted_kept": "λ j n p y h t. let old = i.acted_kept j n p y h t in let r = ranked j n p y h t in grind arith",
              "dead_refused": "λ j n p y h t. let old = i.dead_refused j n p y h t in let r = ranked j n p y h t in grind arith",
              "barred_reply": "λ j n p y h t. let old = i.barred_reply j n p y h t in let l = lives in grind arith",
          }),
    Event("Restarted", "the server starts anew",
        "present by_guid standing opened session_of_open closed refused guids expired_guids last up", "(u : Seen)", [("r", "Restarts v u")],
          v="u", conns="(λ q. server_off (conns q))",
          parts={
              "made": "λ p o h. i.made p o (r.was c.who.guid (guid_at c p) o h)",
              "named": "λ p o h. let st = r.named c.who.guid (guid_at c p) o h in let sd = r.stood o st in let old = "
                  "i.named p o (r.was c.who.guid (guid_at c p) o h) in grind arith",
              "named_kind": "λ p o h. let st = r.named c.who.guid (guid_at c p) o h in let sd = r.stood o st in let old = "
                  "i.named_kind p o (r.was c.who.guid (guid_at c p) o h) in grind arith",
              "named_given": "λ p o h. let l = r.last in let old = i.named_given p o (r.was c.who.guid (guid_at c p) o h) in grind arith",
              "attached": "λ o z. let q = r.apart o in grind arith",
              "plain_attached": "λ o s. let q = r.stood o s in grind arith",
              "unclosed": None,
              "barred_reply": "λ j n p y h t m b s. let q = r.absent c.session in grind arith",
              "refused_status": "λ z q t. let e = r.unrefused z q in grind arith",
              "file_guid": "λ p m e. let old = i.file_guid p m e in let l = r.last in let q = r.stood (c.file p) in grind arith",
              "file_of": "λ p o m e h. i.file_of p o m e (r.was c.who.guid (guid_at c p) o h)",
              "reply_guid": "λ j n p y h t m e. let old = i.reply_guid j n p y h t m e in let l = r.last in let q = r.stood "
                  "(id_in y.reply.body) in grind arith",
              "reply_of": "λ j n p o y h t m e g. i.reply_of j n p o y h t m e (r.was c.who.guid (guid_at c p) o g)",
          }),
    Event("Recount", "other operations act", "a", "(b : ℕ → ℕ)", [("same", "(h : ℕ) → makes_open (c.op h) ≡ true → b h ≡ a h")], a="b",
          parts={
              "made": "λ p o h. let old = i.made p o h in let s = same p in grind arith",
              "unclosed": "λ p m. let old = i.unclosed p m in let s = same p m in grind arith",
              "acted_kept": "λ j n p y h t m. let old = i.acted_kept j n p y h t m in let s = same p m in grind arith",
              "at_most": "λ p m. let old = i.at_most p m in let s = same p m in grind arith",
              "form_acted": "λ p m. let old = i.form_acted p m in let s = same p m in grind arith",
              "refused_not": "λ p m. let old = i.refused_not p m in let s = same p m in grind arith",
              "no_reply": "λ j n p y h t m. let old = i.no_reply j n p y h t m in let s = same p m in grind arith",
              "ok_acted": "λ p m. let old = i.ok_acted p m in let s = same p m in grind arith",
              "ok_reply": "λ j n p y h t m. let old = i.ok_reply j n p y h t m in let s = same p m in grind arith",
          }),
]

for event in EVENTS:
    if event.name == "Outcomes":
        for part in event.parts:
            variables = PARTS[part][1]
            event.parts[part] = "λ %s. let old = i.%s %s in let s = same p in grind arith" % (variables, part, variables)
    if event.name == "EndOf":
        event.parts["unclosed"] = (
            "λ p m u l s. kept_still c v x p (i.unclosed p m u l (still_before c v x p s)) (λ o e. by_kind c v x p o "
            "(i.named_kind p o e).0 s (λ n t. goes_not c v x o i.attached here c.session n (lives t)))"
        )
        event.parts["acted_kept"] = (
            "λ j n p y h t m e s. end_kept c v x p y.message.session_id (i.acted_kept j n p y h t m (there_before v x "
            "y.message.session_id e) s) (λ o q. goes_not c v x o i.attached here y.message.session_id (apart_from v x "
            "y.message.session_id e) (here y.message.session_id (there_before v x y.message.session_id e) "
            "(ranked j n p y h t))) (apart_from v x y.message.session_id e)"
        )
    if event.name == "Restarted":
        event.parts["unclosed"] = "λ p m s l t. restart_unclosed c v a u r i.unclosed i.named_kind p m s l t"

BEFORE = {
    "EndOf": """-- an open that isn't attached to the session stays
goes_not : (c : Client) (v : Seen) (x o : ℕ) → Attached c v → ((y : ℕ) → v.present y ≡ true → 0 < c.rank y → y
    ≡ c.accepted) → (y : ℕ) → y ≢ x → y ≡ c.accepted → goes_with v x o ≡ false
goes_not c v x o at here y apart same = by_session (v.session_of_open o) refl
  where
    by_session : (z : Option ℕ) → v.session_of_open o ≡ z → goes_with v x o ≡ false
    by_session None e = grind arith
    by_session (Some z) e = let q = at o z e in let w = here z q.1 q.0 in grind arith

there_before : (v : Seen) (x y : ℕ) → (end_of v x).present y ≡ true → v.present y ≡ true
there_before v x y e = grind arith

apart_from : (v : Seen) (x y : ℕ) → (end_of v x).present y ≡ true → y ≢ x
apart_from v x y e = grind arith

still_before : (c : Client) (v : Seen) (x p : ℕ) → (outlives (c.op p) || is_current c (end_of v x)) ≡ true
    → (outlives (c.op p) || is_current c v) ≡ true
still_before c v x p e = grind arith

by_kind : (c : Client) (v : Seen) (x p o : ℕ) → (v.opened o).persistent ≡ outlives (c.op p)
    → (outlives (c.op p) || is_current c (end_of v x)) ≡ true → (c.session ≢ x → c.live ≡ true → goes_with v x o
    ≡ false) → goes_with v x o ≡ false
by_kind c v x p o k s f = by_op (outlives (c.op p)) refl
  where
    by_op : (b : Bool) → outlives (c.op p) ≡ b → goes_with v x o ≡ false
    by_op true e = grind arith
    by_op false e = f (apart_from v x c.session (grind arith)) (grind arith)

kept_still : (c : Client) (v : Seen) (x p : ℕ) → is_kept c v p ≡ true
    → ((o : ℕ) → named c v p ≡ Some o → goes_with v x o ≡ false) → is_kept c (end_of v x) p ≡ true
kept_still c v x p k f = by_name (named c v p) refl
  where
    by_name : (z : Option ℕ) → named c v p ≡ z → is_kept c (end_of v x) p ≡ true
    by_name None e = grind arith
    by_name (Some o) e = let g = f o e in grind arith

end_kept : (c : Client) (v : Seen) (x p y : ℕ) → (v.closed y (guid_at c p) || is_kept c v p) ≡ true
    → ((o : ℕ) → named c v p ≡ Some o → goes_with v x o ≡ false) → y ≢ x
    → ((end_of v x).closed y (guid_at c p) || is_kept c (end_of v x) p) ≡ true
end_kept c v x p y k f d = by_closed (v.closed y (guid_at c p)) refl
  where
    by_closed : (b : Bool) → v.closed y (guid_at c p) ≡ b → ((end_of v x).closed y (guid_at c p) || is_kept c (end_of v x) p) ≡ true
    by_closed true e = grind arith
    by_closed false e = let w = kept_still c v x p (grind arith) f in grind arith

""",
    "Restarted": """restart_kept : (c : Client) (v u : Seen) (p : ℕ) → Restarts v u → NamedKind c v
    → outlives (c.op p) ≡ true → (o : Option ℕ) → named c v p ≡ o
    → (is_some o || v.expired_guids c.who.guid (guid_at c p)) ≡ true → is_kept c u p ≡ true
restart_kept c v u p r nk out None e s = let m = r.expired_guids in let w : u.expired_guids c.who.guid (guid_at c p)
    ≡ v.expired_guids c.who.guid (guid_at c p) = ap (λ f. f c.who.guid (guid_at c p)) m in grind arith
restart_kept c v u p r nk out (Some o) e s = let k = nk p o e in let st = r.stays c.who.guid (guid_at c p) o e (k.0 ∙ out) in grind arith

restart_unclosed : (c : Client) (v : Seen) (a : ℕ → ℕ) (u : Seen) → Restarts v u → Unclosed c v a → NamedKind c v → Unclosed c u a
restart_unclosed c v a u r un nk p m s l t =
    let ab = r.absent c.session in
    let out : outlives (c.op p) ≡ true = grind arith in
    restart_kept c v u p r nk out (named c v p) refl (un p m s l (grind arith))

""",
}


BASE = "(c : Client) (conns : ℕ → Conn) (v : Seen) (a : ℕ → ℕ)"
ARGUMENTS = {part: row[0] for part, row in PARTS.items()}


def emit(event):
    low = low_name(event.name)
    state = {"c": event.c, "conns": event.conns, "v": event.v, "a": event.a}
    over = BASE + (" " + event.arguments if event.arguments else "")
    variables = names(over)
    out = [sentence(event.about), HEAD, "\n", BEFORE.get(event.name, "")]
    calls = {}
    for part, (arguments, _, reads) in PARTS.items():
        if not event.changes & set(reads.split()):
            calls[part] = "i.%s" % part
            continue
        term = event.parts.get(part) or default(part)
        parts = [part] + sorted(named_in("i", term) - {part})
        fits = sorted(named_in("f", term))
        bare = re.sub(r"\b[if]\.\w+", "", term)
        needs = narrowed(event.needs, bare, lambda name, wanted: quantifies(name, wanted) or wanted.startswith("Restarts"))
        goal = type_name(part) + " " + " ".join(state[w] for w in arguments.split())
        records = [("i", parts, ARGUMENTS), ("f", fits, FIT)]
        text, calls[part] = part_lemma("%s_%s" % (low, part), over, variables, needs, records, goal, term)
        out.append(text)
    fit = any("f." in call for call in calls.values())
    premises = premised(event.needs) + ("Connections c conns a → " if fit else "")
    words = " ".join(variables + [n for n, _ in event.needs] + (["f"] if fit else []) + ["i"])
    out.append(step(low + "_creates", over, premises, "Creates c conns v a", "Creates %s %s %s %s" % (event.c,
        event.conns, event.v, event.a), words))
    out.append(fields(PARTS, calls))
    text = "".join(out)
    if fit:
        text = text.replace("Connections.{copies", "Connections.{Connections, copies")
    write_module(TOP, event.name, text)


if __name__ == "__main__":
    write_wanted(EVENTS, emit)
    own = ["Words", "Moves", "Requests", "Seeing"]
    extra = standing(TOP, ("Facing", "Moved", "Says", "Served", "Doors", "Run", "Law"))
    write_list(TOP, own + [e.name for e in EVENTS] + extra)
