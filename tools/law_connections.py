#!/usr/bin/env python3
"""Writes the regular part of the proofs about the connections: for each small step one lemma for each part.

The rule is one line: the old part at the goal's own variables, then grind. EVENTS names each step with what it needs,
what it does to the client's table, the connections and the counts, and the parts whose proof needs more than that.

Run `rt tidy` and `rt fmt` in the crate behind it: it writes all imports into each file.
"""
import re

from law_text import (
    fields, kept_part, low_name, named_in, names, narrowed, part_lemma, premised, proofs_of, sentence, standing,
    step, type_name, write_list, write_module, write_wanted,
)

TOP = proofs_of("law_sessions", "messages")

# part: (its type's arguments, the variables that it is quantified by, whether it speaks of what waits)
PARTS = {
    "once": ("conns", "", False),
    "outstanding": ("c conns", "", False),
    "own_up": ("c conns", "j n p x", True),
    "attach_up": ("c conns", "j n p x", True),
    "own_down": ("c conns", "j n p y", True),
    "attach_down": ("c conns", "j n p y", True),
    "down_open": ("conns", "j", True),
    "on_ready": ("c", "p j", False),
    "ready": ("c conns", "j", False),
    "stages": ("c", "j", False),
    "settled": ("c", "p", False),
    "taken": ("c", "p", False),
    "taken_on": ("c", "p", False),
    "creates": ("c", "p", False),
    "lower": ("c", "p q", False),
    "has_open": ("c", "p", False),
    "asked_open": ("c", "p", False),
    "fresh": ("c a", "p", False),
    "bodies": ("c conns", "j n p x", True),
    "first": ("c conns a", "j n p x", True),
    "unsent": ("c a", "p", False),
    "sent_replies": ("c conns", "j n p y", True),
    "deleted": ("c conns a", "j n p y", True),
}

COUNTS = "grind (arith, count_up-push, count_down-push)"


def default(part):
    arguments, variables, waits = PARTS[part]
    if not variables:
        return COUNTS
    if part == "ready":
        return "λ j. let old = i.ready j in " + COUNTS
    tactic = "grind (arith, get-push)" if waits else "grind arith"
    return kept_part(part, variables, tactic)


HEAD = """use Rattle.std.proofs.lemmas.Bool.{eqb-false}
use Rattle.std.proofs.lemmas.Bool.Decides.{nat_tests}
use Rattle.std.proofs.Common.{eqb-true, ◌≡◌, ◌≢◌, ℕ, ◌+◌, ◌≤◌, ◌<◌, ◌==◌, ◌%◌, Bool, true, false, not, ◌&&◌, ◌||◌,
    if◌then◌else◌, List, [], ◌∷◌, ◌++◌, ◌⊎◌, inl, inr, refl, arith, sym, subst, ◌∙◌, ap, Option, Some, None,
    slice_get, is_some, zero, suc}
use Rattle.spec_exchange.specs.Table.{put, put2}
use Rattle.spec_exchange.specs.Status.{user_session_deleted}
use Rattle.spec_exchange.specs.State.{Message, Reply}
use Rattle.spec_exchange.specs.Operations.{Op, Outcome, Why, HadStatus, is_unsettled, is_ok, is_create, is_close,
    is_lock, create_of, holds_up, request_of}
use Rattle.spec_exchange.specs.Client.{Client, Stage, create_for, guid_for, has_open, may_take, take_op, waits,
    take_slot, outstanding as put_out, asked, cut_channel, end_session, bind_channel, begin_session, leave_dialog,
    note_refusal, finish}
use Rattle.spec_exchange.specs.Settling.{answered, joined, settled as settled_by}
use Rattle.spec_exchange.specs.Dialogs.{open_channel, went_on, accepted}
use Rattle.spec_exchange.specs.Network.{Conn, Sent, Received, Token, ForDialog, ForOp, ForAttach, op_of, is_own,
    fresh as fresh_conn, server_off, client_off, send_up, behind_front, take_front}
use Rattle.spec_exchange.specs.Runs.{is_once, is_send_of}
use Rattle.law_sessions.specs.messages.Connections.{Connections, copies, count_up, count_down, no_copy_out, is_bound,
    makes_open, shuts_open, acts_once, its_create, its_request, create_at, opens, PARTS}
use Rattle.law_sessions.proofs.messages.Lists.{get-push, count_up-push, count_down-push, counted_up, counted_down, rest_of,
    own_up_count, attach_up_count, own_down_count, attach_down_count, front_up, front_down, waited, waited_down}
""".replace("PARTS", ", ".join(type_name(p) for p in PARTS))


class Event:
    def __init__(self, name, about, arguments="", needs=(), c="c", conns="conns", a="a", parts=None, before=""):
        self.name, self.about, self.arguments, self.needs = name, about, arguments, list(needs)
        self.c, self.conns, self.a = c, conns, a
        self.parts = parts or {}
        self.before = before


# what waits on a connection after a step that only takes from it waited there before; it is counted, and outstanding
UP = (
    "let h' : slice_get (conns j).up n ≡ Some x = grind arith in let n1 = own_up_count p (conns j).up n x h' t in "
    "let u = i.outstanding j p in let kind = i.own_up j n p x h' in let bd = i.bodies j n p x h' t in "
    "let tk = i.taken p in "
)
FRONT = "let f0 = front_up (conns k).up x0 rest is in "
OLD = "let o = waited conns k x0 rest j n x is h in "
OLD_DOWN = "let o = waited_down conns k y0 rest j n y is h in "
ACTS = (
    FRONT + "let fst = i.first k 0 p x0 f0 in let kind = i.own_up k 0 p x0 f0 in "
    "let n0 = own_up_count p (conns k).up 0 x0 f0 in let u0 = i.outstanding k p in let bd = i.bodies k 0 p x0 f0 in "
    "let tk = i.taken p in "
)
PUSHED = "grind (arith, get-push)"

EVENTS = [
    Event("Submit", "an operation is taken", "(g : ℕ) (op : Op) (out : Outcome)",
          [("next", "g ≡ c.taken + 1"), ("create", "makes_open op ≡ false → 0 < its_create g op × its_create g op < g "
              "× makes_open (c.op (its_create g op)) ≡ true")],
          c="(record c { taken = g; op = put c.op g op; outcome = put c.outcome g out })",
          parts={
              "creates": "λ p l m. let old = i.creates p l in let cr = create in grind arith",
              "has_open": "λ p s. let t = i.taken p s in let cr = i.creates p t.0 t.1 in let old = i.has_open p s in grind arith",
              "asked_open": "λ p s. let t = i.taken_on p s in let cr = i.creates p t.0 t.1 in let old = i.asked_open p s in grind arith",
              "lower": "λ p q s l m. let t = i.taken_on p s in let old = i.lower p q s l m in grind arith",
              "settled": "λ p. let old = i.settled p in let t = i.taken_on p in grind arith",
              "bodies": "λ j n p x h t. let old = i.bodies j n p x h t in let tk = i.taken p old.0 in "
                  "let cr = i.creates p tk.0 tk.1 in grind arith",
              "unsent": "λ p. let old = i.unsent p in let f = i.fresh p in let t = i.taken p in grind arith",
              "first": "λ j n p x h t. let old = i.first j n p x h t in let b = i.bodies j n p x h t in "
                  "let tk = i.taken p b.0 in grind arith",
              "deleted": "λ j n p y h t. let old = i.deleted j n p y h t in let b = i.sent_replies j n p y h t in "
                  "let tk = i.taken p b in grind arith",
          }),
    Event("Opened", "a connection is made", "(k : ℕ) (served : Bool)", [("closed", "(conns k).client_open ≡ false")],
          c="(open_channel c k)", conns="(put conns k (fresh_conn c k served))"),
    Event("Dropped", "the server closes its end", "(k : ℕ)", conns="(put conns k (server_off (conns k)))"),
    Event("AllDropped", "the server starts anew", "", conns="(λ q. server_off (conns q))"),
    Event("Outcomes", "operations that aren't outstanding settle without a reply", "(new : ℕ → Outcome)",
          [("same", "(h : ℕ) → is_unsettled (c.outcome h) ≡ false → new h ≡ c.outcome h"),
           ("still", "(h : ℕ) → is_unsettled (new h) ≡ false → c.outstanding_on h ≡ None")],
          c="(record c { outcome = new })",
          parts={
              "has_open": "λ p. let old = i.has_open p in let s = same (create_at c p) in grind arith",
              "asked_open": "λ p. let old = i.asked_open p in let s = same (create_at c p) in grind arith",
              "settled": "still",
              "lower": "λ p q s l m e h. let old = i.lower p q s l m e h in let st = same q old in grind arith",
              "unsent": "λ p. let old = i.unsent p in let s = same p in let u = still p in grind arith",
          }),
    Event("TakeSlot", "a lock takes a slot", "(g s : ℕ)", [("new", "c.sent g ≡ false")], c="(take_slot c g s)"),
    Event("Start", "an operation goes out first", "(g : ℕ)",
          [("new", "c.sent g ≡ false"), ("may", "opens c g ≡ true"), ("above", "0 < g"), ("within", "g ≤ c.taken")],
          c="(record c { sent = put c.sent g true })"),
    Event("Absorb", "the server takes the front", "(k : ℕ) (x0 : Sent) (rest : List Sent) (acted : Bool)",
        [("is", "(conns k).up ≡ x0 ∷ rest")],
          conns="(put conns k (behind_front (conns k) rest))", a="(λ h. if is_send_of h x0.token && acted then a h + 1 else a h)",
          parts={
              "own_up": "λ j n p x h. " + OLD + "let old = i.own_up j o.0 p x o.1 in grind arith",
              "attach_up": "λ j n p x h. " + OLD + "let old = i.attach_up j o.0 p x o.1 in grind arith",
              "bodies": "λ j n p x h. " + OLD + "i.bodies j o.0 p x o.1",
              "fresh": "λ p. " + FRONT + "let old = i.fresh p in let b = i.bodies k 0 p x0 f0 in grind arith",
              "first": "λ j n p x h t ao b. " + OLD + ACTS + "let old = i.first j o.0 p x o.1 t ao b in "
                  "let n1 = own_up_count p (conns j).up o.0 x o.1 t in let u1 = i.outstanding j p in " "let one = "
                  "i.once k p in let n2 = own_up_count p (put conns k (behind_front (conns k) rest) j).up n "
                  "x h t in grind arith",
              "unsent": "λ p on_ b none. " + ACTS + "let old = i.unsent p on_ b none in grind arith",
              "deleted": "λ j n p y h t ao st b. " + ACTS + "let h' : slice_get (conns j).down n ≡ Some y = grind "
                  "arith in let old = i.deleted j n p y h' t ao st b in let n1 = own_down_count p (conns j).down n y "
                  "h' t in let one = i.once k p in let u1 = i.outstanding j p in let dn = i.down_open j in grind arith",
          }),
    Event("Behind", "a reply leaves its connection", "(k : ℕ) (y0 : Received) (rest : List Received)",
        [("is", "(conns k).down ≡ y0 ∷ rest")],
          conns="(put conns k (take_front (conns k) rest))",
          parts={
              "own_down": "λ j n p y h. " + OLD_DOWN + "let old = i.own_down j o.0 p y o.1 in grind arith",
              "attach_down": "λ j n p y h. " + OLD_DOWN + "let old = i.attach_down j o.0 p y o.1 in grind arith",
              "sent_replies": "λ j n p y h. " + OLD_DOWN + "i.sent_replies j o.0 p y o.1",
              "deleted": "λ j n p y h. " + OLD_DOWN + "i.deleted j o.0 p y o.1",
          }),
    Event("WentOn", "a dialog goes on", "(k : ℕ) (stage : Stage) (r : Reply)",
        [("live", "is_bound stage ≡ true → c.live ≡ true")], c="(went_on c k stage r)",
          parts={"stages": "λ j. let old = i.stages j in let l = live in grind arith"}),
    Event("Accepted", "a new session is accepted", "(k : ℕ)", c="(accepted c k)"),
    Event("DialogRefused", "a dialog is refused, and the client closes its channel", "(k status : ℕ)", [("apart", "c.ready k ≡ false")],
          c="(note_refusal c k (HadStatus status))", conns="(put conns k (client_off (conns k)))",
          parts={"first": "λ j n p x h t ao b. " + UP + "let old = i.first j n p x h' t ao b in let r = i.on_ready p k in grind arith"}),
    Event("DialogSent", "the next message of a dialog goes out", "(k n0 : ℕ) (m : Message)",
        [("none", "copies 0 (conns k) ≡ 0"), ("apart", "c.ready k ≡ false")],
          conns="(put conns k (send_up (conns k) ForDialog m n0))"),
    Event("Bound", "a further channel is ready", "(k : ℕ)",
        [("live", "c.live ≡ true"), ("stands", "(conns k).client_open ≡ true"), ("none", "copies 0 (conns k) ≡ 0")],
        c="(bind_channel c k)"),
    Event("Readied", "a session is ready", "(k session tree : ℕ)",
        [("stands", "(conns k).client_open ≡ true"), ("none", "copies 0 (conns k) ≡ 0")],
        c="(begin_session c k session tree)"),
    Event("DialogOff", "the client closes a channel that isn't ready", "(k : ℕ)", [("apart", "c.ready k ≡ false")],
          c="(leave_dialog c k)", conns="(put conns k (client_off (conns k)))",
          parts={"first": "λ j n p x h t ao b. " + UP + "let old = i.first j n p x h' t ao b in let r = i.on_ready p k in grind arith"}),
    Event("Cut", "a ready channel is cut", "(k : ℕ)", c="(cut_channel c k)", conns="(put conns k (client_off (conns k)))",
          parts={"first": "λ j n p x h t ao b. " + UP + "let old = i.first j n p x h' t in grind arith"}),
    Event("Leave", "the session ends", "", c="(end_session c)", conns="(λ q. client_off (conns q))",
          parts={"first": "λ j n p x h t ao b. " + UP + "let old = i.first j n p x h' t in grind arith"}),
    Event("Answered", "an operation is answered and isn't settled", "(k g : ℕ)",
          [("on", "c.outstanding_on g ≡ Some k"), ("none", "copies g (conns k) ≡ 0"),
              ("idle", "acts_once (c.op g) ≡ true → c.unanswered g ≡ false → c.asks_attach g ≡ false → a g ≡ 0")],
          c="(answered c g)", parts={"unsent": "λ p. let old = i.unsent p in let q = idle in grind arith"}),
    Event("Opens", "a create that is outstanding names its open", "(g id : ℕ)",
        [("create", "makes_open (c.op g) ≡ true"), ("out", "is_some (c.outstanding_on g) ≡ true")],
          c="(record c { file = put c.file g id; attached = put c.attached g c.session_number })",
          parts={"bodies": "λ j n p x h t. let old = i.bodies j n p x h t in let op = i.has_open p old.0 in "
              "let s = i.settled g in let r = request_of_create (c.op p) (guid_for c p) (c.file (create_at c p)) id "
              "(c.slot_of p) (c.number_of p) in let own = create_of_create p (c.op p) in grind arith"}),
    Event("Joined", "a DH2C attached its open", "(k g : ℕ)",
          [("on", "c.outstanding_on g ≡ Some k"), ("none", "copies g (conns k) ≡ 0"),
              ("idle", "acts_once (c.op g) ≡ true → c.unanswered g ≡ false → c.asks_attach g ≡ false → a g ≡ 0")],
          c="(joined c g)", parts={"unsent": "λ p. let old = i.unsent p in let q = idle in grind arith"}),
    Event("Shuts", "a close shut its open", "(create : ℕ)", c="(record c { closed_ok = put c.closed_ok create true })"),
    Event("Fills", "a lock met a full disk", "(create slot : ℕ)", c="(record c { full = put2 c.full create slot true })"),
    Event("Retried", "a slot's lock goes out again", "(create slot : ℕ)",
        c="(record c { retried = put2 c.retried create slot c.session_number })"),
    Event("Finished", "no session can be had", "(why : Why)", [("dead", "c.live ≡ false")], c="(finish c why)",
          parts={"settled": "λ p h. finished_off c conns dead i.on_ready i.ready p (c.outstanding_on p) refl"}),
    Event("Settle", "a reply settles its operation", "(k g place : ℕ) (outcome : Outcome)",
          [("on", "c.outstanding_on g ≡ Some k"), ("none", "copies g (conns k) ≡ 0"), ("firm", "is_unsettled outcome ≡ false")],
          c="(settled_by c g outcome place)",
          parts={
              "has_open": "λ p. let old = i.has_open p in let s = i.settled g in grind arith",
              "asked_open": "λ p. let old = i.asked_open p in let s = i.settled g in grind arith",
          }),
    Event("Send", "an operation goes out itself", "(k g n0 : ℕ) (m : Message)",
          [("ready", "c.ready k ≡ true"), ("none", "c.outstanding_on g ≡ None"), ("above", "0 < g"),
              ("within", "g ≤ c.taken"), ("pending", "is_unsettled (c.outcome g) ≡ true"), ("may", "opens c g ≡ true"),
           ("lower", "(n : ℕ) → 0 < n → n < g → create_at c n ≡ create_at c g → (shuts_open (c.op g) || shuts_open "
               "(c.op n)) ≡ true → is_unsettled (c.outcome n) ≡ false"),
           ("sent", "c.sent g ≡ true"), ("body", "m.command ≡ its_request (c.op g) (guid_for c g) (c.file (create_at c "
               "g)) (c.slot_of g) (c.number_of g)"),
           ("who", "m.client_guid ≡ c.who.guid"), ("fault", "m.fault ≡ None"),
               ("idle", "acts_once (c.op g) ≡ true → c.unanswered g ≡ false → a g ≡ 0")],
          c="(put_out c k g)", conns="(put conns k (send_up (conns k) (ForOp g) m n0))"),
    Event("Ask", "a DH2C goes out in an operation's place", "(k g n0 : ℕ) (m : Message)",
        [("ready", "c.ready k ≡ true"), ("none", "c.outstanding_on g ≡ None"), ("above", "0 < g"),
        ("within", "g ≤ c.taken"), ("pending", "is_unsettled (c.outcome g) ≡ true"), ("may", "opens c g ≡ true"),
           ("lower", "(n : ℕ) → 0 < n → n < g → create_at c n ≡ create_at c g → (shuts_open (c.op g) || shuts_open "
               "(c.op n)) ≡ true → is_unsettled (c.outcome n) ≡ false")],
          c="(asked c k g)", conns="(put conns k (send_up (conns k) (ForAttach g) m n0))"),
    Event("Say", "a reply is on its way", "(k : ℕ) (y0 : Received)",
        [("stands", "(conns k).client_open ≡ true"), ("none", "copies (op_of y0.token) (conns k) ≡ 0"),
        ("on", "0 < op_of y0.token → c.outstanding_on (op_of y0.token) ≡ Some k"),
           ("own", "(g : ℕ) → y0.token ≡ ForOp g → c.asks_attach g ≡ false"),
               ("attach", "(g : ℕ) → y0.token ≡ ForAttach g → c.asks_attach g ≡ true"),
               ("dialog", "op_of y0.token ≡ 0 → c.ready k ≡ false"),
           ("sent", "(g : ℕ) → y0.token ≡ ForOp g → c.sent g ≡ true"),
               ("deleted", "(g : ℕ) → y0.token ≡ ForOp g → acts_once (c.op g) ≡ true "
               "→ y0.reply.status ≡ user_session_deleted → c.unanswered g ≡ false → a g ≡ 0")],
          conns="(put conns k (record (conns k) { down = (conns k).down ++ y0 ∷ [] }))",
          parts={
              "own_down": "λ j n p y h. let old = i.own_down j n p y in let m = own p in " + PUSHED,
              "attach_down": "λ j n p y h. let old = i.attach_down j n p y in let m = attach p in " + PUSHED,
              "sent_replies": "λ j n p y. let old = i.sent_replies j n p y in let m = sent p in " + PUSHED,
              "deleted": "λ j n p y. let old = i.deleted j n p y in let m = deleted p in " + PUSHED,
              "ready": "λ j. let old = i.ready j in let d = dialog in " + COUNTS,
              "outstanding": "let old = i.outstanding in let o = on in " + COUNTS,
          }),
]
for event in EVENTS:
    if event.name in ("Send", "Ask"):
        for part, kind, count in (("own_up", "up", "own_up_count"), ("attach_up", "up", "attach_up_count"),
            ("own_down", "down", "own_down_count"), ("attach_down", "down", "attach_down_count")):
            v = "x" if kind == "up" else "y"
            event.parts[part] = (
                "λ j n p %s h o t. let l = %s p (conns j).%s n %s in let u = i.outstanding j p in "
                "let old = i.%s j n p %s in grind (arith, get-push)" % (v, count, kind, v, part, v)
            )
        event.parts["once"] = "λ j p. let old = i.once j p in let u = i.outstanding j p in let r = i.ready k ready in " + COUNTS
        if event.name == "Send":
            event.parts["first"] = (
                "λ j n p x. let old = i.first j n p x in let q = idle in "
                "let r = i.ready k ready in grind (arith, get-push)"
            )
        event.parts["lower"] = "λ p q. let old = i.lower p q in let l = lower q in grind arith"

BEFORE = {
    "Finished": """finished_off : (c : Client) (conns : ℕ → Conn) → c.live ≡ false → OnReady c → Ready c conns
    → (p : ℕ) (o : Option ℕ) → c.outstanding_on p ≡ o → c.outstanding_on p ≡ None
finished_off c conns dead r l p None e = e
finished_off c conns dead r l p (Some k) e = let on = r p k e in let live = l k on.0 in absurd (grind arith)

""",
    "Opens": """request_of_create : (op : Op) (guid f1 f2 slot number : ℕ) → makes_open op ≡ true
    → its_request op guid f1 slot number ≡ its_request op guid f2 slot number
unfolding makes_open its_request
request_of_create op guid f1 f2 slot number e = grind arith

create_of_create : (g : ℕ) (op : Op) → makes_open op ≡ true → its_create g op ≡ g
unfolding makes_open its_create
create_of_create g op e = grind arith

""",
}


BASE = "(c : Client) (conns : ℕ → Conn) (a : ℕ → ℕ)"
ARGUMENTS = {part: row[0] for part, row in PARTS.items()}


def emit(event):
    low = low_name(event.name)
    state = {"c": event.c, "conns": event.conns, "a": event.a}
    over = BASE + (" " + event.arguments if event.arguments else "")
    variables = names(over)
    out = [sentence(event.about), HEAD, "\n", BEFORE.get(event.name, "")]
    calls = {}
    for part, (arguments, _, _) in PARTS.items():
        term = event.parts.get(part) or default(part)
        parts = [part] + sorted(named_in("i", term) - {part})
        needs = narrowed(event.needs, re.sub(r"\bi\.\w+", "", term))
        goal = type_name(part) + " " + " ".join(state[w] for w in arguments.split())
        text, calls[part] = part_lemma("%s_%s" % (low, part), over, variables, needs, [("i", parts, ARGUMENTS)], goal, term)
        out.append(text)
    words = " ".join(variables + [n for n, _ in event.needs] + ["i"])
    out.append(step(low + "_keeps", over, premised(event.needs), "Connections c conns a",
        "Connections %s %s %s" % (event.c, event.conns, event.a), words))
    out.append(fields(PARTS, calls))
    write_module(TOP, event.name, "".join(out))


if __name__ == "__main__":
    write_wanted(EVENTS, emit)
    own = ["Lists"]
    extra = standing(TOP, ("Facts", "Run", "Reached", "Stays"))
    write_list(TOP, own + [e.name for e in EVENTS] + extra)
