"""The small steps of law_contents.py: the name, what it is, the columns that it changes, its arguments, what it needs,
and the parts whose proof needs more than the rule."""
import re

from law_contents_parts import PARTS, SPEC, Event
from law_text import type_name

WORDS = ["ops_of", "attach_of", "put_other", "put_self", "apart_new", "below_new", "outcomes_back", "outcomes_on",
    "left_lost", "left_firm", "left_on", "left_was", "finished_was", "still_gone", "unput", "some_of", "sent_of",
    "begun_was", "live_pends", "firm_settled", "ok_settled", "edits_other", "sent_up", "or_else", "may_act", "sent_down"]

G = "grind (arith, get-push)"

# an operation whose copy or reply waits was taken, so it isn't the new one
UP = "let tk = i.token_up j n x h (ops_of x.token p e) in let ne = apart_new p g c.taken (op_of x.token) (ap op_of e) tk.1 next in "
DOWN = "let tk = i.token_down j n y h (ops_of y.token p e) in let ne = apart_new p g c.taken (op_of y.token) (ap op_of e) tk.1 next in "
ASKED = "let tk = i.token_down j n y h (attach_of y.token p e) in let ne = apart_new p g c.taken (op_of y.token) (ap op_of e) tk.1 next in "
SAME = "let ne = below_new (l.who n) g c.taken (w.1) next in let at = put_other c.op g op (l.who n) ne in "


def up(part, more=""):
    return "λ j n p x h e. %slet old = i.%s j n p x h e in %s" % (UP, part, G)


def down(part, prefix=None):
    return "λ j n p y h e. %slet old = i.%s j n p y h e in %s" % (prefix or DOWN, part, G)


# a reply that waits behind the front waited before
def waited(part, variables="j n p y"):
    rest = variables.split()[2:-1]
    return "λ %s h. let o = waited_down conns k y0 rest j n y is h in i.%s j o.0 %s" % (variables, part, " ".join(rest + ["y", "o.1"]))


HERE_UP = "let h' : slice_get (conns j).up n ≡ Some x = grind arith in "
PAIR = "Pair s %s 0 f × f ≤ last_id s"
MOVED = "let r = ranked j n x h (ops_of x.token p e) in let cp = i.copy_pair j n p x h e ed in "


def moved_pair(prefix, session, sequence, file):
    return (
        prefix + "let z = old.1 in let up = go.steps.ids in (go.steps.pair %s %s (%s) r old.1 old.0, omega "
        "(arith, z, up))" % (session, sequence, file)
    )


SAID = ["token_down", "not_done", "create_reply", "attach_reply", "reached", "closed_reply", "attach_refused",
    "stale_reply", "replies", "attach_status", "since_reply"]


# a reply that waits at the end: what each part says of it is a need of its own
def said_event():
    needs, parts = [], {}
    for part in SAID:
        body = (
            re.search(r"^%s .* = .*?slice_get \(conns k\).down n ≡ Some y → (.*(?:\n    .*)*)" % type_name(part), SPEC,
            re.M).group(1).replace("\n", " ")
        )
        body = re.sub(r"  +", " ", re.sub(r"\bg\b", "p", body))
        own = "p" in PARTS[part][0].split()
        needs.append(("_said_" + part, ("(p : ℕ) → " if own else "") + re.sub(r"\by\b", "y0", body)))
        variables = "j n p y" if own else "j n y"
        parts[part] = (
            "λ %s h. or_else (sent_down conns k y0 j n y h) (λ o. i.%s %s o) (λ z. subst (λ (y : Received). %s) "
            "(sym z) (said_%s%s))" % (variables, part, variables, body, part, " p" if own else "")
        )
    return Event("Say", "a reply is on its way", "conns", "(k : ℕ) (y0 : Received)", needs, parts,
        conns="(put conns k (record (conns k) { down = (conns k).down ++ y0 ∷ [] }))")


EVENTS = [
    Event("Submit", "an operation is taken", "taken op outcome", "(g : ℕ) (op : Op) (out : Outcome)",
          [("next", "g ≡ c.taken + 1"), ("untaken", "c.outcome g ≡ Unsettled"), ("other", "is_firm out ≡ false × is_ok out ≡ false"),
           ("_below", "(p : ℕ) → 0 < p → p ≤ c.taken → create_at c p ≤ c.taken"),
               ("_listed_above", "(n : ℕ) → lists (c.op (l.who n)) ≡ true → 0 < l.who n"),
               ("_listed_create", "(n : ℕ) → n < l.places → lists (c.op (l.who n)) ≡ true "
               "→ create_at c (l.who n) ≤ c.taken")],
          c="(record c { taken = g; op = put c.op g op; outcome = put c.outcome g out })",
          parts={
              "asked_as": "λ j n p x h e. let tk = i.token_up j n x h (attach_of x.token p e) in "
                  "let lp = subst (λ g. g ≤ c.taken) (ap op_of e) tk.1 in let ne = below_new p g c.taken lp next in "
                  "let at = put_other c.op g op p ne in let n2 = below_new (create_at c p) g c.taken (below p (subst "
                  "(λ g. 0 < g) (ap op_of e) tk.0) lp) next in let at2 = put_other c.op g op (create_at c p) n2 in "
                  "let old = i.asked_as j n p x h e in grind arith",
              "first_up": up("first_up"),
              "cut_seq": up("cut_seq"),
              "open_seq": up("open_seq"),
              "copy_pair": up("copy_pair"),
              "live_unsettled": up("live_unsettled"),
              "live_replay": up("live_replay"),
              "not_done": down("not_done"),
              "create_reply": down("create_reply"),
              "reached": down("reached"),
              "closed_reply": down("closed_reply"),
              "stale_reply": down("stale_reply"),
              "attach_reply": down("attach_reply", ASKED),
              "attach_refused": down("attach_refused", ASKED),
              "older": "λ j n i p x h e. " + UP + "let old = i.older j n i p x h e in " + G,
              "no_replay": "λ j n i q p u x h1 h2 e1 e2. let tk = i.token_up j n u h1 (ops_of u.token p e1) in "
                  "let ne = apart_new p g c.taken (op_of u.token) (ap op_of e1) tk.1 next in "
                  "let old = i.no_replay j n i q p u x h1 h2 e1 e2 in grind arith",
              "pairwise": "λ p q lt st. let tk = cn.taken q st in let l1 = tk.1 in "
                  "let n1 = below_new q g c.taken tk.1 next in let n2 = below_new p g c.taken (omega (arith, lt, l1)) "
                  "next in let old = i.pairwise p q lt st in grind arith",
              "unacted": "λ p. let old = i.unacted p in let f = i.fresh_first p in let tk = cn.taken p in grind arith",
              "shows": "λ p ed iso sd pe so. let st = sent_of (c.sent p) (l.first p) (λ z. (i.fresh_first p z).0) so "
                  "in let tk = cn.taken p st in let ne = below_new p g c.taken tk.1 next in "
                  "let at = put_other c.op g op p ne in let ed' = subst (λ o. edits o ≡ true) at ed in "
                  "let cr = cn.creates p tk.0 tk.1 (edits_other (c.op p) ed') in let l1 = tk.1 in let l2 = cr.1 in "
                  "let n2 = below_new (create_at c p) g c.taken (omega (arith, l1, l2)) next in "
                  "let at2 = put_other c.op g op (create_at c p) n2 in let old = i.shows p ed' in grind arith",
              "open_given": "λ q o e. let old = i.open_given q o e in let tk = cn.taken q old.2 in "
                  "let ne = below_new q g c.taken tk.1 next in grind arith",
              "open_row": "λ q o e. let old = i.open_given q o e in let tk = cn.taken q old.2 in "
                  "let ne = below_new q g c.taken tk.1 next in let row = i.open_row q o e in grind arith",
              "quiet": "λ n q lt mk b iso d. let so = some_of (t.open_of q) mk in let og = i.open_given q so.0 so.1 in "
                  "let tk = cn.taken q og.2 in let n2 = below_new q g c.taken tk.1 next in " "let at2 = put_other c.op "
                  "g op q n2 in i.quiet n q lt mk b (subst (λ o. isolating o ≡ true) at2 iso) " "d",
              "opens_up": "λ j n x h z. let tk = i.token_up j n x h z in let ne = below_new (op_of x.token) g c.taken "
                  "tk.1 next in let old = i.opens_up j n x h z in let ot = other in grind arith",
              "foreign": "λ n q lt mk b iso no. let w = i.whose n lt in let ne = below_new (l.who n) g c.taken w.0 "
                  "next in let at = put_other c.op g op (l.who n) ne in let so = some_of (t.open_of q) mk in "
                  "let og = i.open_given q so.0 so.1 in let tk = cn.taken q og.2 in " "let n2 = below_new q g c.taken "
                  "tk.1 next in let at2 = put_other c.op g op q n2 in i.foreign n q lt " "mk b (subst (λ o. isolating "
                  "o ≡ true) at2 iso) (subst (λ o. ((its_create (l.who n) o == q) && lists " "o) ≡ false) at no)",
              "acted": "λ n lt d ls iso. let w = i.whose n lt in let ne = below_new (l.who n) g c.taken w.0 next in "
                  "let at = put_other c.op g op (l.who n) ne in let ls' = subst (λ o. lists o ≡ true) at ls in "
                  "let ab = listed_above n ls' in let cr = listed_create n lt ls' in "
                  "let n2 = below_new (create_at c (l.who n)) g c.taken cr next in "
                  "let at2 = put_other c.op g op (create_at c (l.who n)) n2 in " "let at3 : its_create (l.who n) "
                  "(put c.op g op (l.who n)) ≡ create_at c (l.who n) = ap (its_create " "(l.who n)) at in "
                  "let iso' : isolating (c.op (create_at c (l.who n))) ≡ true = subst (λ o. isolating "
                  "o ≡ true) at2 (subst (λ r. isolating (put c.op g op r) ≡ true) at3 iso) in "
                  "let old = i.acted n lt d ls' iso' in subst (λ o. l.first (l.who n) ≡ Some n × edits o ≡ true " "× "
                  "l.bytes (its_create (l.who n) o) (n + 1) ≡ bytes_after o (l.bytes (its_create (l.who n) o) n)) "
                  "(sym at) old",
              "gave": "λ n v lt ls gv. let w = i.whose n lt in let ne = below_new (l.who n) g c.taken w.0 next in "
                  "let at = put_other c.op g op (l.who n) ne in let old = i.gave n v lt (subst (λ o. lists o ≡ true) "
                  "at ls) gv in subst (λ o. reply_to o (l.bytes (its_create (l.who n) o) n) ≡ v "
                  "× l.bytes (its_create (l.who n) o) (n + 1) ≡ bytes_after o (l.bytes (its_create (l.who n) o) n) "
                  "× ends_before o (l.bytes (its_create (l.who n) o) n) ≡ false) (sym at) old",
              "gave_end": "λ n lt ls gv. let w = i.whose n lt in let ne = below_new (l.who n) g c.taken w.0 next in "
                  "let at = put_other c.op g op (l.who n) ne in let old = i.gave_end n lt (subst (λ o. lists o ≡ true) "
                  "at ls) gv in subst (λ o. ends_before o (l.bytes (its_create (l.who n) o) n) ≡ true) (sym at) old",
              "born": "λ n lt ab mk. let w = i.whose n lt in let ne = below_new (l.who n) g c.taken w.0 next in "
                  "let at = put_other c.op g op (l.who n) ne in "
                  "let old = i.born n lt ab (subst (λ o. makes_open o ≡ false) at mk) in subst (λ o. l.birth "
                  "(its_create (l.who n) o) ≤ n) (sym at) old",
              "prior_first": "λ p q n ed pr f. let fa = i.first_at q n f in let w = i.whose n fa.0 in "
                  "let ne = below_new q g c.taken (subst (λ r. r ≤ c.taken) fa.1 w.0) next in " "let at = put_other "
                  "c.op g op q ne in i.prior_first p q n (subst (λ o. edits o ≡ true) at ed) pr f",
          }),
    Event("Opened", "a connection is made", "stage making conns", "(k : ℕ) (served : Bool)", [("shut", "(conns k).client_open ≡ false")],
          c="(open_channel c k)", conns="(put conns k (fresh_conn c k served))"),
    Event("Dropped", "the server closes its end", "conns", "(k : ℕ)", conns="(put conns k (server_off (conns k)))"),
    Event("AllDropped", "the server starts anew", "conns", "", conns="(λ q. server_off (conns q))"),
    Event("Outcomes", "operations that never went out settle without a reply", "outcome", "(new : ℕ → Outcome)",
          [("_same", "(h : ℕ) → is_unsettled (c.outcome h) ≡ false → new h ≡ c.outcome h"),
           ("_unsent", "(h : ℕ) → is_unsettled (c.outcome h) ≡ true → is_unsettled (new h) ≡ false → c.sent h ≡ false "
               "× is_firm (new h) ≡ false × is_ok (new h) ≡ false"),
           ("_back", "(h : ℕ) → is_unsettled (new h) ≡ true → is_unsettled (c.outcome h) ≡ true"),
           ("_firm_back", "(h : ℕ) → is_firm (new h) ≡ true → is_firm (c.outcome h) ≡ true"),
           ("_ok_back", "(h : ℕ) → is_ok (new h) ≡ true → is_ok (c.outcome h) ≡ true"),
           ("_ok_on", "(h : ℕ) → is_ok (c.outcome h) ≡ true → is_ok (new h) ≡ true")],
          c="(record c { outcome = new })",
          parts={
              "opens_up": "λ j n x h z. let old = i.opens_up j n x h z in let ok = ok_on (create_at c (op_of x.token)) in grind arith",
              "lost_unknown": "λ p z gu. let old = i.lost_unknown p z gu in let sm = same p old.0 in grind arith",
              "pairwise": "λ p q lt st e1 e2 cr u1 u2. i.pairwise p q lt st e1 e2 cr (outcomes_back (new p) "
                  "(c.outcome p) (is_at c.session (c.given_up p)) (same p) u1) (outcomes_back (new q) (c.outcome q) "
                  "(is_at c.session (c.given_up q)) (same q) u2)",
              "unacted": "λ p ed b no un. i.unacted p ed b no (back p un)",
              "live_unsettled": "λ j n p x h e ed fm sd pr le. outcomes_on (new p) (c.outcome p) (is_at c.session "
                  "(c.given_up p)) (same p) (λ u v. absurd (let z = (unsent p u v).0 in "
                  "let w = (cn.bodies j n p x h e).0 in grind arith)) (i.live_unsettled j n p x h e ed fm sd pr le)",
              "shows": "λ p ed iso sd pe so. i.shows p ed iso sd (outcomes_back (new p) (c.outcome p) (is_at c.session "
                  "(c.given_up p)) (same p) pe) so",
              "open_of": "λ q mk o. i.open_of q mk (ok_back q o)",
              "whose": "λ n lt. let old = i.whose n lt in (old.0, λ ab. let z = old.1 ab in "
                  "let ok = ok_on (create_at c (l.who n)) in grind arith)",
              "by": "λ p n b. let old = i.by p n b in let sm = same p old.3 in grind arith",
              "by_ok": "λ p n v ls b st. let bb = i.by p n b in let sm = same p bb.3 in i.by_ok p n v ls b (subst "
                  "(λ o. settlement (c.op p) o ≡ Settled_ok v) sm st)",
              "by_end": "λ p n b st. let bb = i.by p n b in let sm = same p bb.3 in i.by_end p n b (subst "
                  "(λ o. settlement (c.op p) o ≡ Settled_end) sm st)",
              "by_some": "λ p f. i.by_some p (firm_back p f)",
              "prior": "λ p q pr. let old = i.prior p q pr in let sm = same q (firm_settled (c.outcome q) old.1) in "
                  "(old.0, subst (λ o. is_firm o ≡ true) (sym sm) old.1)",
          }),
    Event("TakeSlot", "a number of a slot is taken", "", "(g z : ℕ)", c="(take_slot c g z)"),
    Event("Retried", "a number goes out again", "", "(create slot : ℕ)",
        c="(record c { retried = put2 c.retried create slot c.session_number })"),
    Event("Fills", "a slot is full", "", "(create slot : ℕ)", c="(record c { full = put2 c.full create slot true })"),
    Event("Shuts", "an open is shut", "", "(create : ℕ)", c="(record c { closed_ok = put c.closed_ok create true })"),
    Event("Start", "an operation goes out first", "sent since prior", "(g : ℕ) (pr : ℕ → Bool)",
          [("new", "c.sent g ≡ false"), ("above", "0 < g"), ("pending", "is_unsettled (c.outcome g) ≡ true"), ("live", "c.live ≡ true"),
           ("_lower", "(n : ℕ) → n < g → create_at c n ≡ create_at c g → edits (c.op n) ≡ true → edits (c.op g) ≡ true "
               "→ is_unsettled (c.outcome n) ≡ true → clashes (c.op n) (c.op g) ≡ false"),
           ("_firm", "(q : ℕ) → pr q ≡ true → is_firm (c.outcome q) ≡ true"),
           ("_quiet", "(j n : ℕ) (y : Received) → slice_get (conns j).down n ≡ Some y → op_of y.token ≢ g")],
          c="(record c { sent = put c.sent g true })", l="(record l { since = put l.since g l.places; prior = put l.prior g pr })",
          parts={
              "prior": "λ p q. let old = i.prior p q in let f = firm q in grind arith",
              "pairwise": "λ p q lt st e1 e2 cr u1 u2. elim (q == g) as (λ b. q == g ≡ b "
                  "→ clashes (c.op p) (c.op q) ≡ false) [ true ↦ λ z. let qg = eqb-true _ _ z in subst (λ r. clashes "
                  "(c.op p) (c.op r) ≡ false) (sym qg) (lower p (subst (λ r. p < r) qg lt) (subst (λ r. create_at c "
                  "p ≡ create_at c r) qg cr) e1 (subst (λ r. edits (c.op r) ≡ true) qg e2) (live_pends (c.outcome p) "
                  "(c.given_up p) c.session c.live (i.lost_dead p) live u1)) | false ↦ λ z. i.pairwise p q lt (sym "
                  "(put_other c.sent g true q (eqb-false _ _ z)) ∙ st) e1 e2 cr u1 u2 ] refl",
              "since_reply": "λ j n y h. let qu = quiet j n y h in let old = i.since_reply j n y h in grind arith",
              "since_by": "λ p n b. let old = i.since_by p n b in let bb = i.by p n b in grind arith",
              "since_first": "λ p n f. let old = i.since_first p n f in let fr = i.fresh_first p in grind arith",
              "prior_by": "λ p q n. let old = i.prior_by p q n in let bb = i.by q n in grind arith",
              "prior_first": "λ p q n. let old = i.prior_first p q n in let bb = i.first_at q n in grind arith",
          }),
    Event("Behind", "a reply leaves its connection", "conns", "(k : ℕ) (y0 : Received) (rest : List Received)",
        [("is", "(conns k).down ≡ y0 ∷ rest")],
          conns="(put conns k (take_front (conns k) rest))",
          parts={
              "not_done": waited("not_done"),
              "create_reply": waited("create_reply"),
              "attach_reply": waited("attach_reply"),
              "reached": waited("reached"),
              "closed_reply": waited("closed_reply"),
              "attach_refused": waited("attach_refused"),
              "stale_reply": waited("stale_reply"),
              "attach_status": waited("attach_status"),
              "token_down": waited("token_down", "j n y"),
              "replies": waited("replies", "j n y"),
              "since_reply": waited("since_reply", "j n y"),
          }),
    Event("WentOn", "a dialog goes on", "stage pending", "(k : ℕ) (stage : Stage) (r : Reply)",
          [("other", "stage ≢ AskedTree"),
              ("_alone", "(j : ℕ) → j ≢ k → c.stage j ≡ AskedTree → told_session c stage r ≡ c.pending")],
              c="(went_on c k stage r)",
          parts={
              "lost_asked": "λ p j z sg gu. let u = unput c.stage k stage j AskedTree other sg in "
                  "let al = alone j u.0 u.1 in subst (λ r. z ≢ r) (sym al) (i.lost_asked p j z u.1 gu)",
              "session_asked": "λ j sg. let u = unput c.stage k stage j AskedTree other sg in "
                  "let al = alone j u.0 u.1 in subst (λ r. c.session ≢ r) (sym al) (i.session_asked j u.1)",
              "pending_at": "λ o j sg. let u = unput c.stage k stage j AskedTree other sg in "
                  "let al = alone j u.0 u.1 in subst (λ r. s.session_of_open o ≢ Some r) (sym al) (i.pending_at o j "
                  "u.1)",
          }),
    Event("Accepted", "a new session is accepted", "stage rank", "(k : ℕ)",
          [("unranked", "c.rank c.pending ≡ 0"), ("above", "0 < c.pending"),
              ("_attached", "(o x : ℕ) → s.session_of_open o ≡ Some x → 0 < c.rank x")], c="(accepted c k)",
          parts={
              "lost_asked": "λ p j z sg gu e. let old = i.lost_known p z gu in grind arith",
              "session_asked": "λ j sg e. let old = i.session_known in grind arith",
              "pending_at": "λ o j sg e. let old = attached o c.pending e in grind arith",
          }),
    Event("DialogRefused", "a dialog is refused, and the client closes its channel", "stage conns", "(k status : ℕ)",
          [("_apart", "(n p : ℕ) (x : Sent) → slice_get (conns k).up n ≡ Some x → x.token ≡ ForOp p → (conns k).client_open ≡ false")],
          c="(note_refusal c k (HadStatus status))", conns="(put conns k (client_off (conns k)))",
          parts={
              "first_up": "λ j n p x h e ed b. " + HERE_UP
                  + "let ap = apart n p x in let old = i.first_up j n p x h' e ed b in grind arith",
              "cut_seq": "λ j n p x h e ed op lv se. " + HERE_UP
                  + "let ap = apart n p x in let old = i.cut_seq j n p x h' e ed in grind arith",
          }),
    Event("DialogOff", "the client closes a channel that isn't ready", "stage conns", "(k : ℕ)",
          [("_apart", "(n p : ℕ) (x : Sent) → slice_get (conns k).up n ≡ Some x → x.token ≡ ForOp p → (conns k).client_open ≡ false")],
          c="(leave_dialog c k)", conns="(put conns k (client_off (conns k)))",
          parts={
              "first_up": "λ j n p x h e ed b. " + HERE_UP
                  + "let ap = apart n p x in let old = i.first_up j n p x h' e ed b in grind arith",
              "cut_seq": "λ j n p x h e ed op lv se. " + HERE_UP
                  + "let ap = apart n p x in let old = i.cut_seq j n p x h' e ed in grind arith",
          }),
    Event("DialogSent", "the next message of a dialog goes out", "conns", "(k n0 : ℕ) (m : Message)",
        conns="(put conns k (send_up (conns k) ForDialog m n0))"),
    Event("Bound", "a further channel is ready", "stage", "(k : ℕ)", c="(bind_channel c k)"),
    Event("Readied", "a session is ready", "live session session_number sequence stage", "(k : ℕ) (r : Reply)",
          [("asked", "c.stage k ≡ AskedTree"), ("ranked", "0 < c.rank c.pending"), ("_alone", "(j : ℕ) → j ≢ k → c.stage j ≢ AskedTree"),
           ("_numbered", "(q : ℕ) → c.attached q ≤ c.session_number"),
           ("_none", "(j n : ℕ) (y : Received) → slice_get (conns j).down n ≡ Some y → is_ops y.token ≡ false"),
           ("_gone", "(j n : ℕ) (x : Sent) → slice_get (conns j).up n ≡ Some x → is_ops x.token ≡ true "
               "→ x.message.session_id ≢ c.pending × s.present x.message.session_id ≡ false")],
          c="(begin_session c k c.pending r.tree_id)",
          parts={
              "lost_dead": "λ p gu. absurd (i.lost_asked p k c.pending asked gu refl)",
              "session_asked": "λ j sg e. let u = unput c.stage k Apart j AskedTree (λ z. absurd (cc)) sg in absurd (alone j u.0 u.1)",
              "pairwise": "λ p q lt st e1 e2 cr u1 u2. i.pairwise p q lt st e1 e2 cr (begun_was (c.outcome p) "
                  "(c.given_up p) c.pending (is_at c.session (c.given_up p)) (λ gu. i.lost_asked p k c.pending asked "
                  "gu refl) u1) (begun_was (c.outcome q) (c.given_up q) c.pending (is_at c.session (c.given_up q)) "
                  "(λ gu. i.lost_asked q k c.pending asked gu refl) u2)",
              "cut_seq": "λ j n p x h e ed op lv se. absurd ((gone j n x h (ops_of x.token p e)).0 se)",
              "older": "λ j n i p x h e ed as_ on ne se. absurd ((gone j n x h (ops_of x.token p e)).0 se)",
              "now_pair": "λ q at lv. absurd (let n = numbered q in omega (arith, n, at))",
              "create_reply": "λ j n p y h e. absurd (let z = none j n y h in let w = ops_of y.token p e in grind arith)",
              "attach_reply": "λ j n p y h e. absurd (let z = none j n y h in let w = attach_of y.token p e in grind arith)",
              "reached": "λ j n p y h e. absurd (let z = none j n y h in let w = ops_of y.token p e in grind arith)",
              "stale_reply": "λ j n p y h e. absurd (let z = none j n y h in let w = ops_of y.token p e in grind arith)",
              "session_seq": "λ o lv at. absurd (i.pending_at o k asked at)",
              "live_unsettled": "λ j n p x h e ed fm sd pr le. absurd (let z = (gone j n x h (ops_of x.token p e)).1 in grind arith)",
              "shows": "λ p ed iso sd pe so. i.shows p ed iso sd (begun_was (c.outcome p) (c.given_up p) c.pending "
                  "(is_at c.session (c.given_up p)) (λ gu. i.lost_asked p k c.pending asked gu refl) pe) so",
          }),
    Event("Cut", "a ready channel is cut", "sequence outstanding_on unanswered conns", "(k : ℕ)",
          [("_mine", "(n p : ℕ) (x : Sent) → slice_get (conns k).up n ≡ Some x → x.token ≡ ForOp p "
              "→ (conns k).client_open ≡ true → c.outstanding_on p ≡ Some k × c.asks_attach p ≡ false"),
           ("_upto", "(j n : ℕ) (x : Sent) → slice_get (conns j).up n ≡ Some x → x.message.session_id ≡ c.session "
               "→ c.live ≡ true → x.message.channel_sequence ≤ c.sequence")],
          c="(cut_channel c k)", conns="(put conns k (client_off (conns k)))",
          parts={
              "first_up": "λ j n p x h e ed b. " + HERE_UP + "let my = mine n p x in let old = i.first_up j n p x h' e ed in grind arith",
              "cut_seq": "λ j n p x h e ed op lv se. " + HERE_UP
                  + "let old = i.cut_seq j n p x h' e ed in let most = upto j n x h' se lv in grind arith",
          }),
    Event("Leave", "the session ends", "live stage outstanding_on unanswered outcome given_up conns", "",
        [("_mine", "(j n p : ℕ) (x : Sent) → slice_get (conns j).up n ≡ Some x → x.token ≡ ForOp p "
        "→ (conns j).client_open ≡ true → c.outstanding_on p ≡ Some j × c.asks_attach p ≡ false"),
           ("_gone", "(j n p : ℕ) (x : Sent) → slice_get (conns j).up n ≡ Some x → x.token ≡ ForOp p → c.sent p ≡ true")],
               c="(end_session c)", conns="(λ q. client_off (conns q))",
          parts={
              "lost_unknown": "λ p z. left_lost c p z (c.outcome p) (c.given_up p) (i.lost_unknown p z)",
              "lost_known": "λ p z. let old = i.lost_known p z in let known = i.session_known in grind arith",
              "first_up": "λ j n p x h e ed b. " + HERE_UP + "let my = mine j n p x in let old = i.first_up j n p x h' e ed in grind arith",
              "live_unsettled": "λ j n p x h e ed fm sd pr le. " + HERE_UP + "left_on c p (c.outcome p) (c.given_up p) "
                  "(gone j n p x h' e) (i.live_unsettled j n p x h' e ed fm sd pr le)",
              "pairwise": "λ p q lt st e1 e2 cr u1 u2. i.pairwise p q lt st e1 e2 cr (left_was c p (c.outcome p) "
                  "(c.given_up p) u1) (left_was c q (c.outcome q) (c.given_up q) u2)",
              "shows": "λ p ed iso sd pe so. i.shows p ed iso sd (left_was c p (c.outcome p) (c.given_up p) pe) so",
              "open_of": "λ q mk o. i.open_of q mk ((left_firm c q (c.outcome q)).1 o)",
              "by_some": "λ p f. i.by_some p ((left_firm c p (c.outcome p)).0 f)",
          }),
    Event("Answered", "an operation is answered and isn't settled", "outstanding_on", "(g : ℕ)",
          [("_idle", "edits (c.op g) ≡ true → c.unanswered g ≡ false → c.asks_attach g ≡ false → l.first g ≡ None")], c="(answered c g)",
          parts={
              "unacted": "λ p ed b no un. let old = i.unacted p ed b in let id = idle in grind arith",
          }),
    Event("Joined", "a DH2C attached its open", "outstanding_on attached", "(g : ℕ)",
          [("asks", "c.asks_attach g ≡ true"), ("_pair", "Pair s c.session 0 (file_at c g) × file_at c g ≤ last_id s"),
              ("named", "create_for c g ≡ create_at c g")], c="(joined c g)",
          parts={
              "now_pair": "λ q. elim (q == create_for c g) as (λ b. q == create_for c g ≡ b "
                  "→ put c.attached (create_for c g) c.session_number q ≡ c.session_number → c.live ≡ true "
                  "→ Pair s c.session 0 (c.file q) × c.file q ≤ last_id s) [ true ↦ λ z at lv. subst (λ r. Pair s "
                  "c.session 0 (c.file r) × c.file r ≤ last_id s) (sym (eqb-true _ _ z ∙ named)) pair " "| false ↦ λ z "
                  "at lv. i.now_pair q (sym (put_other c.attached (create_for c g) c.session_number q "
                  "(eqb-false _ _ z)) ∙ at) lv ] refl",
          }),
    Event("Opens", "a create that is outstanding names its open", "file attached", "(g id : ℕ)",
          [("pending", "is_unsettled (c.outcome g) ≡ true"), ("_pair", "Pair s c.session 0 id × id ≤ last_id s"),
           ("_asked_up", "(j n p : ℕ) (x : Sent) → slice_get (conns j).up n ≡ Some x → x.token ≡ ForAttach p "
               "→ create_at c p ≢ g"), ("_mine_up", "(j n p : ℕ) (x : Sent) → slice_get (conns j).up n ≡ Some x "
               "→ x.token ≡ ForOp p → edits (c.op p) ≡ true → create_at c p ≢ g"),
           ("_mine_down", "(j n p : ℕ) (y : Received) → slice_get (conns j).down n ≡ Some y → y.token ≡ ForOp p "
               "→ edits (c.op p) ≡ true → create_at c p ≢ g"),
           ("_mine_ask", "(j n p : ℕ) (y : Received) → slice_get (conns j).down n ≡ Some y → y.token ≡ ForAttach p → create_at c p ≢ g"),
           ("_acted", "(p : ℕ) → edits (c.op p) ≡ true → is_some (l.first p) ≡ true → create_at c p ≢ g")],
          c="(record c { file = put c.file g id; attached = put c.attached g c.session_number })",
          parts={
              "asked_as": "λ j n p x h e. let old = i.asked_as j n p x h e in (old.0, subst "
                  "(λ f. x.message.command ≡ reconnect_of (c.op (create_at c p)) (guid_for c (create_at c p)) f) "
                  "(sym (put_other c.file g id (create_at c p) (asked_up j n p x h e))) old.1)",
              "copy_pair": "λ j n p x h e ed. subst (λ f. Pair s x.message.session_id 0 f × f ≤ last_id s) "
                  "(sym (put_other c.file g id (create_at c p) (mine_up j n p x h e ed))) (i.copy_pair j n p x h e ed)",
              "now_pair": "λ q. elim (q == g) as (λ b. q == g ≡ b → put c.attached g c.session_number "
                  "q ≡ c.session_number → c.live ≡ true → Pair s c.session 0 (put c.file g id q) "
                  "× put c.file g id q ≤ last_id s) [ true ↦ λ z at lv. subst (λ f. Pair s c.session 0 f " "× f ≤ "
                  "last_id s) (sym (put_self c.file g id) ∙ ap (put c.file g id) (sym (eqb-true _ _ z))) pair " "| "
                  "false ↦ λ z at lv. subst (λ f. Pair s c.session 0 f × f ≤ last_id s) (sym (put_other c.file g id "
                  "q (eqb-false _ _ z))) (i.now_pair q (sym (put_other c.attached g c.session_number q "
                  "(eqb-false _ _ z)) ∙ at) lv) ] refl",
              "attach_reply": "λ j n p y h e st. subst (λ f. Pair s c.session 0 f × f ≤ last_id s) "
                  "(sym (put_other c.file g id (create_at c p) (mine_ask j n p y h e))) (i.attach_reply j n p y h e st)",
              "reached": "λ j n p y h e ed fm fin. subst (λ f. Pair s c.session (c.sequence_of p) f × f ≤ last_id s) "
                  "(sym (put_other c.file g id (create_at c p) (mine_down j n p y h e ed))) (i.reached j n p y h e ed "
                  "fm fin)",
              "closed_reply": "λ j n p y h e ed st. subst (λ f. s.standing f ≡ false × f ≤ last_id s) "
                  "(sym (put_other c.file g id (create_at c p) (mine_down j n p y h e ed))) (i.closed_reply j n p y h "
                  "e ed st)",
              "attach_refused": "λ j n p y h e ed s1 s2. subst (λ f. s.standing f ≡ false × f ≤ last_id s) "
                  "(sym (put_other c.file g id (create_at c p) (mine_ask j n p y h e))) (i.attach_refused j n p y h e "
                  "ed s1 s2)",
              "live_unsettled": "λ j n p x h e ed. let ne = put_other c.file g id (create_at c p) (mine_up j n p x h e "
                  "ed) in subst (λ f. formed (c.op p) ≡ true → s.standing f ≡ true "
                  "→ s.present x.message.session_id ≡ true → s.sequence f ≤ x.message.channel_sequence "
                  "→ pends c p ≡ true) (sym ne) (i.live_unsettled j n p x h e ed)",
              "live_replay": "λ j n p x h e ed. let ne = put_other c.file g id (create_at c p) (mine_up j n p x h e "
                  "ed) in subst (λ f. s.standing f ≡ true → s.present x.message.session_id ≡ true " "→ s.sequence "
                  "f ≤ x.message.channel_sequence → is_some (l.first p) ≡ true → x.message.replay ≡ true) "
                  "(sym ne) (i.live_replay j n p x h e ed)",
              "shows": "λ p ed iso sd pe so. let ne = put_other c.file g id (create_at c p) (acted p ed so) in subst "
                  "(λ f. s.standing f ≡ true → bytes_after (c.op p) (s.content (s.opened f).file) ≡ s.content "
                  "(s.opened f).file) (sym ne) (λ sd2. i.shows p ed iso sd2 pe so) sd",
          }),
    Event("Settle", "a reply settles its operation", "outcome outstanding_on settled_by", "(g place : ℕ) (out : Outcome)",
          [("pending", "is_unsettled (c.outcome g) ≡ true"), ("above", "0 < g"), ("firm", "is_unsettled out ≡ false"),
              ("within", "place < l.places"), ("who", "l.who place ≡ g"), ("since", "l.since g ≤ place"),
           ("_ok", "(v : ContentReply) → lists (c.op g) ≡ true → settlement (c.op g) out ≡ Settled_ok v → l.gave place ≡ Says_ok v"),
           ("_end", "settlement (c.op g) out ≡ Settled_end → l.gave place ≡ Says_end"),
           ("_made", "makes_open (c.op g) ≡ true → is_ok out ≡ true → t.open_of g ≡ Some (c.file g)"),
           ("_dead", "(j n : ℕ) (x : Sent) → slice_get (conns j).up n ≡ Some x → x.token ≡ ForOp g "
               "→ edits (c.op g) ≡ true → formed (c.op g) ≡ true → s.standing (file_at c g) ≡ true "
               "→ s.present x.message.session_id ≡ true → s.sequence (file_at c g) ≤ x.message.channel_sequence → ⊥")],
          c="(settled_by c g out place)",
          parts={
              "live_unsettled": "λ j n p x h e ed fm sd pr le. elim (p == g) as (λ b. p == g ≡ b "
                  "→ may_act (put c.outcome g out p) (is_at c.session (c.given_up p)) ≡ true) [ true ↦ λ z. absurd "
                  "(subst (λ r. x.token ≡ ForOp r → edits (c.op r) ≡ true → formed (c.op r) ≡ true "
                  "→ s.standing (file_at c r) ≡ true → s.present x.message.session_id ≡ true " "→ s.sequence (file_at "
                  "c r) ≤ x.message.channel_sequence → ⊥) (sym (eqb-true _ _ z)) (dead j n x h) "
                  "e ed fm sd pr le) | false ↦ λ z. subst (λ o. may_act o (is_at c.session (c.given_up p)) ≡ true) "
                  "(sym (put_other c.outcome g out p (eqb-false _ _ z))) (i.live_unsettled j n p x h e ed fm sd pr le) "
                  "] refl",
              "open_of": "λ q mk o. let old = i.open_of q mk in let md = made in grind arith",
              "by_ok": "λ p n v ls b st. elim (p == g) as (λ r. p == g ≡ r → l.gave n ≡ Says_ok v) [ true ↦ λ z. "
                  "let pg : p ≡ g = eqb-true p g z in let np : place ≡ n = grind arith in subst "
                  "(λ r. l.gave r ≡ Says_ok v) np (ok v (subst (λ r. lists (c.op r) ≡ true) pg ls) (grind arith)) "
                  "| false ↦ λ z. let ne = eqb-false _ _ z in let a1 = put_other c.outcome g out p ne in "
                  "let a2 = put_other c.settled_by g (Some place) p ne in i.by_ok p n v ls (sym a2 "
                  "∙ b) (subst (λ o. settlement (c.op p) o ≡ Settled_ok v) a1 st) ] refl",
              "by_end": "λ p n b st. elim (p == g) as (λ r. p == g ≡ r → l.gave n ≡ Says_end) [ true ↦ λ z. "
                  "let pg : p ≡ g = eqb-true p g z in let np : place ≡ n = grind arith in " "let st' : settlement "
                  "(c.op g) out ≡ Settled_end = subst (λ o. settlement (c.op g) o ≡ Settled_end) " "(put_self "
                  "c.outcome g out) (subst (λ r. settlement (c.op r) (put c.outcome g out r) ≡ Settled_end) " "pg st) "
                  "in subst (λ r. l.gave r ≡ Says_end) np (end st') | false ↦ λ z. let ne = eqb-false _ _ z in "
                  "let a1 = put_other c.outcome g out p ne in let a2 = put_other c.settled_by g (Some place) p ne "
                  "in i.by_end p n (sym a2 ∙ b) (subst (λ o. settlement (c.op p) o ≡ Settled_end) a1 st) ] refl",
              "prior_by": "λ p q n pr b. let old = i.prior_by p q n pr in let f = i.prior p q pr in "
                  "let fs = firm_settled (c.outcome q) f.1 in grind arith",
          }),
    Event("Finished", "no session can be had", "outcome given_up", "(why : Why)", [("dead", "c.live ≡ false")], c="(finish c why)",
          parts={
              "lost_known": "λ p z. let old = i.lost_known p z in let known = i.session_known in grind arith",
              "lost_asked": "λ p j z. let old = i.lost_asked p j z in let known = i.session_asked j in grind arith",
              "pairwise": "λ p q lt st e1 e2 cr u1 u2. i.pairwise p q lt st e1 e2 cr (finished_was (is_taken c p) why "
                  "c.session (c.outcome p) (c.given_up p) u1) (finished_was (is_taken c q) why c.session (c.outcome q) "
                  "(c.given_up q) u2)",
              "shows": "λ p ed iso sd pe so. i.shows p ed iso sd (finished_was (is_taken c p) why c.session "
                  "(c.outcome p) (c.given_up p) pe) so",
          }),
    Event("Send", "an operation goes out itself", "outstanding_on asks_attach sequence_of conns", "(k g n0 : ℕ) (m : Message)",
          [("stands", "(conns k).client_open ≡ true"), ("none", "c.outstanding_on g ≡ None"), ("above", "0 < g"),
              ("within", "g ≤ c.taken"), ("pending", "is_unsettled (c.outcome g) ≡ true"), ("live", "c.live ≡ true"),
           ("session", "m.session_id ≡ c.session"), ("sequence", "m.channel_sequence ≡ c.sequence"),
               ("opens", "(makes_open (c.op g) || is_ok (c.outcome (create_at c g))) ≡ true"),
               ("_replay", "edits (c.op g) ≡ true → m.replay ≡ c.unanswered g"),
           ("_pair", "edits (c.op g) ≡ true → Pair s c.session 0 (file_at c g) × file_at c g ≤ last_id s"),
           ("_quiet", "(j n : ℕ) (y : Received) → slice_get (conns j).down n ≡ Some y → y.token ≢ ForOp g"),
           ("_off", "(j n : ℕ) (x : Sent) → slice_get (conns j).up n ≡ Some x → x.token ≡ ForOp g → (conns j).client_open ≡ false"),
           ("_idle", "edits (c.op g) ≡ true → c.unanswered g ≡ false → l.first g ≡ None")],
          c="(put_out c k g)", conns="(put conns k (send_up (conns k) (ForOp g) m n0))",
          parts={
              "opens_up": "λ j n x. let old = i.opens_up j n x in let op = opens in grind (arith, get-push)",
              "first_up": "λ j n p x. let old = i.first_up j n p x in let id = idle in grind (arith, get-push)",
              "open_seq": "λ j n p x. let old = i.open_seq j n p x in let of = off j n x in grind (arith, get-push)",
              "older": "λ j n i p x. let old = i.older j n i p x in let of = off j n x in "
                  "let cut = i.cut_seq j n p x in grind (arith, get-push)",
              "no_replay": "λ j n i q p u x. let old = i.no_replay j n i q p u x in let o1 = off j n u in "
                  "let o2 = off i q x in let c1 = i.cut_seq j n p u in let f1 = i.first_up i q p x in "
                  "let rp = replay in grind (arith, get-push)",
              "copy_pair": "λ j n p x h e ed. or_else (sent_up conns k (ForOp g) m n0 j n x h) (λ o. i.copy_pair j n p "
                  "x o e ed) (λ z. let pg : p ≡ g = grind arith in let sx : x.message.session_id ≡ c.session = grind "
                  "arith in let f = pair (subst (λ r. edits (c.op r) ≡ true) pg ed) in subst (λ r. Pair s r 0 "
                  "(file_at c p) × file_at c p ≤ last_id s) (sym sx) (subst (λ r. Pair s c.session 0 (file_at c r) "
                  "× file_at c r ≤ last_id s) (sym pg) f))",
              "reached": "λ j n p y h e ed fm fin. let h' : slice_get (conns j).down n ≡ Some y = grind arith in "
                  "let ne : p ≢ g = (λ z. quiet j n y h' (e ∙ ap ForOp z)) in subst (λ r. Pair s c.session r "
                  "(file_at c p) × file_at c p ≤ last_id s) (sym (put_other c.sequence_of g c.sequence p ne)) "
                  "(i.reached j n p y h' e ed fm fin)",
              "stale_reply": "λ j n p y h e ed st. let h' : slice_get (conns j).down n ≡ Some y = grind arith in "
                  "let ne : p ≢ g = (λ z. quiet j n y h' (e ∙ ap ForOp z)) in subst (λ r. r < c.sequence) "
                  "(sym (put_other c.sequence_of g c.sequence p ne)) (i.stale_reply j n p y h' e ed st)",
              "live_replay": "λ j n p x. let old = i.live_replay j n p x in let id = idle in let rp = replay in grind (arith, get-push)",
          }),
    Event("Ask", "a DH2C goes out in an operation's place", "outstanding_on asks_attach conns", "(k g n0 : ℕ) (m : Message)",
          [("none", "c.outstanding_on g ≡ None"), ("above", "0 < g"), ("within", "g ≤ c.taken"),
              ("other", "makes_open (c.op g) ≡ false"),
              ("command", "m.command ≡ reconnect_of (c.op (create_at c g)) (guid_for c (create_at c g)) (file_at c g)"),
              ("opens", "(makes_open (c.op g) || is_ok (c.outcome (create_at c g))) ≡ true")], c="(asked c k g)",
              conns="(put conns k (send_up (conns k) (ForAttach g) m n0))", parts={
              "asked_as": "λ j n p x h e. or_else (sent_up conns k (ForAttach g) m n0 j n x h) (λ o. i.asked_as j n p "
                  "x o e) (λ z. let gp : g ≡ p = grind arith in let mx : x.message ≡ m = ap (λ (y : Sent). y.message) "
                  "z in subst (λ r. makes_open (c.op r) ≡ false × x.message.command ≡ reconnect_of " "(c.op (create_at "
                  "c r)) (guid_for c (create_at c r)) (file_at c r)) gp (other, ap (λ (y : Message). "
                  "y.command) mx ∙ command))",
                  "opens_up": "λ j n x. let old = i.opens_up j n x in let op = opens in grind (arith, get-push)"}),
    Event("Moved", "the server moves without a message", "server", "(u : Server)",
        [("go", "Moves c.rank s u"), ("_ranked", "(j n : ℕ) (x : Sent) → slice_get (conns j).up n ≡ Some x "
        "→ is_ops x.token ≡ true → 0 < c.rank x.message.session_id"),
           ("_current", "(j n : ℕ) (y : Received) → slice_get (conns j).down n ≡ Some y → is_ops y.token ≡ true "
               "→ 0 < c.rank c.session"), ("_alive", "c.live ≡ true → 0 < c.rank c.session")], s="u",
          parts={
              "copy_pair": "λ j n p x h e ed. let old = i.copy_pair j n p x h e ed in let z = old.1 in "
                  "let up = go.steps.ids in (go.steps.pair x.message.session_id 0 (file_at c p) (ranked j n x h "
                  "(ops_of x.token p e)) old.1 old.0, omega (arith, z, up))",
              "now_pair": "λ q at lv. let old = i.now_pair q at lv in let z = old.1 in "
                  "let up = go.steps.ids in (go.steps.pair c.session 0 (c.file q) (alive lv) old.1 old.0, omega "
                  "(arith, z, up))",
              "create_reply": "λ j n p y h e mk st. let old = i.create_reply j n p y h e mk st in let z = old.1 in "
                  "let up = go.steps.ids in (go.steps.pair c.session 0 (id_in y.reply.body) (current j n y h "
                  "(ops_of y.token p e)) old.1 old.0, omega (arith, z, up), old.2)",
              "attach_reply": "λ j n p y h e st. let old = i.attach_reply j n p y h e st in let z = old.1 in "
                  "let up = go.steps.ids in (go.steps.pair c.session 0 (file_at c p) (current j n y h "
                  "(attach_of y.token p e)) old.1 old.0, omega (arith, z, up))",
              "reached": "λ j n p y h e ed fm fin. let old = i.reached j n p y h e ed fm fin in let z = old.1 in "
                  "let up = go.steps.ids in (go.steps.pair c.session (c.sequence_of p) (file_at c p) (current j n y h "
                  "(ops_of y.token p e)) old.1 old.0, omega (arith, z, up))",
              "closed_reply": "λ j n p y h e ed st. let old = i.closed_reply j n p y h e ed st in let z = old.1 in "
                  "let up = go.steps.ids in (still_gone (u.standing (file_at c p)) (s.standing (file_at c p)) "
                  "(go.steps.stands (file_at c p) old.1) old.0, omega (arith, z, up))",
              "attach_refused": "λ j n p y h e ed s1 s2. let old = i.attach_refused j n p y h e ed s1 s2 in "
                  "let z = old.1 in let up = go.steps.ids in (still_gone (u.standing (file_at c p)) (s.standing "
                  "(file_at c p)) (go.steps.stands (file_at c p) old.1) old.0, omega (arith, z, up))",
              "session_seq": "λ o lv at. let m = go.session_of_open o c.session at in let old = i.session_seq o lv m.0 "
                  "in let z = m.1 in omega (arith, old, z)",
              "pending_at": "λ o j sg e. i.pending_at o j sg (go.session_of_open o c.pending e).0",
              "live_unsettled": "λ j n p x h e ed fm sd pr le. let r = ranked j n x h (ops_of x.token p e) in "
                  "let cp = i.copy_pair j n p x h e ed in let b = live_back c.rank s u x.message.session_id "
                  "x.message.channel_sequence (file_at c p) go.steps r cp.1 cp.0 sd pr le in i.live_unsettled j n p x "
                  "h e ed fm b.0 b.1 b.2",
              "live_replay": "λ j n p x h e ed sd pr le. let r = ranked j n x h (ops_of x.token p e) in "
                  "let cp = i.copy_pair j n p x h e ed in let b = live_back c.rank s u x.message.session_id "
                  "x.message.channel_sequence (file_at c p) go.steps r cp.1 cp.0 sd pr le in i.live_replay j n p x h e "
                  "ed b.0 b.1 b.2",
              "shows": "λ p ed iso sd pe so. let g = go.given (file_at c p) sd in "
                  "let st = go.steps.stands (file_at c p) g sd in let row = go.steps.row (file_at c p) g sd in subst "
                  "(λ f. bytes_after (c.op p) (f (u.opened (file_at c p)).file) ≡ f (u.opened (file_at c p)).file) "
                  "(sym go.content) (subst (λ r. bytes_after (c.op p) (s.content r.file) ≡ s.content r.file) (sym row) "
                  "(i.shows p ed iso st pe so))",
              "denied": "λ o p so sp ne fe dn. let go1 = go.given o so in let gp = go.given p sp in "
                  "let ro = go.steps.row o go1 so in let rp = go.steps.row p gp sp in "
                  "let old = i.denied o p (go.steps.stands o go1 so) (go.steps.stands p gp sp) ne in grind arith",
              "named_open": "λ q o e. i.named_open q o (go.guid c.who.guid (guid_for c q) o e)",
              "open_given": "λ q o e. let old = i.open_given q o e in let z = old.0 in "
                  "let up = go.steps.ids in (omega (arith, z, up), old.1, old.2)",
              "open_row": "λ q o e st. let g = i.open_given q o e in let row = go.steps.row o g.0 st in "
                  "let old = i.open_row q o e (go.steps.stands o g.0 st) in subst (λ r. r.create_guid ≡ Some "
                  "(guid_for c q) × r.client_guid ≡ c.who.guid × r.share ≡ share_of (c.op q)) (sym row) old",
              "bytes": "λ q o e st. let g = go.given o st in let row = go.steps.row o g st in i.bytes q o e "
                  "(go.steps.stands o g st) ∙ (ap (λ r. s.content r.file) (sym row) ∙ ap (λ f. f (u.opened o).file) "
                  "(sym go.content))",
          }),
    said_event(),
]
