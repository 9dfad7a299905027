"""What law_contents_absorb.py writes of each part: what its lemma needs (a name and a type each), and its proof."""

PARTS = {
    "token_up": (
        [
            ("is", "(conns k).up ≡ x0 ∷ rest"),
        ],
        """λ j n x h. let o = waited conns k x0 rest j n x is h in i.token_up j o.0 x o.1""",
    ),
    "opens_up": (
        [
            ("is", "(conns k).up ≡ x0 ∷ rest"),
        ],
        """λ j n x h. let o = waited conns k x0 rest j n x is h in i.opens_up j o.0 x o.1""",
    ),
    "token_down": (
        [],
        """λ j n y h. i.token_down j n y (was_down conns k rest j n y h)""",
    ),
    "first_up": (
        [
            ("is", "(conns k).up ≡ x0 ∷ rest"),
            ("once", "Once conns"),
            ("out", "ConnOutstanding c conns"),
        ],
        """λ j n p x h e ed b. let o = waited conns k x0 rest j n x is h in let old = i.first_up j o.0 p x o.1 e ed b in
      ((open_as_before conns k rest j).0 ∙ old.0,
      first_none c t l x0 A p old.1 (λ z a. let fr = i.first_up k 0 p x0 (front_up (conns k).up x0 rest is) z ed b in
      let tk = (i.token_up j o.0 x o.1 (ops_of x.token p e)).0 in let above = subst (λ g. 0 < g) (ap op_of e) tk in
      apart_of conns k x0 rest j n p x once is z h e (some_same j k (sym (out j p old.0 (copies_up conns j o.0 p x o.1
      e) above) ∙ front_on c conns k x0 rest p out is z fr.0 above))))""",
    ),
    "unacted": (
        [
            ("is", "(conns k).up ≡ x0 ∷ rest"),
            ("out", "ConnOutstanding c conns"),
            ("own", "OwnUp c conns"),
        ],
        """λ p ed b no un. first_none c t l x0 A p (i.unacted p ed b no un) (λ z a. let f0 = front_up (conns k).up x0 rest
      is in let fr = i.first_up k 0 p x0 f0 z ed b in
      let above = subst (λ g. 0 < g) (ap op_of z) (i.token_up k 0 x0 f0 (ops_of x0.token p z)).0 in let on = front_on c
      conns k x0 rest p out is z fr.0 above in let ak = own k 0 p x0 f0 fr.0 z in absurd (grind arith))""",
    ),
    "fresh_first": (
        [
            ("is", "(conns k).up ≡ x0 ∷ rest"),
            ("bodies", "Bodies c conns"),
        ],
        """λ p u. let old = i.fresh_first p u in (first_none c t l x0 A p old.0 (λ z a. absurd (let b = (bodies k 0 p x0
      (front_up (conns k).up x0 rest is) z).0 in grind arith)), old.1)""",
    ),
    "not_done": (
        [
            ("is", "(conns k).up ≡ x0 ∷ rest"),
            ("once", "Once conns"),
            ("out", "ConnOutstanding c conns"),
            ("dopen", "DownOpen conns"),
        ],
        """λ j n p y h e ed st b. let h' = was_down conns k rest j n y h in first_none c t l x0 A p (i.not_done j n p y h' e
      ed st b) (λ z a. let f0 = front_up (conns k).up x0 rest is in let fr = i.first_up k 0 p x0 f0 z ed b in
      let above = subst (λ g. 0 < g) (ap op_of e) (i.token_down j n y h' (ops_of y.token p e)).0 in let on = front_on c
      conns k x0 rest p out is z fr.0 above in
      reply_twin conns k x0 rest j n p y once is z h' e (some_same j k (sym (out j p (down_is_open conns dopen j n y
      h') (copies_down conns j n p y h' e) above) ∙ on)))""",
    ),
    "cut_seq": (
        [
            ("is", "(conns k).up ≡ x0 ∷ rest"),
        ],
        """λ j n p x h e ed op lv se. let o = waited conns k x0 rest j n x is h in i.cut_seq j o.0 p x o.1 e ed (sym
      (open_as_before conns k rest j).0 ∙ op) lv se""",
    ),
    "open_seq": (
        [
            ("is", "(conns k).up ≡ x0 ∷ rest"),
        ],
        """λ j n p x h e ed op. let o = waited conns k x0 rest j n x is h in i.open_seq j o.0 p x o.1 e ed (sym
      (open_as_before conns k rest j).0 ∙ op)""",
    ),
    "older": (
        [
            ("is", "(conns k).up ≡ x0 ∷ rest"),
        ],
        """λ j n m p x h. let o = waited conns k x0 rest j n x is h in i.older j o.0 m p x o.1""",
    ),
    "no_replay": (
        [
            ("is", "(conns k).up ≡ x0 ∷ rest"),
        ],
        """λ j n m q p u x h h2. let o = waited conns k x0 rest j n u is h in let o2 = waited conns k x0 rest m q x is h2 in
      i.no_replay j o.0 m o2.0 p u x o.1 o2.1""",
    ),
    "copy_pair": (
        [
            ("is", "(conns k).up ≡ x0 ∷ rest"),
            ("w", "Taking c s t x0 A"),
            (
                "ranked",
                "(j n : ℕ) (x : Sent) → slice_get (conns j).up n ≡ Some x → is_ops x.token ≡ true → 0 < c.rank "
                "x.message.session_id",
            ),
        ],
        """λ j n p x h e ed. let o = waited conns k x0 rest j n x is h in let old = i.copy_pair j o.0 p x o.1 e ed in let z
      = old.1 in let up = w.steps.ids in (w.steps.pair x.message.session_id 0 (file_at c p) (ranked j o.0 x o.1 (ops_of
      x.token p e)) old.1 old.0, omega (arith, z, up))""",
    ),
    "now_pair": (
        [
            ("w", "Taking c s t x0 A"),
            ("alive", "c.live ≡ true → 0 < c.rank c.session"),
        ],
        """λ q at lv. let old = i.now_pair q at lv in let z = old.1 in let up = w.steps.ids in (w.steps.pair c.session 0
      (c.file q) (alive lv) old.1 old.0, omega (arith, z, up))""",
    ),
    "create_reply": (
        [
            ("w", "Taking c s t x0 A"),
            (
                "current",
                "(j n : ℕ) (y : Received) → slice_get (conns j).down n ≡ Some y → is_ops y.token ≡ true → 0 < c.rank "
                "c.session",
            ),
        ],
        """λ j n p y h e mk st. let h' = was_down conns k rest j n y h in let old = i.create_reply j n p y h' e mk st in let
      z = old.1 in let up = w.steps.ids in (w.steps.pair c.session 0 (id_in y.reply.body) (current j n y h' (ops_of
      y.token p e)) old.1 old.0, omega (arith, z, up), open_kept c t l x0 A p (id_in y.reply.body) w.remade old.2)""",
    ),
    "attach_reply": (
        [
            ("w", "Taking c s t x0 A"),
            (
                "current",
                "(j n : ℕ) (y : Received) → slice_get (conns j).down n ≡ Some y → is_ops y.token ≡ true → 0 < c.rank "
                "c.session",
            ),
        ],
        """λ j n p y h e st. let h' = was_down conns k rest j n y h in let old = i.attach_reply j n p y h' e st in let z =
      old.1 in let up = w.steps.ids in (w.steps.pair c.session 0 (file_at c p) (current j n y h' (attach_of y.token p
      e)) old.1 old.0, omega (arith, z, up))""",
    ),
    "reached": (
        [
            ("w", "Taking c s t x0 A"),
            (
                "current",
                "(j n : ℕ) (y : Received) → slice_get (conns j).down n ≡ Some y → is_ops y.token ≡ true → 0 < c.rank "
                "c.session",
            ),
        ],
        """λ j n p y h e ed fm fin. let h' = was_down conns k rest j n y h in let old = i.reached j n p y h' e ed fm fin in
      let z = old.1 in let up = w.steps.ids in (w.steps.pair c.session (c.sequence_of p) (file_at c p) (current j n y h'
      (ops_of y.token p e)) old.1 old.0, omega (arith, z, up))""",
    ),
    "closed_reply": (
        [
            ("w", "Taking c s t x0 A"),
        ],
        """λ j n p y h e ed st. let h' = was_down conns k rest j n y h in let old = i.closed_reply j n p y h' e ed st in let
      z = old.1 in let up = w.steps.ids in (still_gone (A.server.standing (file_at c p)) (s.standing (file_at c p))
      (w.steps.stands (file_at c p) old.1) old.0, omega (arith, z, up))""",
    ),
    "attach_refused": (
        [
            ("w", "Taking c s t x0 A"),
        ],
        """λ j n p y h e ed s1 s2. let h' = was_down conns k rest j n y h in let old = i.attach_refused j n p y h' e ed s1
      s2 in let z = old.1 in let up = w.steps.ids in (still_gone (A.server.standing (file_at c p)) (s.standing (file_at
      c p)) (w.steps.stands (file_at c p) old.1) old.0, omega (arith, z, up))""",
    ),
    "stale_reply": (
        [],
        """λ j n p y h. i.stale_reply j n p y (was_down conns k rest j n y h)""",
    ),
    "attach_status": (
        [],
        """λ j n p y h. i.attach_status j n p y (was_down conns k rest j n y h)""",
    ),
    "since_reply": (
        [],
        """λ j n y h. i.since_reply j n y (was_down conns k rest j n y h)""",
    ),
    "session_seq": (
        [
            ("w", "Taking c s t x0 A"),
        ],
        """λ o lv at. by_side o lv (w.session_of_open o c.session at)
      where
      by_side : (o : ℕ) → c.live ≡ true → (s.session_of_open o ≡ Some c.session × A.server.sequence o ≤ s.sequence o) ⊎ (A.reached ≡
      Some o × c.session ≡ x0.message.session_id × A.server.sequence o ≤ x0.message.channel_sequence) → A.server.sequence o ≤
      c.sequence
      by_side o lv (inl e) = let old = i_session_seq o lv e.0 in let z = e.1 in omega (arith, old, z)
      by_side o lv (inr e) = let up = w.upto lv (sym e.1) in let z = e.2 in omega (arith, up, z)""",
    ),
    "pending_at": (
        [
            ("w", "Taking c s t x0 A"),
        ],
        """λ o j sg e. by_side o j sg (w.session_of_open o c.pending e)
      where
      by_side : (o j : ℕ) → c.stage j ≡ AskedTree → (s.session_of_open o ≡ Some c.pending × A.server.sequence o ≤ s.sequence o) ⊎
      (A.reached ≡ Some o × c.pending ≡ x0.message.session_id × A.server.sequence o ≤ x0.message.channel_sequence) → ⊥
      by_side o j sg (inl e) = i_pending_at o j sg e.0
      by_side o j sg (inr e) = w.fresh (w.ops o e.0) j sg (sym e.1)""",
    ),
    "live_unsettled": (
        [
            ("is", "(conns k).up ≡ x0 ∷ rest"),
            ("w", "Taking c s t x0 A"),
            (
                "ranked",
                "(j n : ℕ) (x : Sent) → slice_get (conns j).up n ≡ Some x → is_ops x.token ≡ true → 0 < c.rank "
                "x.message.session_id",
            ),
        ],
        """λ j n p x h e ed fm sd pr le. let o = waited conns k x0 rest j n x is h in let cp = i.copy_pair j o.0 p x o.1 e
      ed in let b = live_back c.rank s A.server x.message.session_id x.message.channel_sequence (file_at c p) w.steps (ranked j
      o.0 x o.1 (ops_of x.token p e)) cp.1 cp.0 sd pr le in i.live_unsettled j o.0 p x o.1 e ed fm b.0 b.1 b.2""",
    ),
    "denied": (
        [
            ("w", "Taking c s t x0 A"),
        ],
        """w.changing.denied i.denied""",
    ),
    "open_of": (
        [
            ("w", "Taking c s t x0 A"),
        ],
        """λ q mk o. open_kept c t l x0 A q (c.file q) w.remade (i.open_of q mk o)""",
    ),
    "open_acted": (
        [],
        """λ q o e. by_side q o (open_was c t l x0 A q o e)
      where
      by_side : (q o : ℕ) → (t.open_of q ≡ Some o) ⊎ (makes c x0.token A ≡ true × q ≡ op_of x0.token × A.reached ≡ Some
      o) → 1 ≤ new_acts a x0 A q
      by_side q o (inl e) = let old = i_open_acted q o e in grind arith
      by_side q o (inr e) = let m = made_own c x0.token A e.0 in let own = own_of x0.token m.0 in acted_more q (ap
      (is_send_of q) own) m.1 e.1
      where
      same_test : (n m : ℕ) → n ≡ m → is_send_of n (ForOp m) ≡ true
      same_test n m e = grind arith
      
      acted_more : (q : ℕ) → is_send_of q x0.token ≡ is_send_of q (ForOp (op_of x0.token)) → A.acted ≡ true → q ≡ op_of
      x0.token → 1 ≤ new_acts a x0 A q
      acted_more q e ac z = let y = e ∙ same_test q (op_of x0.token) z in grind arith""",
    ),
    "open_given": (
        [
            ("w", "Taking c s t x0 A"),
            ("is", "(conns k).up ≡ x0 ∷ rest"),
            ("bodies", "Bodies c conns"),
        ],
        """λ q o e. by_side q o (open_was c t l x0 A q o e)
      where
      by_side : (q o : ℕ) → (t.open_of q ≡ Some o) ⊎ (makes c x0.token A ≡ true × q ≡ op_of x0.token × A.reached ≡ Some
      o) → o ≤ last_id A.server × makes_open (c.op q) ≡ true × c.sent q ≡ true
      by_side q o (inl e) = let old = i_open_given q o e in let z = old.0 in let up = w.steps.ids in (omega (arith, z,
      up), old.1, old.2)
      by_side q o (inr e) =
      let m = made_own c x0.token A e.0 in
      ((w.reached o e.2).0, subst (λ g. makes_open (c.op g) ≡ true) (sym e.1) m.2, subst (λ g. c.sent g ≡ true) (sym
      e.1) (bodies k 0 (op_of x0.token) x0 (front_up (conns k).up x0 rest is) (own_of x0.token m.0)).0)""",
    ),
    "named_open": (
        [
            ("w", "Taking c s t x0 A"),
        ],
        """λ q o e. by_side q o (w.making.guid c.who.guid (guid_for c q) o e)
      where
      by_side : (q o : ℕ) → (s.by_guid c.who.guid (guid_for c q) ≡ Some o) ⊎ (creates x0.message.command ≡ true ×
      A.acted ≡ true × A.reached ≡ Some o × c.who.guid ≡ x0.message.client_guid × asks_guid x0.message.command ≡ Some
      (guid_for c q)) → (new_trace c t l x0 A).open_of q ≡ Some o
      by_side q o (inl e) = open_kept c t l x0 A q o w.remade (i_named_open q o e)
      by_side q o (inr e) = own q o (w.creator e.0 e.1) e.1 e.2 e.4
      where
      same_guid : (c : Client) (g q : ℕ) → guid_for c g ≡ guid_for c q → g ≡ q
      same_guid c g q e = omega (arith, e)
      
      some_guid : (x y : ℕ) → Some x ≡ Some y → x ≡ y
      some_guid x y h = grind arith
      
      opened_here : (g : ℕ) → makes c x0.token A ≡ true → op_of x0.token ≡ g → (new_trace c t l x0 A).open_of g ≡
      A.reached
      opened_here g m z = grind arith
      
      own : (q o : ℕ) → ((g : ℕ) × ((x0.token ≡ ForOp g) × (makes_open (c.op g) ≡ true) × (asks_guid x0.message.command
      ≡ Some (guid_for c g)) × (asks_share x0.message.command ≡ share_of (c.op g)))) → A.acted ≡ true → A.reached ≡
      Some o → asks_guid x0.message.command ≡ Some (guid_for c q)
      → (new_trace c t l x0 A).open_of q ≡ Some o
      own q o (g, f) ac r z =
      let gq : g ≡ q = same_guid c g q (some_guid _ _ (sym f.2 ∙ z)) in
      subst (λ p. (new_trace c t l x0 A).open_of p ≡ Some o) gq (opened_here g (makes_it c x0.token A g f.0 f.1 ac) (ap
      op_of f.0) ∙ r)""",
    ),
    "open_row": (
        [
            ("w", "Taking c s t x0 A"),
        ],
        """λ q o e st. by_side q o st (open_was c t l x0 A q o e)
      where
      by_side : (q o : ℕ) → A.server.standing o ≡ true → (t.open_of q ≡ Some o) ⊎ (makes c x0.token A ≡ true × q ≡
      op_of x0.token × A.reached ≡ Some o) → (A.server.opened o).create_guid ≡ Some (guid_for c q) × (A.server.opened
      o).client_guid ≡ c.who.guid × (A.server.opened o).share ≡ share_of (c.op q)
      by_side q o st (inl e) =
      let g = (i_open_given q o e).0 in let row = w.steps.row o g st in
      subst (λ r. r.create_guid ≡ Some (guid_for c q) × r.client_guid ≡ c.who.guid × r.share ≡ share_of (c.op q)) (sym row)
      (i_open_row q o e (w.steps.stands o g st))
      by_side q o st (inr e) = own q o (w.makes_create e.0) (made_own c x0.token A e.0).1 e.1 e.2 (w.creator
      (w.makes_create e.0) (made_own c x0.token A e.0).1)
      where
      own : (q o : ℕ) → creates x0.message.command ≡ true → A.acted ≡ true → q ≡ op_of x0.token → A.reached ≡ Some o →
      ((g : ℕ) × ((x0.token ≡ ForOp g) × (makes_open (c.op g) ≡ true) × (asks_guid x0.message.command ≡ Some (guid_for
      c g)) × (asks_share x0.message.command ≡ share_of (c.op g))))
      → (A.server.opened o).create_guid ≡ Some (guid_for c q) × (A.server.opened o).client_guid ≡ c.who.guid × (A.server.opened
      o).share ≡ share_of (c.op q)
      own q o cr ac z r (g, f) =
      let row = w.making.row o cr ac r in let gq : g ≡ q = ap op_of (sym f.0) ∙ sym z in
      (subst (λ p. (A.server.opened o).create_guid ≡ Some (guid_for c p)) gq (row.0 ∙ f.2), row.1 ∙ w.client, subst (λ p.
      (A.server.opened o).share ≡ share_of (c.op p)) gq (row.2 ∙ f.3))""",
    ),
    "bytes": (
        [],
        """λ q o e st. put_self (l.bytes q) (l.places + 1) (bytes_behind A.server ((new_trace c t l x0 A).open_of q)
      (l.bytes q l.places)) ∙ now_standing A.server ((new_trace c t l x0 A).open_of q) o (l.bytes q l.places) e st
      where
      now_standing : (u : Server) (x : Option ℕ) (o : ℕ) (b : List ℕ) → x ≡ Some o → u.standing o ≡ true → bytes_behind
      u x b ≡ u.content (u.opened o).file
      now_standing u x o b e st = grind arith""",
    ),
    "birth_le": (
        [],
        """λ q. let old = i.birth_le q in grind arith""",
    ),
    "first_at": (
        [
            ("is", "(conns k).up ≡ x0 ∷ rest"),
        ],
        """λ p n e. by_side p n (first_was c t l x0 A p n e)
      where
      own_did : (g : ℕ) → x0.token ≡ ForOp g → A.acted ≡ true → (is_own x0.token && A.acted) ≡ true
      own_did g z a = grind arith
      
      by_side : (p n : ℕ) → (l.first p ≡ Some n) ⊎ (x0.token ≡ ForOp p × A.acted ≡ true × n ≡ l.places) → n < l.places
      + 1 × (new_log c t l x0 A).who n ≡ p × 0 < p × (new_log c t l x0 A).did n ≡ true
      by_side p n (inl e) = let old = i_first_at p n e in let z = old.0 in (omega (arith, z), put_old l.who l.places
      (op_of x0.token) n old.0 ∙ old.1, old.2, put_old l.did l.places (is_own x0.token && A.acted) n old.0 ∙ old.3)
      by_side p n (inr e) =
      let z = e.2 in let above = (i_token_up k 0 x0 (front_up (conns k).up x0 rest is) (ops_of x0.token p e.0)).0 in
      (omega (arith, z), subst (λ m. put l.who l.places (op_of x0.token) m ≡ p) (sym z) (put_self l.who l.places (op_of
      x0.token) ∙ ap op_of e.0), subst (λ g. 0 < g) (ap op_of e.0) above,
      subst (λ m. put l.did l.places (is_own x0.token && A.acted) m ≡ true) (sym z) (put_self l.did l.places (is_own
      x0.token && A.acted) ∙ own_did p e.0 e.1))""",
    ),
    "by": (
        [],
        """λ p n e. let old = i.by p n e in let z = old.0 in (omega (arith, z), put_old l.who l.places (op_of x0.token) n
      old.0 ∙ old.1, old.2, old.3)""",
    ),
    "by_ok": (
        [],
        """λ p n v ls b st. let w = (i.by p n b).0 in put_old l.gave l.places (said x0.token A.reply) n w ∙ i.by_ok p n v ls
      b st""",
    ),
    "by_end": (
        [],
        """λ p n b st. let w = (i.by p n b).0 in put_old l.gave l.places (said x0.token A.reply) n w ∙ i.by_end p n b st""",
    ),
    "replies": (
        [],
        """λ j n y h. let old = i.replies j n y (was_down conns k rest j n y h) in let z = old.0 in (omega (arith, z),
      put_old l.who l.places (op_of x0.token) y.place old.0 ∙ old.1, put_old l.gave l.places (said x0.token A.reply)
      y.place old.0 ∙ old.2)""",
    ),
    "since_le": (
        [],
        """λ p. let old = i.since_le p in omega (arith, old)""",
    ),
    "since_first": (
        [],
        """λ p n e. by_side p n (first_was c t l x0 A p n e)
      where
      by_side : (p n : ℕ) → (l.first p ≡ Some n) ⊎ (x0.token ≡ ForOp p × A.acted ≡ true × n ≡ l.places) → l.since p ≤ n
      by_side p n (inl e) = i_since_first p n e
      by_side p n (inr e) = let z = e.2 in let le = i_since_le p in omega (arith, z, le)""",
    ),
    "whose": (
        [
            ("is", "(conns k).up ≡ x0 ∷ rest"),
        ],
        """λ n lt. split (λ m. put l.who l.places (op_of x0.token) m ≤ c.taken × (0 < put l.who l.places (op_of x0.token) m
      → (makes_open (c.op (put l.who l.places (op_of x0.token) m)) || is_ok (c.outcome (create_at c (put l.who l.places
      (op_of x0.token) m)))) ≡ true)) l.places n lt
      (λ z. subst (λ g. g ≤ c.taken × (0 < g → (makes_open (c.op g) || is_ok (c.outcome (create_at c g))) ≡ true)) (sym
      (put_old l.who l.places (op_of x0.token) n z)) (i.whose n z))
      (subst (λ g. g ≤ c.taken × (0 < g → (makes_open (c.op g) || is_ok (c.outcome (create_at c g))) ≡ true)) (sym
      (put_self l.who l.places (op_of x0.token))) (own x0.token refl))
      where
      own : (tk : Token) → x0.token ≡ tk → op_of x0.token ≤ c.taken × (0 < op_of x0.token → (makes_open (c.op (op_of
      x0.token)) || is_ok (c.outcome (create_at c (op_of x0.token)))) ≡ true)
      own ForDialog e = (let z = ap op_of e in omega (arith, z), λ ab. absurd (let z = ap op_of e in omega (arith, z,
      ab)))
      own (ForOp g) e = let f0 = front_up (conns k).up x0 rest is in ((i_token_up k 0 x0 f0 (ops_of x0.token g e)).1, λ
      ab. i_opens_up k 0 x0 f0 (ops_of x0.token g e))
      own (ForAttach g) e = let f0 = front_up (conns k).up x0 rest is in ((i_token_up k 0 x0 f0 (attach_of x0.token g
      e)).1, λ ab. i_opens_up k 0 x0 f0 (attach_of x0.token g e))""",
    ),
    "live_replay": (
        [
            ("is", "(conns k).up ≡ x0 ∷ rest"),
            ("w", "Taking c s t x0 A"),
            ("once", "Once conns"),
            (
                "ranked",
                "(j n : ℕ) (x : Sent) → slice_get (conns j).up n ≡ Some x → is_ops x.token ≡ true → 0 < c.rank "
                "x.message.session_id",
            ),
        ],
        """λ j n p x h e ed sd pr le so. let o = waited conns k x0 rest j n x is h in let cp = i.copy_pair j o.0 p x o.1 e
      ed in
      let b = live_back c.rank s A.server x.message.session_id x.message.channel_sequence (file_at c p) w.steps (ranked j o.0 x
      o.1 (ops_of x.token p e)) cp.1 cp.0 sd pr le in let f = some_of ((new_log c t l x0 A).first p) so in
      by_first j n p x h e ed sd pr le b.0 b.1 ((cp.0 b.0 b.1).0) o.0 o.1 (λ z. i.live_replay j o.0 p x o.1 e ed b.0
      b.1 b.2 z) (first_was c t l x0 A p f.0 f.1)
      where
      by_first : (j n p : ℕ) (x : Sent) → slice_get (Front conns k rest j).up n ≡ Some x → x.token ≡ ForOp p → edits
      (c.op p) ≡ true → A.server.standing (file_at c p) ≡ true → A.server.present x.message.session_id ≡ true →
      A.server.sequence (file_at c p) ≤ x.message.channel_sequence
      → s.standing (file_at c p) ≡ true → s.present x.message.session_id ≡ true → s.session_of_open (file_at c p) ≡ Some
      x.message.session_id → (m : ℕ) → slice_get (conns j).up m ≡ Some x → (is_some (l.first p) ≡ true → x.message.replay
      ≡ true)
      → {v : ℕ} → (l.first p ≡ Some v) ⊎ (x0.token ≡ ForOp p × A.acted ≡ true × v ≡ l.places) → x.message.replay ≡ true
      by_first j n p x h e ed sd pr le st there at m hm old (inl z) = old (ap is_some z)
      by_first j n p x h e ed sd pr le st there at m hm old (inr z) =
      let a = acts_of c s t x0 A p w z.0 (lists_of (c.op p) ed) z.1 in let same : x.message.session_id ≡
      x0.message.session_id = some_same _ _ (sym at ∙ a.session_of_open) in
      not_false x.message.replay (λ r.
      let less = i_no_replay j m k 0 p x x0 hm (front_up (conns k).up x0 rest is) e z.0 ed (apart_of conns k x0 rest j
      n p x once is z.0 h e) same r in
      let pair = ((w.reached (file_at c p) a.reached).1 sd (subst (λ y. A.server.present y ≡ true) same pr)).1 in
      absurd (omega (arith, less, pair, le)))
      where
      not_false : (b : Bool) → (b ≡ false → ⊥) → b ≡ true
      not_false true f = refl
      not_false false f = absurd (f refl)""",
    ),
    "shows": (
        [
            ("is", "(conns k).up ≡ x0 ∷ rest"),
            ("w", "Taking c s t x0 A"),
            ("bodies", "Bodies c conns"),
            (
                "sent_opens",
                "(g : ℕ) → c.sent g ≡ true → makes_open (c.op g) ≡ false → (makes_open (c.op g) || is_ok (c.outcome "
                "(create_at c g))) ≡ true × makes_open (c.op (create_at c g)) ≡ true",
            ),
        ],
        """λ p ed iso sd pe so. let f = some_of ((new_log c t l x0 A).first p) so in let st = went_out p (first_was c t l x0
      A p f.0 f.1) in let og = sent_opens p st (edits_other (c.op p) ed) in
      let its = its_open c s t p og.0 (edits_other (c.op p) ed) og.1 i.open_of i.open_given in let stood =
      w.steps.stands (file_at c p) its.given sd in
      subst (λ r. bytes_after (c.op p) (A.server.content r.file) ≡ A.server.content r.file) (sym (w.steps.row (file_at
      c p) its.given sd)) (by_first p ed iso sd pe st its stood (first_was c t l x0 A p f.0 f.1))
      where
      went_out : (p : ℕ) {v : ℕ} → (l.first p ≡ Some v) ⊎ (x0.token ≡ ForOp p × A.acted ≡ true × v ≡ l.places) → c.sent
      p ≡ true
      went_out p (inl z) = sent_of (c.sent p) (l.first p) (λ u. (i_fresh_first p u).0) (ap is_some z)
      went_out p (inr z) = (bodies k 0 p x0 (front_up (conns k).up x0 rest is) z.0).0
      
      own : (p : ℕ) → x0.token ≡ ForOp p → A.acted ≡ true → edits (c.op p) ≡ true → bytes_after (c.op p)
      (A.server.content (s.opened (file_at c p)).file) ≡ A.server.content (s.opened (file_at c p)).file
      own p tk ac ed =
      let a = acts_of c s t x0 A p w tk (lists_of (c.op p) ed) ac in
      after_is (c.op p) _ ∙ subst (λ b. effect (content_op (c.op p)) b ≡ b) (sym a.bytes) (effect-twice (content_op
      (c.op p)) (s.content (s.opened (file_at c p)).file))
      
      apart : (p h : ℕ) → p ≢ h → c.sent p ≡ true → c.sent h ≡ true → edits (c.op p) ≡ true → edits (c.op h) ≡ true →
      create_at c p ≡ create_at c h → pends c p ≡ true → pends c h ≡ true → collides (content_op (c.op p)) (content_op
      (c.op h)) ≡ false
      apart p h ne sp sh ep eh cr pp ph = by_order (nat_order p h ne)
      where
      nat_order : (a b : ℕ) → a ≢ b → (a < b) ⊎ (b < a)
      nat_order a b n = grind arith
      
      by_order : (p < h) ⊎ (h < p) → collides (content_op (c.op p)) (content_op (c.op h)) ≡ false
      by_order (inl y) = apart_is (c.op p) (c.op h) (i_pairwise p h y sh ep eh cr pp ph)
      by_order (inr y) = collides_comm (content_op (c.op p)) (content_op (c.op h)) ∙ apart_is (c.op h) (c.op p)
      (i_pairwise h p y sp eh ep (sym cr) ph pp)
      
      other : (p h : ℕ) → p ≢ h → x0.token ≡ ForOp h → lists (c.op h) ≡ true → create_at c h ≡ create_at c p → file_at
      c h ≡ file_at c p → A.acted ≡ true → edits (c.op p) ≡ true → c.sent p ≡ true → pends c p ≡ true
      → bytes_after (c.op p) (s.content (s.opened (file_at c p)).file) ≡ s.content (s.opened (file_at c p)).file →
      bytes_after (c.op p) (A.server.content (s.opened (file_at c p)).file) ≡ A.server.content (s.opened (file_at c
      p)).file
      other p h ne tk ls cr fo ac ed sp pe sh =
      let a = acts_of c s t x0 A h w tk ls ac in let sent_h = (bodies k 0 h x0 (front_up (conns k).up x0 rest is) tk).0
      in
      let ph = acting_pends c conns s k x0 rest A h i_live_unsettled is tk a in
      let b : A.server.content (s.opened (file_at c p)).file ≡ effect (content_op (c.op h)) (s.content (s.opened
      (file_at c p)).file) = subst (λ f. A.server.content (s.opened f).file ≡ effect (content_op (c.op h)) (s.content
      (s.opened f).file)) fo a.bytes in
      after_is (c.op p) _ ∙ subst (λ v. effect (content_op (c.op p)) v ≡ v) (sym b)
      (effect-kept (content_op (c.op p)) (content_op (c.op h)) (s.content (s.opened (file_at c p)).file) (apart p h ne
      sp sent_h ed a.edit (sym cr) pe ph) (sym (after_is (c.op p) _) ∙ sh))
      
      by_touch : (p : ℕ) → edits (c.op p) ≡ true → c.sent p ≡ true → pends c p ≡ true → bytes_after (c.op p) (s.content
      (s.opened (file_at c p)).file) ≡ s.content (s.opened (file_at c p)).file
      → (A.server.content (s.opened (file_at c p)).file ≡ s.content (s.opened (file_at c p)).file) ⊎ ((g : ℕ) ×
      ((x0.token ≡ ForOp g) × (lists (c.op g) ≡ true) × (create_at c g ≡ create_at c p) × (file_at c g ≡ file_at c p) ×
      (A.acted ≡ true)))
      → bytes_after (c.op p) (A.server.content (s.opened (file_at c p)).file) ≡ A.server.content (s.opened (file_at c
      p)).file
      by_touch p ed sp pe sh (inl y) = subst (λ b. bytes_after (c.op p) b ≡ b) (sym y) sh
      by_touch p ed sp pe sh (inr (h, f)) =
      elim (p == h) as (λ b. p == h ≡ b → bytes_after (c.op p) (A.server.content (s.opened (file_at c p)).file) ≡
      A.server.content (s.opened (file_at c p)).file) [
      | true ↦ λ z. own p (f.0 ∙ ap ForOp (sym (eqb-true p h z))) f.4 ed
      | false ↦ λ z. other p h (eqb-false p h z) f.0 f.1 f.2 f.3 f.4 ed sp pe sh
      ] refl
      
      by_first : (p : ℕ) → edits (c.op p) ≡ true → isolating (c.op (create_at c p)) ≡ true → A.server.standing (file_at
      c p) ≡ true → pends c p ≡ true → c.sent p ≡ true → Its c s t p → s.standing (file_at c p) ≡ true
      → {v : ℕ} → (l.first p ≡ Some v) ⊎ (x0.token ≡ ForOp p × A.acted ≡ true × v ≡ l.places) → bytes_after (c.op p)
      (A.server.content (s.opened (file_at c p)).file) ≡ A.server.content (s.opened (file_at c p)).file
      by_first p ed iso sd pe sp its st (inr z) = own p z.0 z.1 ed
      by_first p ed iso sd pe sp its st (inl z) =
      by_touch p ed sp pe (i_shows p ed iso st pe (ap is_some z))
      (untouched c s t x0 A (create_at c p) (file_at c p) w i_denied i_open_of i_open_given i_open_row (λ g tk ls.
      sent_opens g (bodies k 0 g x0 (front_up (conns k).up x0 rest is) tk).0 (lists_other (c.op g) ls)) its.named st sd
      iso)""",
    ),
    "quiet": (
        [
            ("w", "Taking c s t x0 A"),
            (
                "opens",
                "(g : ℕ) → x0.token ≡ ForOp g → lists (c.op g) ≡ true → (makes_open (c.op g) || is_ok (c.outcome "
                "(create_at c g))) ≡ true × makes_open (c.op (create_at c g)) ≡ true",
            ),
        ],
        """λ n q lt mk b iso. let f = some_of ((new_trace c t l x0 A).open_of q) mk in split (λ m. (new_log c t l x0
      A).birth q ≤ m → (new_log c t l x0 A).did m ≡ false → (new_log c t l x0 A).bytes q (m + 1) ≡ (new_log c t l x0
      A).bytes q m) l.places n lt
      (λ z bb d. let g = made_before c t l x0 A q n f.0 (omega (arith, z)) f.1 bb in bytes_old c t l x0 A q (n + 1)
      (omega (arith, z)) ∙ (i.quiet n q z (ap is_some g.0) g.1 iso (sym (put_old l.did l.places (is_own x0.token &&
      A.acted) n z) ∙ d) ∙ sym (bytes_old c t l x0 A q n (omega (arith, z)))))
      (λ bb d. let g = made_before c t l x0 A q l.places f.0 (omega arith) f.1 bb in unmoved c s t l x0 A q f.0 w
      i.open_given i.bytes g.0
      (λ st sa. by_touch (sym (put_self l.did l.places (is_own x0.token && A.acted)) ∙ d) (untouched c s t x0 A q f.0 w
      i.denied i.open_of i.open_given i.open_row opens g.0 st sa iso))) b
      where
      own_acts : (g : ℕ) → x0.token ≡ ForOp g → A.acted ≡ true → (is_own x0.token && A.acted) ≡ false → ⊥
      own_acts g tk ac d = absurd (grind arith)
      
      by_touch : {q o : ℕ} {x y : List ℕ} → (is_own x0.token && A.acted) ≡ false → (x ≡ y) ⊎ ((g : ℕ) × ((x0.token ≡
      ForOp g) × (lists (c.op g) ≡ true) × (create_at c g ≡ q) × (file_at c g ≡ o) × (A.acted ≡ true))) → x ≡ y
      by_touch d (inl z) = z
      by_touch d (inr (g, f)) = absurd (own_acts g f.0 f.4 d)""",
    ),
    "foreign": (
        [
            ("w", "Taking c s t x0 A"),
            (
                "opens",
                "(g : ℕ) → x0.token ≡ ForOp g → lists (c.op g) ≡ true → (makes_open (c.op g) || is_ok (c.outcome "
                "(create_at c g))) ≡ true × makes_open (c.op (create_at c g)) ≡ true",
            ),
        ],
        """λ n q lt mk b iso. let f = some_of ((new_trace c t l x0 A).open_of q) mk in split (λ m. (new_log c t l x0
      A).birth q ≤ m → ((create_at c ((new_log c t l x0 A).who m) == q) && lists (c.op ((new_log c t l x0 A).who m))) ≡
      false → (new_log c t l x0 A).bytes q (m + 1) ≡ (new_log c t l x0 A).bytes q m) l.places n lt
      (λ z bb d. let g = made_before c t l x0 A q n f.0 (omega (arith, z)) f.1 bb in bytes_old c t l x0 A q (n + 1)
      (omega (arith, z)) ∙ (i.foreign n q z (ap is_some g.0) g.1 iso (subst (λ h. ((create_at c h == q) && lists (c.op
      h)) ≡ false) (put_old l.who l.places (op_of x0.token) n z) d) ∙ sym (bytes_old c t l x0 A q n (omega (arith,
      z)))))
      (λ bb d. let g = made_before c t l x0 A q l.places f.0 (omega arith) f.1 bb in unmoved c s t l x0 A q f.0 w
      i.open_given i.bytes g.0
      (λ st sa. by_touch (subst (λ h. ((create_at c h == q) && lists (c.op h)) ≡ false) (put_self l.who l.places (op_of
      x0.token)) d) (untouched c s t x0 A q f.0 w i.denied i.open_of i.open_given i.open_row opens g.0 st sa iso))) b
      where
      its_own : (g q : ℕ) → op_of x0.token ≡ g → create_at c g ≡ q → lists (c.op g) ≡ true → ((create_at c (op_of
      x0.token) == q) && lists (c.op (op_of x0.token))) ≡ false → ⊥
      its_own g q z e ls d = absurd (its_test (create_at c (op_of x0.token)) q (lists (c.op (op_of x0.token))) (ap
      (create_at c) z ∙ e) (ap (λ h. lists (c.op h)) z ∙ ls) d)
      where
      its_test : (a b : ℕ) (t : Bool) → a ≡ b → t ≡ true → ((a == b) && t) ≡ false → ⊥
      its_test a b t e f d = absurd (grind arith)
      
      by_touch : {q o : ℕ} {x y : List ℕ} → ((create_at c (op_of x0.token) == q) && lists (c.op (op_of x0.token))) ≡
      false → (x ≡ y) ⊎ ((g : ℕ) × ((x0.token ≡ ForOp g) × (lists (c.op g) ≡ true) × (create_at c g ≡ q) × (file_at c g
      ≡ o) × (A.acted ≡ true))) → x ≡ y
      by_touch d (inl z) = z
      by_touch {q} d (inr (g, f)) = absurd (its_own g q (ap op_of f.0) f.2 f.1 d)""",
    ),
    "acted": (
        [
            ("is", "(conns k).up ≡ x0 ∷ rest"),
            ("w", "Taking c s t x0 A"),
            (
                "opens",
                "(g : ℕ) → x0.token ≡ ForOp g → lists (c.op g) ≡ true → (makes_open (c.op g) || is_ok (c.outcome "
                "(create_at c g))) ≡ true × makes_open (c.op (create_at c g)) ≡ true",
            ),
        ],
        """λ n lt. split (λ m. (new_log c t l x0 A).did m ≡ true → lists (c.op ((new_log c t l x0 A).who m)) ≡ true →
      isolating (c.op (create_at c ((new_log c t l x0 A).who m))) ≡ true
      → (new_log c t l x0 A).first ((new_log c t l x0 A).who m) ≡ Some m × edits (c.op ((new_log c t l x0 A).who m)) ≡
      true × (new_log c t l x0 A).bytes (create_at c ((new_log c t l x0 A).who m)) (m + 1) ≡ bytes_after (c.op
      ((new_log c t l x0 A).who m)) ((new_log c t l x0 A).bytes (create_at c ((new_log c t l x0 A).who m)) m)) l.places
      n lt
      (λ z d. subst (λ h. lists (c.op h) ≡ true → isolating (c.op (create_at c h)) ≡ true → (new_log c t l x0 A).first
      h ≡ Some n × edits (c.op h) ≡ true × (new_log c t l x0 A).bytes (create_at c h) (n + 1) ≡ bytes_after (c.op h)
      ((new_log c t l x0 A).bytes (create_at c h) n)) (sym (put_old l.who l.places (op_of x0.token) n z))
      (λ ls iso. let old = i.acted n z (sym (put_old l.did l.places (is_own x0.token && A.acted) n z) ∙ d) ls iso in
      (first_kept c t l x0 A (l.who n) n old.0, old.1, bytes_old c t l x0 A (create_at c (l.who n)) (n + 1) (omega
      (arith, z)) ∙ (old.2 ∙ ap (bytes_after (c.op (l.who n))) (sym (bytes_old c t l x0 A (create_at c (l.who n)) n
      (omega (arith, z))))))))
      (λ d. subst (λ h. lists (c.op h) ≡ true → isolating (c.op (create_at c h)) ≡ true → (new_log c t l x0 A).first h
      ≡ Some l.places × edits (c.op h) ≡ true × (new_log c t l x0 A).bytes (create_at c h) (l.places + 1) ≡ bytes_after
      (c.op h) ((new_log c t l x0 A).bytes (create_at c h) l.places)) (sym (put_self l.who l.places (op_of x0.token)))
      (λ ls iso. own (op_of x0.token) (own_of x0.token (did_own (sym (put_self l.did l.places (is_own x0.token &&
      A.acted)) ∙ d)).0) (did_own (sym (put_self l.did l.places (is_own x0.token && A.acted)) ∙ d)).1 ls iso))
      where
      did_own : (is_own x0.token && A.acted) ≡ true → is_own x0.token ≡ true × A.acted ≡ true
      did_own d = (grind arith, grind arith)
      
      own : (g : ℕ) → x0.token ≡ ForOp g → A.acted ≡ true → lists (c.op g) ≡ true → isolating (c.op (create_at c g)) ≡
      true
      → (new_log c t l x0 A).first g ≡ Some l.places × edits (c.op g) ≡ true × (new_log c t l x0 A).bytes (create_at c
      g) (l.places + 1) ≡ bytes_after (c.op g) ((new_log c t l x0 A).bytes (create_at c g) l.places)
      own g tk ac ls iso =
      let a = acts_of c s t x0 A g w tk ls ac in let og = opens g tk ls in let its = its_open c s t g og.0 (lists_other
      (c.op g) ls) og.1 i_open_of i_open_given in
      let m = moved c s t l x0 A g w its i_bytes a.stands a.still in
      (first_new c t l x0 A g tk ac (acting c conns s t l k x0 rest A g w i_live_unsettled i_live_replay i_shows is tk
      ls ac iso), a.edit, m.0 ∙ (a.bytes ∙ (sym (after_is (c.op g) _) ∙ ap (bytes_after (c.op g)) (sym m.1))))""",
    ),
    "gave": (
        [
            ("w", "Taking c s t x0 A"),
            (
                "opens",
                "(g : ℕ) → x0.token ≡ ForOp g → lists (c.op g) ≡ true → (makes_open (c.op g) || is_ok (c.outcome "
                "(create_at c g))) ≡ true × makes_open (c.op (create_at c g)) ≡ true",
            ),
        ],
        """λ n v lt. split (λ m. lists (c.op ((new_log c t l x0 A).who m)) ≡ true → (new_log c t l x0 A).gave m ≡ Says_ok v
      → reply_to (c.op ((new_log c t l x0 A).who m)) ((new_log c t l x0 A).bytes (create_at c ((new_log c t l x0 A).who
      m)) m) ≡ v × (new_log c t l x0 A).bytes (create_at c ((new_log c t l x0 A).who m)) (m + 1) ≡ bytes_after (c.op
      ((new_log c t l x0 A).who m)) ((new_log c t l x0 A).bytes (create_at c ((new_log c t l x0 A).who m)) m)
      × ends_before (c.op ((new_log c t l x0 A).who m)) ((new_log c t l x0 A).bytes (create_at c ((new_log c t l x0
      A).who m)) m) ≡ false) l.places n lt
      (λ z. subst (λ h. lists (c.op h) ≡ true → (new_log c t l x0 A).gave n ≡ Says_ok v → reply_to (c.op h) ((new_log c
      t l x0 A).bytes (create_at c h) n) ≡ v × (new_log c t l x0 A).bytes (create_at c h) (n + 1) ≡ bytes_after (c.op
      h) ((new_log c t l x0 A).bytes (create_at c h) n) × ends_before (c.op h) ((new_log c t l x0 A).bytes (create_at c
      h) n) ≡ false) (sym (put_old l.who l.places (op_of x0.token) n z))
      (λ ls gv. let old = i.gave n v z ls (sym (put_old l.gave l.places (said x0.token A.reply) n z) ∙ gv) in let e1 =
      bytes_old c t l x0 A (create_at c (l.who n)) n (omega (arith, z)) in let e2 = bytes_old c t l x0 A (create_at c
      (l.who n)) (n + 1) (omega (arith, z)) in
      (ap (reply_to (c.op (l.who n))) e1 ∙ old.0, e2 ∙ (old.1 ∙ ap (bytes_after (c.op (l.who n))) (sym e1)), ap
      (ends_before (c.op (l.who n))) e1 ∙ old.2)))
      (subst (λ h. lists (c.op h) ≡ true → (new_log c t l x0 A).gave l.places ≡ Says_ok v → reply_to (c.op h) ((new_log
      c t l x0 A).bytes (create_at c h) l.places) ≡ v × (new_log c t l x0 A).bytes (create_at c h) (l.places + 1) ≡
      bytes_after (c.op h) ((new_log c t l x0 A).bytes (create_at c h) l.places) × ends_before (c.op h) ((new_log c t l
      x0 A).bytes (create_at c h) l.places) ≡ false) (sym (put_self l.who l.places (op_of x0.token)))
      (λ ls gv. let sd = said_ok x0.token A.reply v (sym (put_self l.gave l.places (said x0.token A.reply)) ∙ gv) in
      own (op_of x0.token) v sd.0 ls sd.1 sd.2))
      where
      own : (g : ℕ) (v : ContentReply) → x0.token ≡ ForOp g → lists (c.op g) ≡ true → (A.reply.status == success) ≡
      true → v ≡ content_reply A.reply.body
      → reply_to (c.op g) ((new_log c t l x0 A).bytes (create_at c g) l.places) ≡ v × (new_log c t l x0 A).bytes
      (create_at c g) (l.places + 1) ≡ bytes_after (c.op g) ((new_log c t l x0 A).bytes (create_at c g) l.places) ×
      ends_before (c.op g) ((new_log c t l x0 A).bytes (create_at c g) l.places) ≡ false
      own g v tk ls ok e =
      let f = w.listed g tk ls in let d = f.done ok in let og = opens g tk ls in let its = its_open c s t g og.0
      (lists_other (c.op g) ls) og.1 i_open_of i_open_given in let m = moved c s t l x0 A g w its i_bytes d.0 d.1 in
      (ap (reply_to (c.op g)) m.1 ∙ (reply_is (c.op g) _ ∙ (d.2 ∙ sym e)), m.0 ∙ (d.3 ∙ (sym (after_is (c.op g) _) ∙ ap
      (bytes_after (c.op g)) (sym m.1))), ap (ends_before (c.op g)) m.1 ∙ (ends_is (c.op g) _ ∙ d.4))""",
    ),
    "gave_end": (
        [
            ("w", "Taking c s t x0 A"),
            (
                "opens",
                "(g : ℕ) → x0.token ≡ ForOp g → lists (c.op g) ≡ true → (makes_open (c.op g) || is_ok (c.outcome "
                "(create_at c g))) ≡ true × makes_open (c.op (create_at c g)) ≡ true",
            ),
        ],
        """λ n lt. split (λ m. lists (c.op ((new_log c t l x0 A).who m)) ≡ true → (new_log c t l x0 A).gave m ≡ Says_end →
      ends_before (c.op ((new_log c t l x0 A).who m)) ((new_log c t l x0 A).bytes (create_at c ((new_log c t l x0
      A).who m)) m) ≡ true) l.places n lt
      (λ z. subst (λ h. lists (c.op h) ≡ true → (new_log c t l x0 A).gave n ≡ Says_end → ends_before (c.op h) ((new_log
      c t l x0 A).bytes (create_at c h) n) ≡ true) (sym (put_old l.who l.places (op_of x0.token) n z))
      (λ ls gv. ap (ends_before (c.op (l.who n))) (bytes_old c t l x0 A (create_at c (l.who n)) n (omega (arith, z))) ∙
      i.gave_end n z ls (sym (put_old l.gave l.places (said x0.token A.reply) n z) ∙ gv)))
      (subst (λ h. lists (c.op h) ≡ true → (new_log c t l x0 A).gave l.places ≡ Says_end → ends_before (c.op h)
      ((new_log c t l x0 A).bytes (create_at c h) l.places) ≡ true) (sym (put_self l.who l.places (op_of x0.token)))
      (λ ls gv. let sd = said_end x0.token A.reply (sym (put_self l.gave l.places (said x0.token A.reply)) ∙ gv) in own
      (op_of x0.token) sd.0 ls sd.1))
      where
      own : (g : ℕ) → x0.token ≡ ForOp g → lists (c.op g) ≡ true → (A.reply.status == end_of_file) ≡ true → ends_before
      (c.op g) ((new_log c t l x0 A).bytes (create_at c g) l.places) ≡ true
      own g tk ls e =
      let f = w.listed g tk ls in let d = f.ended e in let og = opens g tk ls in let its = its_open c s t g og.0
      (lists_other (c.op g) ls) og.1 i_open_of i_open_given in
      ap (ends_before (c.op g)) (bytes_old c t l x0 A (create_at c g) l.places (omega arith) ∙ i_bytes (create_at c g)
      (file_at c g) its.named d.0) ∙ (ends_is (c.op g) _ ∙ d.1)""",
    ),
    "born": (
        [
            ("w", "Taking c s t x0 A"),
            (
                "creates_of",
                "(g : ℕ) → 0 < g → g ≤ c.taken → makes_open (c.op g) ≡ false → makes_open (c.op (create_at c g)) ≡ "
                "true",
            ),
        ],
        """λ n lt. split (λ m. 0 < (new_log c t l x0 A).who m → makes_open (c.op ((new_log c t l x0 A).who m)) ≡ false →
      (new_log c t l x0 A).birth (create_at c ((new_log c t l x0 A).who m)) ≤ m) l.places n lt
      (λ z. subst (λ h. 0 < h → makes_open (c.op h) ≡ false → (new_log c t l x0 A).birth (create_at c h) ≤ n) (sym
      (put_old l.who l.places (op_of x0.token) n z))
      (λ ab mk. let wh = i.whose n z in let ok = other_on (makes_open (c.op (l.who n))) (is_ok (c.outcome (create_at c
      (l.who n)))) (wh.1 ab) mk in let nm = i.open_of (create_at c (l.who n)) (creates_of (l.who n) ab wh.0 mk) ok in
      subst (λ b. b ≤ n) (sym (birth_kept c t l x0 A (create_at c (l.who n)) (λ m e. once_made (create_at c (l.who n))
      m e nm))) (i.born n z ab mk)))
      (subst (λ h. 0 < h → makes_open (c.op h) ≡ false → (new_log c t l x0 A).birth (create_at c h) ≤ l.places) (sym
      (put_self l.who l.places (op_of x0.token)))
      (λ ab mk. subst (λ b. b ≤ l.places) (sym (birth_kept c t l x0 A (create_at c (op_of x0.token)) (λ m e. absurd
      (let y = (made_own c x0.token A m).2 in grind arith)))) (i.birth_le (create_at c (op_of x0.token)))))
      where
      once_made : (q : ℕ) → makes c x0.token A ≡ true → q ≡ op_of x0.token → t.open_of q ≡ Some (c.file q) → ⊥
      once_made q m e z = absurd (let r = w.remade m in let y = ap t.open_of e in grind arith)""",
    ),
    "prior_first": (
        [
            ("is", "(conns k).up ≡ x0 ∷ rest"),
            ("w", "Taking c s t x0 A"),
        ],
        """λ h g n ed pr e. by_first h g n ed pr (first_was c t l x0 A g n e)
      where
      settled_off : (o : Outcome) (x : Option ℕ) (y : ℕ) → is_firm o ≡ true → (x ≡ Some y → is_unsettled o ≡ false ×
      is_firm o ≡ false) → (if is_unsettled o then true else is_at y x) ≡ true → ⊥
      settled_off o x y f g e = by_lost (is_at y x) refl
      where
      found : (x : Option ℕ) → is_at y x ≡ true → x ≡ Some y
      found x z = grind arith
      
      by_lost : (b : Bool) → is_at y x ≡ b → ⊥
      by_lost true z = absurd (let q = (g (found x z)).1 in grind arith)
      by_lost false z = absurd (let q = firm_settled o f in grind arith)
      
      by_first : (h g n : ℕ) → edits (c.op g) ≡ true → l.prior h g ≡ true → (l.first g ≡ Some n) ⊎ (x0.token ≡ ForOp g
      × A.acted ≡ true × n ≡ l.places) → n < l.since h
      by_first h g n ed pr (inl z) = i_prior_first h g n ed pr z
      by_first h g n ed pr (inr z) =
      let a = acts_of c s t x0 A g w z.0 (lists_of (c.op g) ed) z.1 in
      absurd (settled_off (c.outcome g) (c.given_up g) c.session (i_prior h g pr).1 (i_lost_unknown g c.session)
      (acting_pends c conns s k x0 rest A g i_live_unsettled is z.0 a))""",
    ),
    "asked_as": (
        [
            ("is", "(conns k).up ≡ x0 ∷ rest"),
        ],
        """λ j n p x h. let o = waited conns k x0 rest j n x is h in i.asked_as j o.0 p x o.1""",
    ),
}
