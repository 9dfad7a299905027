"""What law_locks.py writes of an event in front of its lemmas. STATE stands for the client behind the event, BEHIND for the
server."""

BEFORE = {
    "Writes": """in_use_out : (c : Client) (p : ℕ) → InUse c → Settled c → c.sent p ≡ true → locking (c.op p) ≡ true
    → (j : ℕ) → c.outstanding_on p ≡ Some j → user_at c p ≡ Some p
in_use_out c p iu st s m j on = let u = iu p s m in let t = st p in let fs = firm_settled (c.outcome p) in grind arith

other_row : (c : Client) (s : Server) (g p : ℕ) (kept : Option Kept) → p ≢ g → user_at c g ≡ Some g
    → user_at c p ≡ Some p → (c.file (create_at c p) ≡ open_at c g → create_at c p ≡ create_at c g)
    → put2 s.lock_sequences (open_at c g) (c.slot_of g) kept (open_at c p) (c.slot_of p) ≡ s.lock_sequences (open_at c p) (c.slot_of p)
other_row c s g p kept d user e ij = grind arith

own_row : (c : Client) (s : Server) (g : ℕ) (kept : Option Kept)
    → put2 s.lock_sequences (open_at c g) (c.slot_of g) kept (open_at c g) (c.slot_of g) ≡ kept
own_row c s g kept = grind arith

other_kept : (c : Client) (s : Server) (g p st0 : ℕ) → p ≢ g → user_at c g ≡ Some g → user_at c p ≡ Some p
    → (c.file (create_at c p) ≡ open_at c g → create_at c p ≡ create_at c g)
    → kept_at (put2 s.lock_sequences (open_at c g) (c.slot_of g)
        (Some (record { number = c.number_of g; status = st0 })) (open_at c p) (c.slot_of p)) (c.number_of p) ≡ kept_of c s p
other_kept c s g p st0 d user e ij =
    ap (λ k. kept_at k (c.number_of p))
    (other_row c s g p (Some (record { number = c.number_of g; status = st0 })) d user e ij)

own_kept : (c : Client) (s : Server) (g st0 : ℕ)
    → kept_at (put2 s.lock_sequences (open_at c g) (c.slot_of g)
    (Some (record { number = c.number_of g; status = st0 })) (open_at c g) (c.slot_of g)) (c.number_of g) ≡ Some st0
own_kept c s g st0 = ap (λ k. kept_at k (c.number_of g))
    (own_row c s g (Some (record { number = c.number_of g; status = st0 }))) ∙ kept_same (c.number_of g) st0

says_it : (x y : Option ℕ) (st n : ℕ) → x ≡ y → (y ≡ Some st → n ≡ (if st == success then 1 else 0)) → x ≡ Some st
    → n ≡ (if st == success then 1 else 0)
says_it x y st n e f k = f (sym e ∙ k)

says_own : (st st0 n : ℕ) (x : Option ℕ) → x ≡ Some st0 → n ≡ (if st0 == success then 1 else 0) → x ≡ Some st
    → n ≡ (if st == success then 1 else 0)
says_own st st0 n x e f k = let same : st0 ≡ st = grind arith in subst (λ z. n ≡ (if z == success then 1 else 0)) same f

not_none : (x : Option ℕ) (st0 n : ℕ) → x ≡ Some st0 → x ≡ None → n ≡ 0
not_none x st0 n e f = absurd (grind arith)

some_it : (x y : Option ℕ) → x ≡ y → is_some y ≡ true → is_some x ≡ true
some_it x y e f = grind arith

""",
    "Settle": """-- what is firm behind it was firm before
was_firm : (c : Client) (g : ℕ) (new : ℕ → Outcome) (p : ℕ) → (p ≢ g → is_unsettled (c.outcome p) ≡ false → new p ≡ c.outcome p)
    → (p ≢ g → is_unsettled (c.outcome p) ≡ true → is_unsettled (new p) ≡ false
        → is_unsent (new p) ≡ true × c.sent p ≡ false) → p ≢ g → firm (new p) ≡ true → firm (c.outcome p) ≡ true
was_firm c g new p sm gv d f = let uf = unsettled_firm (new p) in let us = unsent_firm (new p) in grind arith

""",
    "BeginLock": """-- the number that it takes isn't one that its slot keeps
fresh_number : (c : Client) (s : Server) (q0 i0 m0 : ℕ)
    → ((h : ℕ) → c.slot_user q0 i0 ≡ Some h → firm (c.outcome h) ≡ true × m0 ≢ c.number_of h) → c.full q0 i0 ≡ false
    → UserBody c → FirmKept c s
    → (c.slot_user q0 i0 ≡ None → s.standing (c.file q0) ≡ true → s.lock_sequences (c.file q0) i0 ≡ None)
        → (u : Option ℕ) → c.slot_user q0 i0 ≡ u → s.standing (c.file q0) ≡ true
        → kept_at (s.lock_sequences (c.file q0) i0) m0 ≡ None
fresh_number c s q0 i0 m0 unused unfull body kept none None e st = ap (λ k. kept_at k m0) (none e st) ∙ kept_none m0
fresh_number c s q0 i0 m0 unused unfull body kept none (Some h) e st =
    let un = unused h e in let ub = body q0 i0 h e in let k = kept h in
    kept_other (s.lock_sequences (c.file q0) i0) (c.number_of h) m0 (grind arith) un.1

abbrev Says : Client → Server → (ℕ → ℕ) → ℕ → ℕ → Type 0
Says c s a g st = user_at c g ≡ Some g → s.standing (open_at c g) ≡ true → kept_of c s g ≡ Some st → a g ≡ (if st == success then 1 else 0)

says_own : (c : Client) (s : Server) (a : ℕ → ℕ) (g q0 i0 m0 st : ℕ) → q0 ≡ create_at c g
    → (s.standing (c.file q0) ≡ true → kept_at (s.lock_sequences (c.file q0) i0) m0 ≡ None) → Says STATE s a g st
says_own c s a g q0 i0 m0 st its none u stands kept = let n = none in grind arith

says_other : (c : Client) (s : Server) (a : ℕ → ℕ) (g q0 i0 m0 p st : ℕ) → p ≢ g → Says c s a p st → Says STATE s a p st
says_other c s a g q0 i0 m0 p st d old u stands kept = grind arith

""",
}
