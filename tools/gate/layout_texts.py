"""Texts for tools/gate/proof_layout.py: each as it may be broken, and as it is laid out."""

SIGNATURE = """\
pub lines_shown : (head : TestHead) (states : List ListedState) → IsPermutation (map shown_of states) (map
    shown_of states)
    → flat_map state_line states ≡ flat_map state_line (map shown_of states)
lines_shown head
    states p = refl
""", """\
pub lines_shown : (head : TestHead) (states : List ListedState)
    → IsPermutation (map shown_of states) (map shown_of states)
    → flat_map state_line states ≡ flat_map state_line (map shown_of states)
lines_shown head states p = refl
"""

CHAIN = """\
observed k added = added ∙ ap (λ (l : List Seen). l ++ filter p (locations (length head.locs))) (before
    ∙ ap (λ (n : ℕ). filter p (all_registers n)) is) ∙ sym (filter-append p _ _)
""", """\
observed k added =
    added
    ∙ ap (λ (l : List Seen). l ++ filter p (locations (length head.locs)))
    (before ∙ ap (λ (n : ℕ). filter p (all_registers n)) is)
    ∙ sym (filter-append p _ _)
"""

ARGUMENTS = """\
module _ (head : TestHead) where
  -- those that are there
  there : T
  there = subst (IsSeen threads locs) (sym is) (All-get_or (IsSeen threads locs) names k s (omega (arith, lt,
      least, min-le_left (length names) words)) all)
""", """\
module _ (head : TestHead) where
  -- those that are there
  there : T
  there =
      subst (IsSeen threads locs) (sym is)
      (All-get_or (IsSeen threads locs) names k s (omega (arith, lt, least, min-le_left (length names) words)) all)
"""

LETS = """\
both g c = let one : T = has-one w
    item k l in let two = has-union n _ k in
    two ∙ rw one (turned _ _)

single : T
single n = let is : n ≡ 0 =
    omega arith in is
""", """\
both g c =
    let one : T = has-one w item k l in
    let two = has-union n _ k in
    two ∙ rw one (turned _ _)

single : T
single n = let is : n ≡ 0 = omega arith in is
"""

ITEMS = """\
run_flat program (Step t ∷ es) s end sound ran =
    (flatten mem ran.0, event_flat program (Step t) s ran.0 (Ok tt) sound refl ran.1, run_flat program es _ end (is_kept program s).sound ran.2)

by_one : T
by_one after e m n sized done follows =
    let d = leads_to e in
    record {
      events = e ∷ [];
      end = n;
    }

of_two : T
of_two n i = elim (cases_lt k n) [ inl l ↦ (let e = and_pow n i in
    ap not e) | inr g ↦ ap (λ b. eqb b 1) (bit_at_ones_above n k g) ∙ sym (le-ltb k n g) ]
""", """\
run_flat program (Step t ∷ es) s end sound ran = (
  flatten mem ran.0,
  event_flat program (Step t) s ran.0 (Ok tt) sound refl ran.1,
  run_flat program es _ end (is_kept program s).sound ran.2,
)

by_one : T
by_one after e m n sized done follows = let d = leads_to e in record { events = e ∷ []; end = n }

of_two : T
of_two n i = elim (cases_lt k n) [
  | inl l ↦ (let e = and_pow n i in ap not e)
  | inr g ↦ ap (λ b. eqb b 1) (bit_at_ones_above n k g) ∙ sym (le-ltb k n g)
]
"""

LAMBDAS = """\
smallest xs = go all (λ i j d lt within. not_above (get_or all i d) (get_or all j d) (sorted_far is_below (ranks_by total own)
    all up i j d lt within))
""", """\
smallest xs = go all (λ i j d lt within.
    not_above (get_or all i d) (get_or all j d) (sorted_far is_below (ranks_by total own) all up i j d lt within))
"""

# Lines that are not read, and what is between them, stay.
KEPT = """\
use Rattle.lw_base.proofs.Common.{a, b}

fields : T  -- a remark
fields =
    qed 𝓛 (‵ a ∷ []) ∵ unhide ! $
    done !

ran : T
ran es =
    let e = step in
    -- a remark
    e

-- a remark
"""

TEXTS = (SIGNATURE, CHAIN, ARGUMENTS, LETS, ITEMS, LAMBDAS, (KEPT, KEPT))
