#!/usr/bin/env python3
"""Writes the proofs of the exports of vt_terminal: each lends the session behind an opaque pointer to one safe function of vt_session.

export_proofs.py            writes crates/vt_terminal/proofs/EXPORT/Proof.antt for each export; `rt tidy vt_terminal` then drops
                    unused imports and formats them
export_proofs.py --check    fails if a file differs from what it would write by more than imports and spaces

A proof is checked as every other: this script only saves the writing of the same steps for each list of arguments.
"""
import pathlib
import sys

ROOT = pathlib.Path(__file__).resolve().parent.parent / "crates" / "vt_terminal" / "proofs"

# Exports that lend the session: the export, the function, its relation, the types of its arguments, and that of its result.
LENDING = [
    ("vt_hear_bits", "session::hear", "Hears", ["u64", "u32", "u32", "u64"], "u32"),
    ("vt_tick", "session::tick", "Ticks", ["u64"], "u32"),
    ("vt_act", "session::act", "Acts", ["u64", "u32", "u32", "u32"], "u32"),
    ("vt_claim", "outputs::claim", "Claims", [], "u32"),
    ("vt_status", "outputs::status", "SendsStatus", [], "u32"),
    ("vt_next", "outputs::next", "Nexts", [], "u32"),
    ("vt_output_id", "outputs::output_id", "TellsId", [], "u32"),
    ("vt_output_count", "outputs::output_count", "TellsCount", [], "u32"),
    ("vt_output_data", "outputs::output_data", "TellsData", [], "u64"),
    ("vt_redraws", "screen::redraws", "TellsRedraws", [], "u32"),
    ("vt_text_of_screen", "screen::screen", "Draws", [], "u64"),
    ("vt_screen_word", "screen::screen_word", "TellsWord", ["u64"], "u64"),
    ("vt_look", "screen::looks", "TellsLooks", [], "u64"),
    ("vt_shown", "screen::shown", "TellsShown", [], "u32"),
    ("vt_lost", "screen::lost", "TellsLost", [], "u32"),
    ("vt_deadline", "screen::deadline", "TellsDeadline", [], "u64"),
    ("vt_text_of_sets", "reading::sets", "Lists", [], "u64"),
    ("vt_ids_of_active", "reading::active", "TellsActive", ["u32"], "u64"),
    ("vt_has_pool", "reading::has_pool", "TellsPool", ["u32"], "u64"),
    ("vt_text_of_object", "reading::object", "WritesObject", ["u32", "u32"], "u64"),
    ("vt_text_of_picture", "reading::picture", "Pictures", ["u32", "u32"], "u64"),
    ("vt_text_of_part", "reading::part", "Parts", ["u32", "u32"], "u64"),
    ("vt_size_of_picture", "reading::size", "TellsSize", ["u32", "u32"], "u64"),
    ("vt_text_of_elements", "reading::shown_elements", "ListsElements", [], "u64"),
    ("vt_id_at", "reading::touch", "TellsTouched", ["u32", "u32"], "u64"),
    ("vt_text_of_limits", "dialog::limits", "WritesLimits", ["u32", "u32"], "u64"),
    ("vt_text_of_value", "dialog::value_text", "WritesValue", ["u32", "u32"], "u64"),
    ("vt_raw_of", "dialog::raw", "TellsRaw", ["u32", "u32", "u32", "u64", "u32"], "u64"),
    ("vt_text_of_words", "words::words", "WritesWords", ["u32", "u32", "u64"], "u64"),
]

# The relations of a module other than Calls.
READINGS = ["Lists", "TellsActive", "TellsPool", "WritesObject", "Pictures", "Parts", "TellsSize", "ListsElements", "TellsTouched"]
DIALOGS = ["WritesLimits", "WritesValue", "TellsRaw"]
WORDS = ["WritesWords"]

# Exports with one or two numbers and a slice of bytes: the export, the function, its relation, the module of the relation, the slice in it,
# and the types of the numbers.
SLICES = [
    ("vt_text_bytes", "session::text", "Texts", "Calls", "x", ["u64", "u32"]),
    ("vt_preload_bytes", "preload::preload", "Preloads", "Preloads", "x.now", ["u32"]),
]

# The numbers from which `vt_init` makes a session.
BEGINNING = ["u32", "u64", "u32", "u32", "u32", "u32", "u32"]

WIDTHS = {"u8": "w8", "u16": "w16", "u32": "w32", "u64": "w64"}


def nest(items):
    """The items as pairs within pairs, ended by tt."""
    return "(" + ", (".join(items) + ", tt" + ")" * len(items)


def part(name, index):
    """The item of an index in such pairs."""
    return name + ".1" * index + ".0"


def module_of(relation):
    """The module of definitions that has a relation."""
    modules = [("Readings", READINGS), ("Dialogs", DIALOGS), ("Words", WORDS)]
    return next((name for name, relations in modules if relation in relations), "Calls")


def lending(export, callee, relation, args, result):
    """The proof of an export that takes numbers and returns one."""
    n = len(args)
    dots = callee.replace("::", ".")
    xs = [f"x{k}" for k in range(1, n + 1)]
    types = sorted({*args, result})
    ws = sorted({WIDTHS[t] for t in types})
    stay = nest(["stay_dropped (plain (λ _. RawPtr)) yes"] + [f"stay_dropped (plain (λ _. {t})) yes" for t in args])
    goes = nest(["Goes-dropped 𝓛 0 (plain (λ _. RawPtr)) yes (λ κs x w. refl)"] + [f"Goes-dropped 𝓛 0 (plain (λ _. {t})) yes (λ κs x w. refl)" for t in args])
    vals = nest(["rawptr_vals"] + [f"uint_vals {WIDTHS[t]}" for t in args])
    tells = nest(["rawptr_Tells"] + [f"uint_Tells {WIDTHS[t]}" for t in args])
    lets = " ".join(f"let {x} = {part('a', k)} in let fits{k} = are{'.1' * k}.0.1 in" for k, x in enumerate(xs, 1))
    yargs = nest(["p"] + xs)
    yvals = nest(["rawptr_vals p"] + [f"uint_vals {WIDTHS[t]} {x}" for t, x in zip(args, xs)])
    mach = " ∷ ".join([f"vint {WIDTHS[t]} {x}" for t, x in zip(args, xs)] + ["[]"])
    passed = nest(["(tt, tt)"] + [f"(tt, record {{ fits = fits{k} }})" for k in range(1, n + 1)])
    copies = " ".join(f"sets ! (of_opd ! (get ! refl)) refl (tt, record {{ fits = fits{k} }}) $" for k in range(1, n + 1))
    zargs = nest(["r"] + xs)
    zvals = nest(["vptr b o ∷ []"] + [f"vint {WIDTHS[t]} {x} ∷ []" for t, x in zip(args, xs)])
    owns = "nothing ! $ " + " ".join(f"owned ! {t} (Is {t}) (uint_Makes 𝓛 {WIDTHS[t]}) {x} _ (refl, fits{k}) $ fjoin ! $" for k, (t, x) in reversed(list(enumerate(zip(args, xs), 1))))
    opds = "(and_then ! (get ! refl) " * (n + 1) + "(no_more !)" + ")" * (n + 1)
    tts = nest(["tt"] * (n + 1))
    ends = "nothing ! $ " + "nothing ! $ join ! $ " * (n + 1) + "nothing ! $"
    said = lambda after, r: " ".join([relation, "s", *xs, after, r])
    return f"""-- A walk: the state behind the pointer is lent to `{callee.split('::')[-1]}`, and comes back once the loan is over.
use Rattle.std.proofs.Common.{{◌≡◌, ℕ, List, [], ◌∷◌, ◌++◌, refl, {', '.join(w for w in ws if w in ('w8', 'w32', 'w64'))}, MutBor}}
use mir.Syntax.{{named, {', '.join(w for w in ws if w == 'w16') or 'w16'}}}
use Rattle.std.proofs.raw_atomic.Walks.{{proved}}
use base.Fraction.{{full_share}}
use base.Logic.{{sep, id⊢}}
use base.Fml.{{ftrue, flft, flent}}
use mir.Val.{{Val, vint, vptr}}
use types.Logic.{{sem}}
use prog.Wp.{{WpFn}}
use contract.Monad.{{fact}}
use contract.Running.{{tables}}
use types.Kit.{{‵, raw, ◌⊛◌, some, later, prop, at_ret, ◌$◌, ◌∵◌, !, qed, done, move, keep, drop, use1, use3, split, join, fsplit, fjoin, pick, await, regoal, suffices, frame, group, show}}
use types.Tokens.{{lft_new, lft_end}}
use types.SemTy.{{Body}}
use types.Run.{{enter, of_opd, addr, stop, no_more, and_then, first, blocks, exec, returns}}
use types.ByLocal.{{alloc_all, pass_all, free_all, look_at, get, through, sets, sets_last, lands_as, env}}
use denote.Builtin.{{{', '.join(types)}}}
use denote.Exit.{{yes}}
use denote.Laws.{{Is, shows}}
use denote.Memory.{{mem}}
use denote.Lend.{{lends_ref, ref_back}}
use denote.Plain.{{uint_vals, uint_Tells, uint_Makes, uint_Lawful}}
use denote.RawPtr.{{Ptr, RawPtr, block_ptr, lies_at, in_a_block, rawptr_vals, rawptr_Tells}}
use denote.Ref.{{MutRef}}
use denote.Signature.{{plain}}
use denote.Steps.{{nothing, owned, peeks, heard}}
use denote.Triple.Call.{{calls_at}}
use denote.Triple.Clauses.{{Lasts, lasts}}
use denote.Triple.Entry.{{on_entry}}
use denote.Triple.Spec.{{triple_of}}
use denote.Triple.Walked.{{Stays, walk_of, says, stay_dropped, Goes-dropped, ends_at}}
use denote.Triple.Table.{{framed}}
use Rattle.vt_session.specs.{module_of(relation)}.{{{relation}}}
use Rattle.vt_session.specs.declared.session.Session.{{Session}}
use Rattle.vt_session.specs.contracts.session.Session.{{the_row as R}}
use Rattle.vt_session.specs.contracts.{dots} as g
use Rattle.vt_session.proofs.{dots}.Met.{{met}}
use Rattle.vt_terminal.specs.contracts.{export} as f
use Rattle.vt_terminal.proofs.{export}.Statement.{{statement}}
use Rattle.vt_terminal.proofs.{export}.Code as code

abbrev stayed : Stays f.ended.signature.params f.ended.kept
stayed = {stay}

pub {export}_spec : {{M : Type 1}} → statement M
{export}_spec 𝓤 𝓛 𝓜 𝓡 wired =
    let c = f.clauses 𝓛 𝓜.mem 𝓡.returns in let W = walk_of 𝓛 f.ended stayed c in let 𝓣 = tables 𝓤 𝓛.H 𝓜 𝓡 𝓡.env in
    proved 𝓛 f.ended stayed c 𝓜 𝓡 {goes}
    f.Key.name code.function (code.unfolded 𝓤 𝓛.H 𝓜 𝓡 wired)
    (λ κs. {vals}) (λ κs. {tells}) (λ κs qs bounds a s are.
    {lets}
    let y : Ptr → W.Ghost = λ p. ((κs, qs, bounds, {yargs}, {yvals}), s) in
    qed 𝓛 (raw (on_entry 𝓛 f.signature κs qs a (y a.0).0.4) ∷ ‵ (lies_at R full_share a.0 s) ∷ []) ∵ drop ! $
    in_a_block ! a.0 (λ p. lies_at R full_share p s) (id⊢ 𝓤 _) (λ b o e.
    regoal ! (λ p. prop (WpFn 𝓤 𝓛.H 𝓣.C 𝓣.Λ code.function (rawptr_vals p ++ ({mach})) (W.post (y p)))) e refl $
    enter ! _ _ _ _ _ $ alloc_all ! (λ l. pass_all ! refl {passed} $
    -- [the state; the locals]
    first ! $ blocks ! $ sets ! (of_opd ! (get ! refl)) refl (tt, tt) $ sets ! (of_opd ! (get ! refl)) refl (tt, tt) $
    sets_last ! (addr ! (through ! refl (stop !))) refl (tt, tt) $
    exec ! 𝓣.C 𝓣.Λ (env code.Mir.locals l) code.Mir.t-2 (at_ret _ (W.post (y (block_ptr b o)))) $
    sets ! (of_opd ! (get ! refl)) refl (tt, tt) $ {copies}
    lft_new ! tt (λ α. let κ : List ℕ = α ∷ [] in move ! (1 ∷ []) $
    use1 𝓛 (later (some (λ (γ : ℕ). ‵ ((MutRef (named 0) κ R).own_val (record {{ ref_ptr = (b, o); ghost_name = γ; now = s }}) (vptr b o ∷ [])) ⊛ ‵ (flent κ (Body (mem R) b o γ)))))
    (lends_ref 𝓛 R (named 0) κ s b o) $ await ! tt $ pick ! (λ γ. split ! $
    -- [the loan; what is lent; the token; the locals]
    let G = triple_of 𝓛 g.signature (g.spec 𝓛 𝓜.mem 𝓡.returns) in let r : MutBor R.Denot = record {{ ref_ptr = (b, o); ghost_name = γ; now = s }} in
    let z : G.Ghost = (((κ, tt), (full_share, tt), tt, {zargs}, {zvals}), tt) in
    {owns} move ! (1 ∷ 0 ∷ []) $ fjoin ! $
    nothing ! $ move ! (3 ∷ 0 ∷ []) $ join ! $ join ! $ nothing ! $ move ! (1 ∷ 0 ∷ []) $ join ! $ use1 𝓛 (raw (G.pre z)) (id⊢ 𝓤 (G.pre z)) $
    calls_at ! (framed 𝓤 𝓛.H 𝓜 𝓣) G (met 𝓤 𝓛 𝓜 𝓡 (code.calls-vt_session::{callee} 𝓡.env wired)) z {opds} (λ v.
    use1 𝓛 (later (some (λ (n : ℕ). ((‵ (flft κ full_share) ⊛ ‵ ftrue) ⊛ ‵ ({result}.own_val n (v ∷ []))) ⊛
    some (λ (ws : Lasts g.ended z.0.0 z.0.3). ‵ (lasts g.ended z.0.0 z.0.3 ws) ⊛ raw (fact 𝓤 ({said('ws.0', 'n')})))))) (id⊢ 𝓤 _) $
    await ! tt $ pick ! (λ n. split ! $ split ! $ split ! $ lft_end ! tt $ move ! (2 ∷ []) $ peeks ! {result} (Is {result}) (shows 𝓛 {result}) n (v ∷ []) (λ is.
    lands_as ! refl refl ((uint_Lawful 𝓛 {WIDTHS[result]}).typed n _ is).0 $
    -- [the result; the loan is over; nothing; what is said of the state; what is lent]
    move ! (3 ∷ []) $ pick ! (λ ws. split ! $ move ! (1 ∷ []) $ heard ! _ (λ done'. fsplit ! $ fsplit ! $
    -- [the state's last value; its borrow; nothing; the result; the loan is over; nothing; what is lent]
    move ! (4 ∷ 6 ∷ 0 ∷ []) $ use3 𝓛 (later (‵ (lies_at R full_share (block_ptr b o) ws.0))) (ref_back 𝓛 R κ γ ws.0 b o) $ await ! tt $
    returns ! (look_at ! 0 refl) $ free_all ! refl $ keep ! (3 ∷ 0 ∷ []) $
    suffices ! _ (ends_at 𝓛 f.ended stayed c (y (block_ptr b o)) v n {tts} {tts}) $
    {ends} group ! 3 $ frame ! $
    show ! (λ (after : R.Denot). sep 𝓤 (sem 𝓛 (lies_at R full_share (block_ptr b o) after)) (fact 𝓤 ({said('after', 'n')}))) ws.0 $ says ! done' $ done !))))))))))"""


def sliced(export, callee, relation, module, slice, args):
    """The proof of an export that takes one or two numbers and a slice of bytes, and returns a status."""
    dots = callee.replace("::", ".")
    n = len(args)
    ks = [f"k{i}" for i in range(1, n + 1)]
    both = list(zip(args, ks))
    types = sorted({*args, "u32"})
    stay = nest([f"stay_dropped ({it}) yes" for it in ["plain (λ _. RawPtr)", *[f"plain (λ _. {t})" for t in args]]] + ["stay_dropped slot yes"])
    goes = nest([f"Goes-dropped 𝓛 1 {it} yes (λ κs x w. refl)" for it in ["(plain (λ _. RawPtr))", *[f"(plain (λ _. {t}))" for t in args], "slot"]])
    vals = nest(["rawptr_vals", *[f"uint_vals {WIDTHS[t]}" for t in args], "shr_slice_vals"])
    tells = nest(["rawptr_Tells", *[f"uint_Tells {WIDTHS[t]}" for t in args], "shr_slice_Tells (named 0) κs.0 u8"])
    lets = " ".join(f"let {k} = {part('a', i)} in let fits{i} = are{'.1' * i}.0.1 in" for i, k in enumerate(ks, 1))
    yargs = nest(["p", *ks, "x"])
    yvals = nest(["rawptr_vals p", *[f"uint_vals {WIDTHS[t]} {k}" for t, k in both], "shr_slice_vals x"])
    mach = " ∷ ".join([f"vint {WIDTHS[t]} {k}" for t, k in both] + ["shr_slice_vals x"])
    passed = nest(["(tt, tt)", *[f"(tt, record {{ fits = fits{i} }})" for i in range(1, n + 1)], "good"])
    copies = " ".join(f"sets ! (of_opd ! (get ! refl)) refl (tt, record {{ fits = fits{i} }}) $" for i in range(1, n + 1))
    zargs = nest(["r", *ks, "x"])
    zvals = nest(["vptr b o ∷ []", *[f"vint {WIDTHS[t]} {k} ∷ []" for t, k in both], "shr_slice_vals x"])
    owns = " ".join(f"owned ! {t} (Is {t}) (uint_Makes 𝓛 {WIDTHS[t]}) {k} _ (refl, fits{i}) $ fjoin ! $" for i, (t, k) in reversed(list(enumerate(both, 1))))
    opds = "(and_then ! (get ! refl) " * (n + 2) + "(no_more !)" + ")" * (n + 2)
    tts = nest(["tt"] * (n + 2))
    # (what the parameters own is one part after the other: that of the slice is kept, with its token)
    parts = "fsplit ! $ keep ! (6 ∷ 0 ∷ 4 ∷ []) $" if n == 1 else "fsplit3 ! $ keep ! (7 ∷ 1 ∷ 5 ∷ []) $"
    numbers = " ".join(ks)
    return f"""-- A walk: the state behind the pointer is lent to `{callee.split('::')[-1]}`, which is passed the slice, and comes back once the loan is over.
use Rattle.std.proofs.Common.{{◌≡◌, ℕ, List, [], ◌∷◌, ◌++◌, refl, sym, ap, w8, w32, w64, MutBor, Bor}}
use Rattle.std.proofs.raw_atomic.Walks.{{proved, leaves}}
use base.Fraction.{{full_share}}
use base.Logic.{{SProp, sep, ent, id⊢}}
use base.Fml.{{ftrue, flft, flent, fres}}
use mir.Syntax.{{named}}
use mir.Val.{{Val, vint, vptr}}
use types.Logic.{{sem}}
use prog.Wp.{{WpFn}}
use contract.Monad.{{fact}}
use contract.Running.{{tables}}
use types.Kit.{{‵, raw, ◌⊛◌, some, later, prop, at_ret, ◌$◌, ◌∵◌, !, qed, by, done, move, keep, drop, use1, use2, use3, split, split3, join, fsplit, fsplit3, fjoin, feq_l, feq_i, pick, await, rewrite, regoal, suffices, frame, group, show}}
use types.Tokens.{{lft_new, lft_end}}
use types.SemTy.{{Body}}
use types.Run.{{enter, of_opd, addr, stop, no_more, and_then, first, blocks, exec, returns}}
use types.ByLocal.{{alloc_all, pass_all, free_all, look_at, get, through, sets, sets_last, lands_as, env}}
use denote.Builtin.{{u8, {', '.join(types)}, SliceRefOf}}
use denote.Slice.{{ShrSlice, shr_slice_vals, shr_slice_Tells, shr_slice_Lawful}}
use denote.Exit.{{yes}}
use denote.Laws.{{Is, shows}}
use denote.Memory.{{mem, part_at}}
use denote.Lend.{{lends_ref, ref_back}}
use denote.Plain.{{uint_vals, uint_Tells, uint_Makes, uint_Lawful}}
use denote.RawPtr.{{Ptr, RawPtr, block_ptr, lies_at, in_a_block, rawptr_vals, rawptr_Tells}}
use denote.Ref.{{MutRef}}
use denote.Signature.{{Slot, plain, types_at}}
use denote.RattleType.{{owns}}
use denote.Steps.{{nothing, owned, peeks, heard}}
use denote.Triple.Call.{{calls_at}}
use denote.Triple.Clauses.{{Lasts, lasts}}
use denote.Triple.Entry.{{on_entry}}
use denote.Triple.Spec.{{triple_of}}
use denote.Triple.Walked.{{Stays, walk_of, says, stay_dropped, Goes-dropped, ends_at}}
use denote.Triple.Table.{{framed}}
use Rattle.vt_session.specs.{module}.{{{relation}}}
use Rattle.vt_session.specs.contracts.session.Session.{{the_row as R}}
use Rattle.vt_session.specs.contracts.{dots} as g
use Rattle.vt_session.proofs.{dots}.Met.{{met}}
use Rattle.vt_terminal.specs.contracts.{export} as f
use Rattle.vt_terminal.proofs.{export}.Statement.{{statement}}
use Rattle.vt_terminal.proofs.{export}.Code as code

abbrev slot : Slot 1
slot = SliceRefOf (0 ∷ []) tt (plain (λ _. u8)) (λ _. tt)

abbrev stayed : Stays f.ended.signature.params f.ended.kept
stayed = {stay}

pub {export}_spec : {{M : Type 1}} → statement M
{export}_spec 𝓤 𝓛 𝓜 𝓡 wired =
    let c = f.clauses 𝓛 𝓜.mem 𝓡.returns in let W = walk_of 𝓛 f.ended stayed c in let 𝓣 = tables 𝓤 𝓛.H 𝓜 𝓡 𝓡.env in
    proved 𝓛 f.ended stayed c 𝓜 𝓡 {goes}
    f.Key.name code.function (code.unfolded 𝓤 𝓛.H 𝓜 𝓡 wired)
    (λ κs. {vals}) (λ κs. {tells}) (λ κs qs bounds a s are.
    {lets} let x : Bor (List ℕ) = {part('a', n + 1)} in let Sl = ShrSlice (named 0) κs.0 u8 in
    let good = ((shr_slice_Lawful 𝓛 (named 0) κs.0 u8).typed x (shr_slice_vals x) {part('are', n + 1)}).0 in
    let y : Ptr → W.Ghost = λ p. ((κs, qs, bounds, {yargs}, {yvals}), s) in
    qed 𝓛 (((‵ (flft κs.0 qs.0) ⊛ ‵ ftrue) ⊛ ‵ (owns (types_at f.signature.params κs) a (y a.0).0.4)) ∷ ‵ (lies_at R full_share a.0 s) ∷ []) ∵
    split ! $ split ! $ move ! (2 ∷ []) $ fsplit3 ! $ move ! (2 ∷ []) $ {parts}
    in_a_block ! a.0 (λ p. lies_at R full_share p s) (id⊢ 𝓤 _) (λ b o e.
    regoal ! (λ p. prop (WpFn 𝓤 𝓛.H 𝓣.C 𝓣.Λ code.function (rawptr_vals p ++ ({mach})) (W.post (y p)))) e refl $
    enter ! _ _ _ _ _ $ alloc_all ! (λ l. pass_all ! refl {passed} $
    -- [the state; what the slice owns; its token; the locals]
    first ! $ blocks ! $ sets ! (of_opd ! (get ! refl)) refl (tt, tt) $ sets ! (of_opd ! (get ! refl)) refl (tt, tt) $
    sets_last ! (addr ! (through ! refl (stop !))) refl (tt, tt) $
    exec ! 𝓣.C 𝓣.Λ (env code.Mir.locals l) code.Mir.t-2 (at_ret _ (W.post (y (block_ptr b o)))) $
    sets ! (of_opd ! (get ! refl)) refl (tt, tt) $ {copies} sets ! (of_opd ! (get ! refl)) refl good $
    lft_new ! tt (λ α. let κ : List ℕ = α ∷ [] in move ! (1 ∷ []) $
    use1 𝓛 (later (some (λ (γ : ℕ). ‵ ((MutRef (named 0) κ R).own_val (record {{ ref_ptr = (b, o); ghost_name = γ; now = s }}) (vptr b o ∷ [])) ⊛ ‵ (flent κ (Body (mem R) b o γ)))))
    (lends_ref 𝓛 R (named 0) κ s b o) $ await ! tt $ pick ! (λ γ. split ! $
    -- [the loan; what is lent; its token; the slice; its token; the locals]
    let G = triple_of 𝓛 g.signature (g.spec 𝓛 𝓜.mem 𝓡.returns) in let r : MutBor R.Denot = record {{ ref_ptr = (b, o); ghost_name = γ; now = s }} in
    let z : G.Ghost = (((κ, (κs.0, tt)), (full_share, (qs.0, tt)), tt, {zargs}, {zvals}), tt) in
    move ! (3 ∷ []) $ nothing ! $ move ! (1 ∷ 0 ∷ []) $ fjoin ! $ {owns} move ! (1 ∷ 0 ∷ []) $ fjoin ! $
    nothing ! $ move ! (4 ∷ 0 ∷ []) $ join ! $ move ! (3 ∷ 0 ∷ []) $ join ! $ join ! $ nothing ! $ move ! (1 ∷ 0 ∷ []) $ join ! $ use1 𝓛 (raw (G.pre z)) (id⊢ 𝓤 (G.pre z)) $
    calls_at ! (framed 𝓤 𝓛.H 𝓜 𝓣) G (met 𝓤 𝓛 𝓜 𝓡 (code.calls-vt_session::{callee} 𝓡.env wired)) z {opds} (λ v.
    use1 𝓛 (later (some (λ (n : ℕ). ((‵ (flft κ full_share) ⊛ ‵ (flft κs.0 qs.0) ⊛ ‵ ftrue) ⊛ ‵ (u32.own_val n (v ∷ []))) ⊛
    some (λ (ws : Lasts g.ended z.0.0 z.0.3). ‵ (lasts g.ended z.0.0 z.0.3 ws) ⊛ raw (fact 𝓤 ({relation} s {numbers} {slice} ws.0 n)))))) (id⊢ 𝓤 _) $
    await ! tt $ pick ! (λ n. split ! $ split ! $ split3 ! $ lft_end ! tt $ move ! (3 ∷ []) $ peeks ! u32 (Is u32) (shows 𝓛 u32) n (v ∷ []) (λ is.
    lands_as ! refl refl ((uint_Lawful 𝓛 w32).typed n _ is).0 $
    -- [the status; the loan is over; the slice's token; nothing; what is said of the state; what is lent]
    move ! (4 ∷ []) $ pick ! (λ ws. split ! $ move ! (1 ∷ []) $ heard ! _ (λ appends. fsplit ! $ fsplit ! $
    move ! (4 ∷ 7 ∷ 0 ∷ []) $ use3 𝓛 (later (‵ (lies_at R full_share (block_ptr b o) ws.0))) (ref_back 𝓛 R κ γ ws.0 b o) $ await ! tt $
    returns ! (look_at ! 0 refl) $ free_all ! refl $ keep ! (3 ∷ 0 ∷ 4 ∷ []) $
    suffices ! _ (ends_at 𝓛 f.ended stayed c (y (block_ptr b o)) v n {tts} {tts}) $
    nothing ! $ {'nothing ! $ join ! $ ' * (n + 2)}nothing ! $ move ! (4 ∷ 0 ∷ []) $ join ! $ group ! 3 $ frame ! $
    show ! (λ (after : R.Denot). sep 𝓤 (sem 𝓛 (lies_at R full_share (block_ptr b o) after)) (fact 𝓤 ({relation} s {numbers} {slice} after n))) ws.0 $ says ! appends $ done !))))))))))"""


def beginning(args):
    """The proof of `vt_init`, which makes a session from these numbers."""
    n = len(args)
    xs = [f"x{k}" for k in range(1, n + 1)]
    both = list(zip(args, xs))
    stay = nest([f"stay_dropped (plain (λ _. {t})) yes" for t in ["heap.the_row", "RawPtr", *args]])
    goes = nest([f"Goes-dropped 𝓛 0 (plain (λ _. {t})) yes (λ κs x w. refl)" for t in ["Z", "RawPtr", *args]])
    lets = " ".join(
        [f"let {x} = {part('z.0.3', k)} in" for k, x in enumerate(xs, 2)]
        + [f"let fits{k - 1} = {part('are', k)}.1 in" for k in range(2, n + 2)]
    )
    mach = " ∷ ".join([f"vint {WIDTHS[t]} {x}" for t, x in both] + ["[]"])
    values = "".join(f"({part('are', k)}.0 i ++ " for k in range(2, n + 2)) + "[]" + ")" * n
    passed = nest(["h.2", "(tt, tt)"] + [f"(tt, record {{ fits = fits{k} }})" for k in range(1, n + 1)])
    ghosts = nest(["a", *xs])
    words = nest(["h.0 ∷ []"] + [f"vint {WIDTHS[t]} {x} ∷ []" for t, x in both])
    owns = "nothing ! $ " + " ".join(
        f"owned ! {t} (Is {t}) (uint_Makes 𝓛 {WIDTHS[t]}) {x} _ (refl, fits{k}) $ fjoin ! $"
        for k, (t, x) in reversed(list(enumerate(both, 1)))
    )
    opds = "(and_then ! (get ! refl) " * (n + 1) + "(no_more !)" + ")" * (n + 1)
    tts = nest(["tt"] * (n + 2))
    ends = "nothing ! $ " + "nothing ! $ join ! $ " * (n + 2) + "nothing !"

    def said(after):
        own, name, *profile = xs
        return f"Begins {own} {name} (profile_of {' '.join(profile)}) {after}"

    return f"""-- A walk: a state is made, and moved into the room behind the pointer.
use Rattle.std.proofs.Common.{{◌≡◌, ℕ, List, [], ◌∷◌, ◌++◌, refl, sym, ap, ◌∙◌, subst, w32, w64}}
use Rattle.std.proofs.raw_atomic.Walks.{{proved_at}}
use base.Fraction.{{full_share}}
use base.Logic.{{SProp, sep, ent, id⊢}}
use base.Fml.{{ftrue}}
use mir.Val.{{Val, vint, vptr, vunit}}
use types.Logic.{{sem}}
use prog.Wp.{{WpFn}}
use contract.Monad.{{fact}}
use contract.Running.{{tables}}
use types.Kit.{{‵, raw, ◌⊛◌, some, later, prop, at_ret, ◌$◌, ◌∵◌, !, qed, by, done, move, keep, drop, use1, use2, split, join, fsplit, fsplit3, fjoin, feq_l, feq_i, pick, await, rewrite, suffices, frame, group, show}}
use types.Run.{{enter, of_opd, unit_lit, stop, init, no_more, and_then, assigns_last, first, blocks, exec, returns}}
use types.ByLocal.{{alloc_all, pass_all, free_all, look_at, get, through, sets, lands_as, env}}
use denote.Builtin.{{u32, u64}}
use denote.Plain.{{uint_Makes}}
use denote.Exit.{{yes}}
use denote.Laws.{{Is, shows}}
use denote.Memory.{{part_at, lone}}
use denote.RattleType.{{RattleType, owns}}
use denote.RawPtr.{{Ptr, RawPtr, block_ptr, lies_at, room_at, in_a_block, ptr_val}}
use denote.Signature.{{plain, types_at}}
use denote.Steps.{{nothing, owned, peeks, heard}}
use denote.Triple.Call.{{calls_at}}
use denote.Triple.Clauses.{{Lasts, lasts}}
use denote.Triple.Spec.{{triple_of}}
use denote.Triple.Walked.{{Stays, walk_of, says, stay_dropped, Goes-dropped, ends_at}}
use denote.Triple.Table.{{framed}}
use borrow.Table.OneValue.{{part_in}}
use Rattle.std.proofs.cell.Inside.{{Good, one}}
use Rattle.std.specs.contracts.alloc.Global as heap
use Rattle.std.proofs.alloc.Global.TheLaws as heap_laws
use Rattle.vt_session.specs.Sessions.{{Begins, profile_of}}
use Rattle.vt_session.specs.contracts.session.Session.{{the_row as R}}
use Rattle.vt_session.proofs.session.Session.TheLaws.{{the_row_laws as LR}}
use Rattle.vt_session.specs.contracts.session.begin as g
use Rattle.vt_session.proofs.session.begin.Met.{{met}}
use Rattle.vt_terminal.specs.contracts.vt_init as f
use Rattle.vt_terminal.proofs.vt_init.Statement.{{statement}}
use Rattle.vt_terminal.proofs.vt_init.Code as code

abbrev stayed : Stays f.ended.signature.params f.ended.kept
stayed = {stay}

pub vt_init_spec : {{M : Type 1}} → statement M
vt_init_spec 𝓤 𝓛 𝓜 𝓡 wired =
    let c = f.clauses 𝓛 𝓜.mem 𝓡.returns in let W = walk_of 𝓛 f.ended stayed c in let 𝓣 = tables 𝓤 𝓛.H 𝓜 𝓡 𝓡.env in
    let Z : RattleType = heap.the_row in let LZ = heap_laws.the_row_laws in
    proved_at 𝓛 f.ended stayed c 𝓜 𝓡 {goes}
    f.Key.name code.function (code.unfolded 𝓤 𝓛.H 𝓜 𝓡 wired) (λ z are.
    let κs = z.0.0 in let a = z.0.3.0 in let p = z.0.3.1.0 in {lets} let Post : Val → SProp 𝓤 = W.post z in let Run : List Val → SProp 𝓤 = λ ws. WpFn 𝓤 𝓛.H 𝓣.C 𝓣.Λ code.function ws Post in
    let h = one (lone Z.mir) z.0.4.0 ((LZ.lawful 𝓛).typed a z.0.4.0 are.0) in
    qed 𝓛 ((‵ ftrue ⊛ ‵ (owns (types_at f.signature.params κs) z.0.3 z.0.4)) ∷ ‵ (room_at R p) ∷ []) ∵ split ! $ drop ! $ fsplit3 ! $ move ! (3 ∷ []) $
    in_a_block ! p (λ q. room_at R q) (id⊢ 𝓤 _) (λ b o e.
    -- [the room; the allocator; two that own nothing]
    let vp : z.0.4.1.0 ≡ vptr b o ∷ [] = are.1.0 ∙ ap (λ (q : Ptr). ptr_val q ∷ []) e in
    rewrite ! 1 (λ (us : List Val). ‵ (Z.own_val a us)) h.1 refl $
    suffices ! (Run (h.0 ∷ vptr b o ∷ {mach})) (subst (λ (us : List Val). ent 𝓤 (Run (h.0 ∷ vptr b o ∷ {mach})) (Run us)) (sym (λ i. h.1 i ++ (vp i ++ {values}))) (id⊢ 𝓤 (Run (h.0 ∷ vptr b o ∷ {mach})))) $
    enter ! 𝓣.C 𝓣.Λ code.function (h.0 ∷ vptr b o ∷ {mach}) Post $ alloc_all ! (λ l. pass_all ! refl {passed} $
    first ! $ blocks ! $ sets ! (of_opd ! (get ! refl)) refl (tt, tt) $
    let G = triple_of 𝓛 g.signature (g.spec 𝓛 𝓜.mem 𝓡.returns) in let y : G.Ghost = ((tt, tt, tt, {ghosts}, {words}), tt) in
    {owns} move ! (2 ∷ 0 ∷ []) $ fjoin ! $ nothing ! $ join ! $ nothing ! $ move ! (1 ∷ 0 ∷ []) $ join ! $ use1 𝓛 (raw (G.pre y)) (id⊢ 𝓤 (G.pre y)) $
    calls_at ! (framed 𝓤 𝓛.H 𝓜 𝓣) G (met 𝓤 𝓛 𝓜 𝓡 (code.calls-vt_session::session::begin 𝓡.env wired)) y {opds} (λ v.
    use1 𝓛 (later (some (λ (r : R.Denot). (‵ ftrue ⊛ ‵ (R.own_val r (v ∷ []))) ⊛ some (λ (ws : Lasts g.ended tt {ghosts}). ‵ (lasts g.ended tt {ghosts} ws) ⊛ raw (fact 𝓤 ({said('r')})))))) (id⊢ 𝓤 _) $
    await ! tt $ pick ! (λ r. split ! $ split ! $ drop ! $ peeks ! R (Is R) (shows 𝓛 R) r (v ∷ []) (λ is. let good = ((LR.lawful 𝓛).typed r (v ∷ []) is).0 in
    lands_as ! refl refl good $ move ! (1 ∷ []) $ pick ! (λ _. split ! $ drop ! $ heard ! ({said('r')}) (λ none.
    -- [the state; the room; two that own nothing]
    assigns_last ! (of_opd ! (get ! refl)) (through ! refl (stop !)) (init ! 1 refl good) $
    exec ! 𝓣.C 𝓣.Λ (env code.Mir.locals l) code.Mir.t-2 (at_ret _ Post) $ sets ! (of_opd ! (unit_lit !)) refl (tt, tt) $
    returns ! (look_at ! 0 refl) $ free_all ! refl $
    move ! (1 ∷ 0 ∷ []) $ use2 𝓛 (‵ (lies_at R full_share (block_ptr b o) r)) (part_in 𝓛 R refl full_share r b o v) $ keep ! (0 ∷ []) $
    rewrite ! 0 (λ (q : Ptr). ‵ (lies_at R full_share q r)) (sym e) refl $
    suffices ! _ (ends_at 𝓛 f.ended stayed c z vunit tt {tts} {tts}) $
    feq_i ! _ (vunit ∷ []) _ refl $ {ends} $ group ! 3 $ frame ! $
    show ! (λ (after : R.Denot). sep 𝓤 (sem 𝓛 (lies_at R full_share p after)) (fact 𝓤 ({said('after')}))) r $ says ! none $ done !))))))))"""


ENDING = """-- A walk: the state is moved out of the memory behind the pointer, which is room from then on.
use Rattle.std.proofs.Common.{◌≡◌, ℕ, List, [], ◌∷◌, ◌++◌, refl, sym, ap}
use Rattle.std.proofs.raw_atomic.Walks.{proved}
use base.Fraction.{full_share}
use base.Logic.{id⊢}
use base.Fml.{ftrue, fat, froom}
use mir.Val.{Val, vptr, vunit}
use prog.Wp.{WpFn}
use contract.Running.{tables}
use types.Kit.{‵, raw, ◌⊛◌, some, later, prop, at_ret, ◌$◌, ◌∵◌, !, qed, done, move, keep, drop, use1, split, join, fjoin, feq_l, feq_i, pick, await, regoal, suffices, group}
use types.Run.{enter, of_opd, unit_lit, load, look, stop, no_more, and_then, first, blocks, exec, returns}
use types.ByLocal.{alloc_all, pass_all, free_all, look_at, get, through, sets, sets_last, lands_as, env}
use borrow.Table.OneValue.{part_out}
use denote.Builtin.{unit}
use denote.Exit.{yes}
use denote.Laws.{Is, shows}
use denote.Memory.{lone}
use denote.RawPtr.{Ptr, RawPtr, block_ptr, lies_at, in_a_block, rawptr_vals, rawptr_Tells}
use denote.Signature.{plain}
use denote.Steps.{nothing, peeks, only}
use denote.Triple.Call.{calls_at}
use denote.Triple.Clauses.{Lasts, lasts}
use denote.Triple.Entry.{on_entry}
use denote.Triple.Spec.{triple_of}
use denote.Triple.Walked.{Stays, walk_of, stay_dropped, Goes-dropped, ends_at}
use denote.Triple.Table.{framed}
use Rattle.vt_session.specs.contracts.session.Session.{the_row as R}
use Rattle.vt_session.proofs.session.Session.TheLaws.{the_row_laws as LR}
use Rattle.vt_session.specs.contracts.session.discard as g
use Rattle.vt_session.proofs.session.discard.Met.{met}
use Rattle.vt_terminal.specs.contracts.vt_done as f
use Rattle.vt_terminal.proofs.vt_done.Statement.{statement}
use Rattle.vt_terminal.proofs.vt_done.Code as code

abbrev stayed : Stays f.ended.signature.params f.ended.kept
stayed = (stay_dropped (plain (λ _. RawPtr)) yes, tt)

pub vt_done_spec : {M : Type 1} → statement M
vt_done_spec 𝓤 𝓛 𝓜 𝓡 wired =
    let c = f.clauses 𝓛 𝓜.mem 𝓡.returns in let W = walk_of 𝓛 f.ended stayed c in let 𝓣 = tables 𝓤 𝓛.H 𝓜 𝓡 𝓡.env in
    proved 𝓛 f.ended stayed c 𝓜 𝓡 (Goes-dropped 𝓛 0 (plain (λ _. RawPtr)) yes (λ κs x w. refl), tt)
    f.Key.name code.function (code.unfolded 𝓤 𝓛.H 𝓜 𝓡 wired)
    (λ κs. (rawptr_vals, tt)) (λ κs. (rawptr_Tells, tt)) (λ κs qs bounds a s are.
    let y : Ptr → W.Ghost = λ p. ((κs, qs, bounds, (p, tt), (rawptr_vals p, tt)), s) in
    qed 𝓛 (raw (on_entry 𝓛 f.signature κs qs a (y a.0).0.4) ∷ ‵ (lies_at R full_share a.0 s) ∷ []) ∵ drop ! $
    in_a_block ! a.0 (λ p. lies_at R full_share p s) (id⊢ 𝓤 _) (λ b o e.
    regoal ! (λ p. prop (WpFn 𝓤 𝓛.H 𝓣.C 𝓣.Λ code.function (rawptr_vals p) (W.post (y p)))) e refl $
    use1 𝓛 (some (λ (v : Val). ‵ (fat full_share (lone R.mir) b o v) ⊛ ‵ (R.own_val s (v ∷ [])))) (part_out 𝓛 R refl full_share s b o) $ pick ! (λ v. split ! $ move ! (1 ∷ []) $
    peeks ! R (Is R) (shows 𝓛 R) s (v ∷ []) (λ is. let good = ((LR.lawful 𝓛).typed s (v ∷ []) is).0 in
    -- [what the state owns; its memory]
    enter ! _ _ _ _ _ $ alloc_all ! (λ l. pass_all ! refl ((tt, tt), tt) $
    first ! $ blocks ! $ sets ! (of_opd ! (get ! refl)) refl (tt, tt) $ sets ! (of_opd ! (get ! refl)) refl (tt, tt) $
    sets_last ! (of_opd ! (load ! (through ! refl (stop !)) (look ! 1 refl))) refl good $
    exec ! 𝓣.C 𝓣.Λ (env code.Mir.locals l) code.Mir.t-2 (at_ret _ (W.post (y (block_ptr b o)))) $ sets ! (of_opd ! (get ! refl)) refl good $
    let G = triple_of 𝓛 g.signature (g.spec 𝓛 𝓜.mem 𝓡.returns) in let z : G.Ghost = ((tt, tt, tt, (s, tt), (v ∷ [], tt)), tt) in
    nothing ! $ move ! (1 ∷ 0 ∷ []) $ fjoin ! $ nothing ! $ join ! $ nothing ! $ move ! (1 ∷ 0 ∷ []) $ join ! $ use1 𝓛 (raw (G.pre z)) (id⊢ 𝓤 (G.pre z)) $
    calls_at ! (framed 𝓤 𝓛.H 𝓜 𝓣) G (met 𝓤 𝓛 𝓜 𝓡 (code.calls-vt_session::session::discard 𝓡.env wired)) z (and_then ! (get ! refl) (no_more !)) (λ u.
    use1 𝓛 (later (some (λ (r : Unit {0}). (‵ ftrue ⊛ ‵ (unit.own_val r (u ∷ []))) ⊛ some (λ (ws : Lasts g.ended tt (s, tt)). ‵ (lasts g.ended tt (s, tt) ws) ⊛ ‵ ftrue)))) (id⊢ 𝓤 _) $
    await ! tt $ pick ! (λ r. split ! $ split ! $ drop ! $ feq_l ! (λ is_unit. lands_as ! (ap only is_unit) refl (tt, tt) $ sets ! (of_opd ! (unit_lit !)) refl (tt, tt) $
    returns ! (look_at ! 0 refl) $ free_all ! refl $ keep ! (1 ∷ []) $ use1 𝓛 (‵ (froom (lone R.mir) b o)) (𝓛.laws.at_room (lone R.mir) b o v) $
    suffices ! _ (ends_at 𝓛 f.ended stayed c (y (block_ptr b o)) vunit tt (tt, tt) (tt, tt)) $
    feq_i ! _ (vunit ∷ []) _ refl $ nothing ! $ nothing ! $ join ! $ nothing ! $ group ! 3 $ done !))))))))"""


def proofs():
    """The text of each file, by its export."""
    texts = {"vt_init": beginning(BEGINNING), "vt_done": ENDING}
    texts.update((it[0], lending(*it)) for it in LENDING)
    texts.update((it[0], sliced(*it)) for it in SLICES)
    return {export: text + "\n" for export, text in texts.items()}


def words(text):
    """The words of a proof, without its imports."""
    return "".join("".join(line.split()) for line in text.splitlines() if not line.startswith("use "))


def main():
    for export, text in proofs().items():
        file = ROOT / export / "Proof.antt"
        if sys.argv[1:] == ["--check"]:
            if not file.is_file() or words(file.read_text(encoding="utf-8")) != words(text):
                sys.exit(f"{file}: not what scripts/export_proofs.py writes: run it")
            continue
        file.parent.mkdir(parents=True, exist_ok=True)
        file.write_text(text, encoding="utf-8")


if __name__ == "__main__":
    main()
