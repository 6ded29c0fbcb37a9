"""Shows why the prover refuses the wrong programs that document 01 names, and wrong desks: python3 tests/mustfail.py [WORD..]

For each row of the table below it tries the must-fail edit and its harmless twin, which writes something of the same meaning into
the same lines, on a copy of the crates. It prints the start of the first error for the edit, as rt tells it, and whether the twin is accepted, as it must be:
then the edit is refused for what it says, and not because its lines may not be touched. Words choose rows: a part of a label or of
what the row stands for. It takes long where little of the crates is proved yet; it is no part of ./test, which only asks that each edit is refused.
"""
import os
import re
import shutil
import subprocess
import sys
import tempfile
import textwrap
from typing import NamedTuple

ROOT = os.path.dirname(os.path.dirname(os.path.abspath(__file__)))
WIDTH = 150
MOST_LINES = 5  # of an error


class Row(NamedTuple):
    stands_for: str
    label: str    # crate/edit
    twin: tuple   # a new line for each that the edit has, in their order


LATER_BY_NOTHING = (  # the twin of a tail for n and some steps more
    "AtLeastTail n c r = (n + 0) * step_unit * weight_unit ^ n ≤ (n + 0) * step_unit * c + r * weight_unit ^ n",
    "    le_of_mul-le-mul_left {k = (n + 0) * 2 ^ 8} (go (65536 ^ n) tail) (omega arith)",
    "    go : (e : ℕ) → (n + 0) * 2 ^ 8 * e ≤ (n + 0) * 2 ^ 8 * c + r * e → (n + 0) * 2 ^ 8 * (a * e) ≤ (n + 0) * 2 ^ 8 * ((a + d) * c)",
)

ORDER_OF_RECORDS = (  # the twin of the order of a counter file's records
    "{ let (u, v, d) = key(file, i); let (a, b, c) = key(file, i + 1); (u, v, d) < (a, b, c) }",
)

# Registers that have to break the contracts (document 01, "Conditions of acceptance", 3); the mistakes of method; short runs (request A.1);
# counter machines (request A.2); marks (request A.3); the order of records (request A.4); live marks, and reasons; merges (request A.5); numbers by exit (request A.6); tails (request A.7); desks.
TABLE = [
    Row("takes no model", "filing/takes_no_model", ("(wellformed::check(file))",)),
    Row("takes no model", "wellformed/takes_no_model", ("0 < n && n % RECORD_BYTES == 0 && n <= 10240",)),
    Row("takes no delivery", "filing/takes_no_delivery", ("(certificate::check(&held.bytes[..held.length], file))",)),
    Row("takes no delivery", "delivery/takes_no_delivery", ("    delivery.len() == 8 * records_in(n, shape)",)),
    Row("takes no delivery, by definition", "verdict/takes_no_delivery",
        ("shaped_tests b s g (Some h) d = [] ++ (layout_tests s g h d ++ number_tests b s g h d)",)),
    Row("takes every delivery", "filing/takes_every_delivery", ("(certificate::check(&held.bytes[..held.length], file))",)),
    Row("takes every delivery of a right layout", "inequalities/takes_every_number",
        ("y > upper || (strict && live && y >= upper)", "unless(need > y, Reason::LowerTooLarge, place, y, need)",
         "unless(y > have, Reason::MeanTooSmall, place, have, y)", "if (!is_live(mark(live, row, q))) && value_at(block, e) != 0 {",
         "if (value_at(uppers, e)) < value_at(lowers, e) {")),
    Row("takes every delivery, by definition", "verdict/takes_every_delivery",
        ("shaped_tests b s g (Some h) d = [] ++ (layout_tests s g h d ++ number_tests b s g h d)",)),
    Row("files nothing while reporting success", "held/files_nothing", ("length: { let k = file.len(); k },",)),
    Row("files nothing while reporting success: the numbers are the former delivery's", "register/keeps_the_former_numbers",
        ("let given = self.holding(n, shape, &numbers); given", "pub holding-given-requires : goal.holding-given-requires", "holding-given-requires c =")),
    Row("checks the first delivery after a model and waves later ones through", "register/waves_later_deliveries_through",
        ("let another = held::is_held(self.delivery); let found = delivery_outcome(self.model, file); if let Err(why) = (found) {",
         *(f"{goal} c = let passed = delivery_passed _ _ (sym c.delivery_outcome-found.ensures" for goal in
           ("shape_for-shape-requires", "numbers_of-numbers-requires", "holding-requires")))),
    Row("marks a refused delivery, in definition and code", "register/refused_delivery_marked_known",
        ("turned_away r o = record { receipt = o; register = r }", "receipt: { let _known = calls::Mark::Known; Err(why) },")),
    Row("prints an invented margin", "held/invented_margin",
        ("let found = margin_with_lowers(model, delivery, n, shape); found",)),
    Row("prints an invented margin", "shares/invented_margin", ("    let mut least = 1048576;",)),
    Row("answers 42 with a delivery held", "held/answers_42_with_a_delivery_held", ("delivery.is_some() & true",)),

    Row("takes a lower without the strict upper", "certificate/strict_test_left_out",
        ("let side = Side::StrictUpper; side",)),
    Row("takes a lower without the strict upper", "inequalities/equal_upper_taken_beside_lowers",
        ("y > upper || (strict && live && y >= upper)",)),
    Row("takes a lower without the strict upper, by definition", "ppda/strict_upper_left_out",
        ("  pub strict : is_live (alive m s g p z q) ≡ true → f m s (2 ^ 20) u p z q < u p z q * sum_unit",)),
    # a rule's product: its weight times what it leads to, which for two pushed symbols is the sum over t; 2^36 of its unit are a 1,048,576th
    Row("rounds each product, its chance included, down to 1,048,576ths before adding", "equations/products_rounded",
        ("    weight * through >> 0 << 0",)),
    Row("leaves out the middle state t", "equations/middle_state_left_out",
        ("{ let k = value(block, n, r, y, t); k * value(block, n, t, x, q) }",)),
    Row("leaves out the middle state t in the mean steps", "equations/middle_state_left_out_of_means",
        ("(value(uppers, n, r, y, t)) * mean(means, n, t, x)",)),
    Row("leaves out the middle state t, by definition", "ppda/middle_state_left_out",
        ("through s d v r (two y x) q = sum_to (λ m. v r y m * v m x q) s",)),
    # `rest` starts with the lowers; `check-requires` asks that the block handed on is in range, and `returns-2` that it is the uppers
    Row("weighs r(t, X) by the lowers", "certificate/mean_steps_by_the_lowers",
        ("let weighs = self.uppers; return means::check(self.model, self.starts, weighs, block, self.n, v + v);",)),
    Row("weighs r(t, X) by the lowers, by definition", "ppda/mean_steps_by_the_lowers",
        ("  pub means : Means m s g (λ p z q. u p z q) r",)),
    Row("takes k rounds of f from zero for k steps", "ppda/k_steps_for_k_rounds", ("steps_of k = (1 + 1) ^ k - 1",)),
    Row("promises the lower of k rounds for more steps", "ppda/lower_promised_later", ("steps_of k = (1 + 1) ^ k - 1",)),
    Row("caps uppers at 1", "delivery/uppers_capped_at_one", ("Block::Uppers => 2097152, Block::Lowers => MOST_CHANCE,",)),
    # whatever the code does: an upper of W, 1,179,648, is above the cap
    Row("caps uppers at 1, by definition", "ppda/uppers_capped_at_one", ("most_chance = 2 ^ 21",)),

    Row("works the second symbol of a pair from the exit, not from the state between", "shortruns/pair_without_middle_state", ("* chance(model, starts, n, steps - j, n.row((t), x), q);",)),
    Row("leaves a pair as many steps as the rule that pushes it had", "shortruns/one_step_too_many_for_the_pair",
        ("_ => chance_of_pair(model, starts, n, (left), i, q),",)),
    Row("takes the first symbol's chance within j steps for that of step j alone", "shortruns/within_taken_for_exactly",
        ("sum += (within - 65536 * before)",)),
    Row("gives a chance of a short run over one power of 65,536 more", "shortruns/chance_over_one_power_more", ("let whole = certain((left));",)),
    Row("counts a short run that returns through any exit", "shortruns/any_exit_counted", ("0 => returned((r), q, whole),",)),
    Row("counts a run that returns through any exit, by definition", "ppda/any_exit_counted",
        ("returned_in q (some (at p [])) = let k = q in bit (eqb p k)",)),
    Row("lends the lowers for the uppers", "register/lists_have_lowers_for_uppers", ("let uppers = (self.numbers.uppers);",)),
    Row("looks a short run up in the row of the exit", "questions/short_run_of_another_row", ("chance(&bytes[..count], starts, n, steps, n.row((p), z), q)",)),
    Row("answers for four steps", "shortruns/four_steps_answered", ("pub const MOST_STEPS: usize = (3);",)),
    Row("promises nothing of an upper beside a short run", "history/short_promised_weaker",
        ("(n p z q c u : ℕ) → reply_to cs (within n p z q) ≡ value c → reply_to cs (upper p z q) ≡ value u → AtMostUpper n c (u)", "rw (same, ← one) (holds (n))")),
    Row("answers for four steps, by definition", "history/four_steps_by_definition", ("to_three k r = cond (leb k 3) r (refusal 45)",)),
    Row("refuses too many steps before the place, by definition", "history/steps_refused_before_the_place",
        ("plain_reply x (within n p z q) = of_model x.model (λ b. at_entry b p z q (cond (leb n 3) (value (chance (rules_of b) n p z q)) (refusal 45)))",)),
    Row("answers for three steps whatever is asked, by definition", "history/three_steps_whatever_is_asked",
        ("plain_reply x (within n p z q) = of_model x.model (λ b. at_entry b p z q (to_three n (value (let k = n in chance (rules_of b) k p z q))))",)),
    Row("promises a short run's chance of another exit", "history/short_chance_promised_of_another_exit",
        ("(n p z q c : ℕ) → reply_to cs (within n p z q) ≡ value c → (b : List ℕ) × Holds cs b × (let k = q in c ≡ chance (rules_of b) n p z k) × (n ≤ 3)",)),
    Row("does not list 45 for short runs", "history/too_many_steps_not_listed", ("listed (within n p z q) = 40 ∷ (44 ∷ (45 ∷ []))",)),

    Row("a move up pushes one symbol, by definition", "onecounter/up_pushes_one_symbol", ("push_for up = let pushed = two 0 0 in pushed",)),
    # So does this one with the number that is stored: `shift(file, i) / 1` is refused too.
    Row("a record pushes half of d symbols", "counter/half_of_d_pushed", ("    out[at + PUSHES_BYTE] = (shift(file, i)) as u8;",)),
    Row("down and up are exchanged, by definition", "onecounter/down_and_up_exchanged",
        ("shifted down n = let c = n in c", "shifted up n = let c = n in suc (suc c)", "push_for down = let pushed = nothing in pushed", "push_for up = let pushed = two 0 0 in pushed")),
    Row("down and up are exchanged, by definition", "counter/down_and_up_exchanged", ("shift_of zero = let d = down in d", "shift_of (suc (suc d)) = let e = up in e")),
    Row("the count goes on below zero, by definition", "onecounter/goes_on_below_zero", ("after_moves u zero (e ∷ l) = cond (eqb 0 1) (some (stands u zero)) none",)),
    Row("records ascend by (v, u, d)", "counter/order_by_v_first", ORDER_OF_RECORDS),
    Row("records ascend by (v, u, d), by definition", "counter/order_by_v_first_by_definition",
        ("move_key c i = from_at c i ∷ (to_at c i ∷ (shift_at c i ∷ []))",) + ORDER_OF_RECORDS),
    Row("a state that is named as v alone is not summed, by definition", "counter/state_named_as_v_not_summed",
        ("state_in c i = let u = from_at c i in max u (to_at c i)", "        state = state.max(from(file, i).max((to(file, i))));")),
    Row("a state's sum is tested before the records, by definition", "counter/sums_tested_before_records",
        ("    ∷ (([] ++ each (moves_in c) (move_tests c)) ++ each (states_in c) (state_tests c))",
         "let parts = (passed_append (each (moves_in c) (move_tests c)) (each (states_in c) (state_tests c))).0 h.1 in",
         "let records = moves_right c (not-false _ h.0) ((accepted_exactly (each (moves_in c) (move_tests c))).1 parts.0) in",
         "let sums = (passed_each (states_in c) (state_tests c)).0 parts.1 in",
         "(passed_append (each (moves_in c) (move_tests c)) (each (states_in c) (state_tests c))).1 (",
         "FIRST",
         "(passed_each (states_in c) (state_tests c)).1 (λ u l. (sum_exactly c u).1 (state_sum_is c u ∙ file.machine.state_sum u l)),",
         "(passed_each (moves_in c) (move_tests c)).1 (λ i l. (move_exactly c i).1 (m.right i l, ascends_of_file c m i l)),")),
    Row("the fourth byte is not tested", "counter/fourth_byte_not_tested", ("        && 0 == byte_in(file, i, ZERO_BYTE)",)),
    Row("the made model has its states exchanged, by definition", "onecounter/states_of_a_move_exchanged",
        ("rule_for e = (let u = e.from in rule u 0 e.to (push_for e.shift) e.weight)",)),
    Row("the last byte of the weight is ignored, by definition", "counter/last_weight_byte_ignored",
        ("use Rattle.std.specs.Prelude.{ℕ, suc, ◌+◌, ◌*◌, ◌/◌, max, List, [], ◌∷◌, length, get_or}", "weight_in c i = word_at c ((record_bytes * i) + weight_byte)", "    words::word(file, RECORD_BYTES * i + WEIGHT_BYTE)")),
    Row("a counter file is judged where a model is held, and refused by 41 where none is", "counter/judged_where_a_model_is_held",
        ("    if register.has_model() & true {",)),

    Row("the plain pair holds the counter file for the model that it makes", "history/counter_file_held_as_the_model",
        ("model_after (file_counter c) t former = cond t (some (let f = c in counter_model f)) former",)),
    Row("a counter file is judged before 41", "history/counter_judged_before_the_register",
        ("plain_reply x (file_counter c) = if_none x.model (by_verdict (let f = c in counter_verdict f) accepted)",)),
    Row("does not list 48 for counter files", "history/counter_sum_not_listed", ("listed (file_counter c) = 41 ∷ (46 ∷ (47 ∷ (48 ∷ [])))",)),
    Row("promises an upper of no passage", "history/passage_upper_promised_weaker",
        ("PassageUpperShown cs = (c : List ℕ) (u v a : ℕ) → HoldsCounter cs c → reply_to cs (upper u 0 v) ≡ value a → (n : ℕ) → AtMostUpper n (first_passage (moves_of c) n u v) a", "passage_upper_shown cs c u v a at e n =",
         "    passage_upper_of_file c at.file u v a (subst (λ m. UpperHolds (rules_of m) u 0 v a) (one_model held at.held) holds) n")),
    Row("promises a lower of passage in another state", "history/passage_lower_promised_of_another_state",
        ("pub holds : (let e = v in PassageLower (moves_of c) u e l upper_answered margin_answered)",)),
    Row("promises a mean of no moves", "history/passage_mean_promised_weaker",
        ("PassageMeanShown cs = (c : List ℕ) (u r : ℕ) → HoldsCounter cs c → reply_to cs (mean_steps u 0) ≡ value r → (n : ℕ) → Rattle.ppda.specs.Bounds.AtMostMean n (Rattle.onecounter.specs.Passage.mean_moves (moves_of c) n u) r",
         "passage_mean_shown cs c u r at e n =",
         "    passage_mean_of_file c at.file u r (subst (λ m. MeanHolds (rules_of m) u 0 r) (one_model held at.held) holds) n")),
    Row("promises a short passage in another state", "history/passage_short_promised_of_another_state",
        ("(c : List ℕ) (n u v x : ℕ) → HoldsCounter cs c → reply_to cs (within n u 0 v) ≡ value x → (let e = v in x ≡ first_passage (moves_of c) n u e)",)),
    # The refusal is a missing field, and a harmless field more is refused likewise; the twin adds none.
    Row("promises what is shown of counter files that nobody can hold", "history/holds_counter_that_nobody_has",
        ("-- After an accepted counter file the model that it makes is held, and that is a model file.", "CounterHeld cs = (c : List ℕ) → reply_to cs (file_counter c) ≡ accepted → (HoldsCounter (file_counter c ∷ cs) c) × ModelFile (counter_model c)",
         "    ((record { file = file; held = rw e }), made_right c file)")),
    Row("the desk reads a counter file before the register's own reasons", "script/counter_file_read_before_own_reasons", ("Change::Counter => !model & true,",)),

    Row("marks by the uppers alone", "filing/marks_by_the_uppers_alone", ("same(&numbers.lowers, &former.lowers, v)", "same(&numbers.means, &former.means, n.rows())")),
    Row("marks by the uppers alone, by definition", "history/known_by_the_uppers_alone",
        (
            "use Rattle.std.specs.Prelude.{ℕ, ◌*◌, Bool, false, cond, ◌&&◌, List, [], ◌∷◌, eqb, ltb, leb, Some, None, Err, Ok}",
            "same_as s g (Some h) (Some k) d e = same_shape h k && (let n = records_in s g h in all_to (same_record d e) n)",
        )),
    Row("marks by the lowers for the uppers", "filing/marks_by_the_lowers", ("same(&numbers.uppers, &former.uppers, v)",)),
    Row("compares no lowers", "filing/lowers_not_compared", ("same(&numbers.lowers, &former.lowers, v)",)),
    Row("compares as many lowers as there are rows", "filing/lowers_compared_for_rows_alone", ("same(&numbers.lowers, &former.lowers, v)",)),
    Row("compares no mean steps", "filing/means_not_compared", ("same(&numbers.means, &former.means, n.rows())",)),
    Row("compares no shapes", "held/shapes_not_compared", ("shape::same_shape(shape, former)",)),
    Row("compares no shapes, by definition", "history/known_whatever_the_shape",
        ("same_as s g (Some h) (Some k) d e = (let t = same_shape h k in t) && all_to (same_record d e) (records_in s g h)",)),
    Row("compares shapes by their lowers alone", "delivery/shapes_compared_by_lowers_alone",
        ("(has_lowers(a) == has_lowers(b)) & (has_means(a) == has_means(b))",)),
    Row("promises of marks before the first call alone", "history/marks_promised_at_the_start_alone",
        ("  pub known_held : KnownHeld (let xs = cs in xs)", "use mathlib.Core.List.{List, []}", "  known_held = known_held (let xs = cs in xs);")),
    Row("promises nothing of a delivery that is known", "history/known_promised_of_nothing",
        ("KnownHeld cs = (d : List ℕ) → reply_to cs (file_delivery d) ≡ known → (e : List ℕ) × HoldsDelivery cs e × (Bytes e → Bytes d → let x = d in e ≡ x)", "(by.former, by.held_delivery, λ bytes bytes'. (same_bytes _ _ d right bytes bytes').0 by.same)")),

    Row("weighs Y and X alike in a record's number", "model/top_and_under_weighed_alike",
        ("    KEY_BASE * ((((p * KEY_BASE + z) * KEY_BASE + q) * KEY_BASE + l) * KEY_BASE + y) + x",)),
    # These two change the table of a record's number too, so that the theorem is what refuses them.
    Row("weighs Y and X alike in a record's number, by definition", "model/top_and_under_weighed_alike_by_definition",
        ("key_bases = key_base ∷ key_base ∷ key_base ∷ key_base ∷ key_base ∷ 256 ∷ []",
         "    KEY_BASE * ((((p * KEY_BASE + z) * KEY_BASE + q) * KEY_BASE + l) * KEY_BASE + y) + x",
         "pub number_read : key_number (key records_file 0) ≡ 256 ^ 5 + 5 * 256 ^ 4 + 3 * 256 ^ 3 + 2 * 256 ^ 2 + 9 * 256 + 7")),
    Row("forms a record's number to the base 255", "model/base_255", ("pub const KEY_BASE: u64 = 0x100;",)),
    Row("forms a record's number to the base 255, by definition", "model/base_255_by_definition",
        ("key_base = (256)", "pub const KEY_BASE: u64 = 0x100;",
         "pub number_read : key_number (key records_file 0) ≡ 256 ^ 5 + 5 * 256 ^ 4 + 3 * 256 ^ 3 + 2 * 256 ^ 2 + 9 * 256 + 7")),
    Row("takes equal numbers as ascending", "wellformed/equal_numbers_taken", ("i == 0 || number > before",)),
    Row("does not keep the number of the record before", "wellformed/number_before_not_kept", ("        let last = number; before = last;",)),
    Row("does not test X where nothing is pushed", "wellformed/unused_x_not_tested", ("0 => x == 0 && y == 0,",)),

    Row("finds the live marks a round short", "live/marks_a_round_short", ("for _left in (0usize..n.entries()).rev() {",)),
    Row("finds the live marks rounds short, by definition", "ppda/too_few_rounds",
        ("alive m s g = λ p z q. mark m s (entries_in s g) p z q",)),
    Row("marks every entry as live", "live/everything_live", ("a | b | 0",)),
    Row("names the block, or too many steps, before the place", "calls/last_test_before_place",
        ("if !(inside) & true {", "return refused((Reason::NotOfModel), 0);", "FIRST", "return refused((reason), 0);", "if !last | false {")),
    Row("names the block where too many steps are asked for", "calls/own_reason_lost", ("return refused((reason), 0);",)),
    Row("names one reason of a record for another", "wellformed/two_reasons_swapped",
        ("return refused((Reason::OutOfRange), i);", "FIRST", "return refused((Reason::UnusedNotZero), i);")),

    # Merges (request A.5).
    Row("merges by the larger upper", "merging/larger_upper_kept", ("let most = n.entries(); kept_of(u32::min, &former.uppers, &uppers, most)",)),
    Row("merges by the smaller lower", "merging/smaller_lower_kept", ("let most = n.entries(); kept_of(u32::max, &former.lowers, &lowers, most)",)),
    Row("merges by the smaller lower, by definition", "merging/smaller_lower_by_definition",
        ("lowers = if_standing (has_lowers h && has_lowers k) (kept_to max (entries_in (states_of b) (symbols_of b)) (former.lowers) second.lowers);",
         "(kept_to max (entries_in s g) (former.lowers) (if_standing (has_lowers k) (listed_by_exit s g (lowers_of s g d))))",
         "kept_of(u32::max, &former.lowers, &(lowers), n.entries())")),
    Row("merges by the larger mean", "merging/larger_mean_kept", ("let most = n.rows(); kept_of(u32::min, &former.means, &means, most)",)),
    Row("merges by the larger mean, by definition", "merging/larger_mean_by_definition",
        ("means_to n true true l k = kept_to min (n) l k", "kept_of(u32::min, &former.means, &(means), n.rows())")),
    Row("keeps the mean steps of the second where both have any", "merging/mean_of_the_second_where_both_have_it",
        ("let most = n.rows(); kept_of(u32::min, &former.means, &means, most)",)),
    Row("keeps the larger for the smaller", "merging/smaller_is_larger",
        ("let most = n.entries(); kept_of(u32::min, &former.uppers, &uppers, most)", "let most = n.rows(); kept_of(u32::min, &former.means, &means, most)")),
    Row("has lowers where either delivery has them", "merging/lowers_where_either_has_them",
        ("!(!has_lowers(held) | !has_lowers(second))",)),
    Row("has lowers where either delivery has them, by definition", "delivery/lowers_where_either_has_them",
        ("merged_shape h k = shape_with (has_lowers k && has_lowers h) (has_means h || has_means k)",)),
    Row("has mean steps where both deliveries have them", "merging/means_where_both_have_them",
        ("!(!has_means(held) & !has_means(second))",)),
    Row("merges by the larger upper, by definition", "delivery/larger_upper_merged",
        ("    (λ p z q. smaller (uppers_of s g e) (uppers_of s g d) p z q)",)),
    Row("shows the margin of the first", "merging/margin_of_the_first", ("        margin: { let own = Numbers { uppers, lowers, means, margin }; own.margin },",)),
    Row("shows the margin of the first, by definition", "merging/margin_of_the_first_by_definition",
        ("          (margin (rules_of b) (states_of b) (symbols_of b) (entries_by_exit (states_of b) (symbols_of b) (kept_to min (entries_in (states_of b) (symbols_of b)) former.uppers second.uppers))) 0;",)),
    Row("keeps the uppers of the second", "merging/second_uppers_kept", ("let most = n.entries(); kept_of(u32::min, &former.uppers, &uppers, most)",)),
    Row("replaces the held delivery by the second", "register/second_held_after_a_merge",
        ("let merged = merged_numbers((model), n, first, self.numbers, second, file);", "self.holding(n, merged_shape((first), second), &merged)", "pub merged_numbers-merged-requires : goal.merged_numbers-merged-requires", "merged_numbers-merged-requires c =")),
    Row("replaces the held delivery by the second, by definition", "history/second_held_after_a_merge",
        ("merged_with (some b) (some e) d = cond false none (some (merged b e d))",)),
    Row("keeps the held delivery and says that it merged", "register/merge_keeps_the_held_delivery",
        ("let given = self.holding(n, merged_shape(first, second), &merged); given", "pub holding-given-requires : goal.holding-given-requires", "holding-given-requires c =")),
    Row("keeps the held numbers under the merged shape", "register/merge_keeps_the_first_numbers", ("let given = self.holding(n, merged_shape(first, second), &merged); given", "pub holding-given-requires : goal.holding-given-requires", "holding-given-requires c =")),
    Row("tests 42 before 40", "filing/no_delivery_before_no_model", ("    if !(model & true) {",)),
    Row("tests 42 before 40, by definition", "history/no_delivery_before_no_model",
        ("    of_model x.model (λ b. of_delivery x.delivery (λ e. by_verdict (verdict b d) (cond false new (mark_of b (some e) (merged b e d)))))",)),
    Row("lists no 42 for a merge", "history/no_delivery_not_listed_for_a_merge", ("listed (merge d) = 40 ∷ Rattle.std.specs.Prelude.◌+◌ 40 2 ∷ 20 ∷ 21 ∷ 22 ∷ 23 ∷ 24 ∷ 25 ∷ 26 ∷ 27 ∷ []",)),
    Row("marks what is merged against itself", "register/merge_marked_against_itself", ("Register { numbers: self.numbers, ..self }.holding(n, merged_shape(first, second), &merged)",)),
    Row("marks what is merged against the second delivery", "history/merge_marked_against_the_second",
        ("of_model x.model (λ b. of_delivery x.delivery (λ e. by_verdict (verdict b d) (cond (same_delivery b e (merged b e d)) known new)))",)),
    Row("promises of merges before the first call alone", "history/merges_promised_at_the_start_alone",
        ("  pub merges_held : MergeHeld (let xs = cs in xs)", "use mathlib.Core.List.{List, []}", "  merges_held = merge_held (let xs = cs in xs);")),
    Row("promises of uppers before the first call alone", "history/uppers_promised_at_the_start_alone",
        ("  pub uppers_true : UpperShown (let xs = cs in xs)", "use mathlib.Core.List.{List, []}", "  uppers_true = upper_shown (let xs = cs in xs);")),
    Row("promises that a merge makes uppers no smaller", "history/merge_promised_to_blunt",
        ("pub uppers : (p z q u w : ℕ) → reply_to cs (upper p z q) ≡ value u → reply_to (merge d ∷ cs) (upper p z q) ≡ value w → (let x = u in w ≤ x)",
         "omega (arith, upper_sharper cs t.model t.former t.next d t.before t.after p z q u w t.was t.is);")),
    Row("promises the larger of two margins", "ppda/margin_at_least_the_larger",
        ("use Prim.Native.Nat.{ℕ, ◌*◌, ◌≤◌, ◌<◌, min}",
         "  pub margin_merged : (u v : Vector) → min (margin m s g v) (margin m s g u) ≤ margin m s g (smaller u v)",
         "→ min (margin m s g v) (margin m s g u) ≤ share (smaller u v p z q) (f m s chance_unit (smaller u v) p z q)")),
    Row("promises a lower strictly under the other upper", "ppda/lower_strictly_under_the_other_upper",
        ("pub lower_under_upper : (u l v : Vector) → Uppers m s g u → Lowers m s g u l → Uppers m s g v → ((p z q : ℕ) → p < s → z < g → q < s → l p z q ≤ v p z q)",)),
    Row("reads the file of a merge before 42", "script/merge_file_read_before_42",
        ("Change::Merge => delivery && model,",)),

    # Uppers and lowers by exit (request A.6).
    Row("exchanges state and exit in the place by exit", "model/state_and_exit_exchanged_in_a_place", ("(self.states * q + p) * self.symbols + z",)),
    Row("puts the symbol before the state in the place by exit", "model/symbol_before_state_in_a_place", ("(self.states * q + p) * self.symbols + z",)),
    Row("exchanges row and exit in the place by exit", "model/row_and_exit_exchanged_in_a_place", ("self.rows() * q + row",)),
    Row("leaves the row out of the place by exit", "model/row_left_out_of_a_place", ("self.rows() * q + row",)),
    Row("exchanges state and exit in the place by exit, by definition", "walks/state_and_exit_exchanged_by_definition",
        ("exit_place s g p z q = row_at g (row_at s q p) z", "by_exit s g h i = h ((i / g) % s) (i % g) (i / g / s)")),
    Row("puts the symbol before the state in the place by exit, by definition", "walks/symbol_before_state_by_definition",
        ("exit_place s g p z q = row_at g (row_at s q p) z", "by_exit s g h i = h ((i / g) % s) (i % g) (i / g / s)")),
    Row("has the order of files for the order by exit, by definition", "walks/file_order_by_definition",
        ("exit_place s g p z q = row_at g (row_at s q p) z", "by_exit s g h i = h ((i / g) % s) (i % g) (i / g / s)")),
    Row("puts the numbers of a block by the order of files", "held/walk_in_file_order", ("list[(at)] = (value_at(block, e)) as u32;",)),
    Row("leaves the first exit of a block out", "held/first_exit_left_out", ("for q in 0usize..n.states {",)),
    Row("asks with state and exit exchanged", "held/asked_with_state_and_exit_exchanged", ("number_at(list, (n.exit_place(p, z, q)))",)),
    # with the names of the call in the proof
    Row("asks in the order of files", "held/asked_in_file_order",
        ("number_at(list, (n.exit_place(p, z, q)))", "pub exit_place-requires : goal.exit_place-requires", "exit_place-requires c =", "c.number_at.ensures ∙ rw (c.exit_place.ensures.0) (sym (exit_there _ _ _ _ _ _ (sym c.has_entry.ensures ∙ c.if-has_entry.true)))")),
    Row("merges with the second's uppers in the order of files, in the contract", "merging/second_in_file_order_in_the_contract",
        ("use Rattle.held.specs.Held.{if_standing, listed_by_exit, listed_rows}",
         "uppers_merged s g former d = kept_to min (entries_in s g) former.uppers (let l = listed_by_exit s g (uppers_of s g d) in l)")),
    Row("works the margin of a merge out by the order of files", "merging/margin_walk_in_file_order",
        ("put_word(block, RECORD_BYTES * e + VALUE_BYTE, (list[at]));",)),
    Row("works the margin of a merge out by the order of files, by definition", "merging/margin_in_file_order_by_definition",
        ("use Rattle.held.specs.Places.{entries_by_exit}",
         "margin_in b u = margin (rules_of b) (states_of b) (symbols_of b) (λ p z q. entries_by_exit (states_of b) (symbols_of b) u p z q)")),
    Row("has a register before A.6 that shows lowers for uppers", "history/lowers_read_for_uppers_in_file_order",
        ("(entry_value r.model.states r.model.symbols (let l = r.numbers.uppers in l) p z q)",)),
    Row("says that uppers are held with state and exit exchanged", "history/state_and_exit_exchanged_where_uppers_are_held",
        ("pub uppers : (p z q n : ℕ) → reply_of r (upper p z q) ≡ value n → get_or r.numbers.uppers ((q * r.model.states + (let x = p in x)) * r.model.symbols + z) 0 ≡ n",)),
    Row("says that answers are the same before the first call alone", "history/same_answers_at_the_start_alone",
        ("SameAnswers cs = (c : Call) → reply_to (let xs = cs in xs) c ≡ reply_by_file (register_by_file cs) c", "same_answers ds c = let cs : List Call = ds in")),

    # How long until nearly all are back (request A.7). One step later is true of the runs: it is refused as not the request's.
    Row("promises the tail 1 − r/(n + 1)", "ppda/tail_one_step_later", LATER_BY_NOTHING),
    Row("promises the tail 1 − r/(n + 2)", "ppda/tail_two_steps_later", LATER_BY_NOTHING),
    Row("promises the tail with r taken in whole steps", "ppda/tail_in_whole_steps",
        ("AtLeastTail n c r = n * (step_unit * weight_unit ^ n) ≤ n * (step_unit * c) + r * weight_unit ^ n", "pub window_enough : (n c r a d : ℕ) → 0 < n → AtLeastTail n c r → r * (a + d) ≤ n * (2 ^ 8 * d) → a * 65536 ^ n ≤ (a + d) * c",
         "    le_of_mul-le-mul_left {k = n * 2 ^ 8} (go (65536 ^ n) tail) (mul-pos some (lit< tt))",
         "    go : (e : ℕ) → n * (2 ^ 8 * e) ≤ n * (2 ^ 8 * c) + r * e → n * 2 ^ 8 * (a * e) ≤ n * 2 ^ 8 * ((a + d) * c)")),
    Row("promises the tail with r rounded down to whole steps", "ppda/tail_rounded_down",
        ("use Rattle.std.specs.Prelude.{ℕ, ◌+◌, ◌-◌, ◌*◌, ◌/◌, ◌^◌, ◌≤◌, ◌<◌, true, false, List, ◌≡◌}", "AtLeastTail n c r = n * step_unit * weight_unit ^ n ≤ n * step_unit * c + (r + 0) * weight_unit ^ n",
         "use Prim.Native.Nat.{ℕ, zero, suc, ◌+◌, ◌*◌, ◌/◌, ◌^◌, ◌≤◌, ◌<◌}", "    tail_of_mean n = rw (← whole n) (omega (arith, few_away n))",
         "go : (e : ℕ) → n * 2 ^ 8 * e ≤ n * 2 ^ 8 * c + (r + 0) * e → n * 2 ^ 8 * (a * e) ≤ n * 2 ^ 8 * ((a + d) * c)",
         "    go e h = omega (arith, mul-le-mul_right (a + d) h, mul-le-mul_right e booked)",
         "use Prim.Native.Nat.{ℕ, zero, suc, ◌+◌, ◌*◌, ◌/◌, ◌^◌, ◌≤◌}", "no_figure r h = omega (arith, rw (chance_by_step_lem forever (suc r) 0 (0 ∷ []) 0, never_back (suc r)) at (h (suc r)), power_positive (suc r))", "not_one_exit h =")),
    Row("promises the tail of one exit alone", "ppda/tail_of_one_exit", ("returned_within m s n p z = let k = s in sum_to (λ q. chance m n p z q) k",)),
    Row("promises the tail of short runs alone", "ppda/tail_of_short_runs_alone",
        ("TailHolds m s p z r = (n : ℕ) → (let k = n in AtLeastTail k (returned_within m s k p z) r)", "    tail_of_mean n = rw (← whole n) (omega (arith, few_away (let k = n in k)))",
         "no_figure r h = omega (arith, rw (chance_by_step_lem forever (suc r) 0 (0 ∷ []) 0, never_back (suc r)) at (h (let k = r in suc k)), power_positive (suc r))")),
    Row("promises the tail of no row of two files", "certificate/tails_of_no_row",
        ("pub tails : has_means h ≡ true → (let t = s in TailsHold (rules_of b) t g (means_of t g h d))",
         "    tails = λ has p z hp hz. tail_holds _ _ _ _ _ (model_of b d x) (uppers_of_lem b d x) (means_of_lem b d x has) p z hp hz;")),
    Row("promises the tail of printed lines of the first state alone", "reader/tail_of_the_first_state_alone",
        ("pub tails : (p z r : List ℕ) → LineIn b d (steps_word ∷ (p ∷ (z ∷ (r ∷ [])))) → TailHolds (rules_of b) (states_of b) (number_in p) (number_in z) (number_in r)",
         "  tails = λ p z r i. steps_line_read b d (TailHolds (rules_of b) (states_of b)) (λ h holds. holds.tails) p z r i;",
         "tail_learnt = ((reader w_file (w_delivery 524288 512)).tails _ _ _ (let i = steps_stand in i), (reader w_file (w_delivery 524288 512)).tails _ _ _ last_steps_stand)")),
    Row("promises a tail of few moves alone", "onecounter/tail_of_few_moves_alone",
        ("PassageTail m s u r = (n : ℕ) → AtLeastTail (let k = n in k) (sum_to (λ v. first_passage m n u v) s) r", "passage_tail s r h n = let k = n in subst (λ x. AtLeastTail n (sum_to x s) r) (fun_ext (λ v. sym (passage_is_chance m n u v))) (h n)", "tail_bites r h = omega (arith, h 2)",
         "no_figure r h = TailEdges.no_figure r (λ n. subst (λ x. AtLeastTail n (sum_to x 1) r) (fun_ext (λ v. passage_is_chance forever n 0 v)) (let k = n in h k))")),
    Row("promises a tail of no passage", "onecounter/tail_promised_weaker",
        ("PassageTail m s u r = (n : ℕ) → (let k = s in AtLeastTail n (sum_to (λ v. first_passage m n u v) k) r)",
         "  passage_tail s r h n = subst (λ x. AtLeastTail n (sum_to x s) r) (fun_ext (λ v. sym (passage_is_chance m n u v))) (let k = n in h k)")),
    Row("promises a tail of everybody back", "history/tail_promised_of_everybody_back",
        ("TailShown cs = (p z r : ℕ) → reply_to cs (mean_steps p z) ≡ value r → (b : List ℕ) × Holds cs b × ((n : ℕ) → Rattle.ppda.specs.Bounds.AtLeastTail n (Rattle.ppda.specs.Chances.returned_within (rules_of b) (states_of b) n p z) r)",
         "tail_shown = figure_shown (λ b p z r. (n : ℕ) → Rattle.ppda.specs.Bounds.AtLeastTail n (returned_within (rules_of b) (states_of b) n p z) r) (λ b d h holds has p z hp hz n. holds.tails has p z hp hz n)")),
    Row("promises a tail of one exit of what is shown", "history/tail_promised_of_one_exit",
        ("TailShown cs = (p z r : ℕ) → reply_to cs (mean_steps p z) ≡ value r → (b : List ℕ) × Holds cs b × (let s = states_of b in TailHolds (rules_of b) s p z r)",)),
    Row("promises of tails before the first call alone", "history/tails_promised_at_the_start_alone",
        ("  pub tails_true : TailShown (let xs = cs in xs)", "use mathlib.Core.List.{List, []}", "  tails_true = tail_shown (let xs = cs in xs);")),
    Row("promises of tails of first passage before the first call alone", "history/passage_tails_promised_at_the_start_alone",
        ("  pub passage_tails_true : PassageTailShown (let xs = cs in xs)", "use mathlib.Core.List.{List, []}", "  passage_tails_true = passage_tail_shown (let xs = cs in xs);")),

    Row("the desk replies to the call before, by definition", "script/reply_to_the_call_before",
        ("use Rattle.std.specs.Prelude.{ℕ, Bool, false, not, ◌&&◌, List, [], ◌∷◌, ◌++◌, map, get_or, ◌≡◌}", "use Rattle.calls.specs.Calls.{Call, clear, file_model, file_counter, file_delivery, merge, cleared}",
         "text_by es (call c) = reply_line (plain_reply (pair_of ([] ++ es)) c)")),
    Row("the desk answers a question from what was held before the filing", "service/reply_from_before_the_call",
        ("FIRST", "            v = (register).view();", "register = (changed.register);")),
    Row("the desk keeps what it found of a model that is no longer held", "service/index_from_before_the_change",
        ("            sizes = (none());",)),
    Row("the desk clears at an unclear line", "said/unclear_line_clears", ("return (Said::Unclear);",)),
    Row("the desk clears at an unclear line, by definition", "script/unclear_line_clears", ("events_by es unclear = [] ++ es",)),
    Row("the desk writes known for new", "replies/known_written_for_new", ('Response::Received(Ok(Mark::New)) => put(out, (at), b"new\\n"),',)),
    Row("the desk reads n of `within` after the entry", "said/steps_read_after_the_entry",
        ("let [steps, p, z, q] = (numbers);",)),
    Row("the desk reads a number as its last digit", "spelling/number_is_its_last_digit", ("10 * n + usize::from(digit - b'0')",)),
    Row("the desk reads a file before the register's own reasons", "script/file_read_before_own_reasons", ("Change::Model => !model & true,",)),
    Row("the desk reads the name of a counter file a byte late, in definition and code", "service/name_read_a_byte_late",
        ("name_from Counter = (length counter_word) + 1", "        Change::Counter => (8),")),
    Row("the desk prints the replies in another order, by definition", "script/replies_in_another_order",
        ("printed_after es (l ∷ ls) = text_by es (asks l) ++ ([] ++ printed_after (events_by es (asks l)) ls)",)),
]


def edit_lines(label):
    crate, name = label.split("/")
    with open(os.path.join(ROOT, "crates", crate, "must-fail", name + ".edit")) as file:
        return file.read().splitlines()


def twin_lines(row):
    """The edit with the twin's new lines."""
    lines = edit_lines(row.label)
    places = [i for i, line in enumerate(lines) if line.startswith("new:")]
    if len(places) != len(row.twin):
        sys.exit(f"{row.label}: the edit has {len(places)} new lines, and its twin {len(row.twin)}")
    for i, new in zip(places, row.twin):
        lines[i] = "new: " + new
    return lines


def make_copy(work, rows):
    """The crates with the rows' edits and twins alone. rt finds what other checkouts on this machine have proved of the same files."""
    shutil.copytree(os.path.join(ROOT, "crates"), os.path.join(work, "crates"), ignore=shutil.ignore_patterns("must-fail", "out"))
    shutil.copy(os.path.join(ROOT, "crates.txt"), work)
    for row in rows:
        crate, name = row.label.split("/")
        folder = os.path.join(work, "crates", crate, "must-fail")
        os.makedirs(folder, exist_ok=True)
        for file_name, lines in ((name, edit_lines(row.label)), (name + "-twin", twin_lines(row))):
            with open(os.path.join(folder, file_name + ".edit"), "w") as file:
                file.write("\n".join(lines) + "\n")


def without_prefixes(text):
    """What rt says, without the prefixes of modules."""
    return re.sub(r"(?<![/\w])(?:Rattle\.\w+|mathlib|native|lib|mir|borrow|denote|Prim)(?:\.[\w-]+)*\.(?=[\w◌«])", "", text)


def shown(row, edit, twin):
    """Shows a row by what rt said of its edit and of its twin; whether both are as they must be."""
    refused, accepted = edit.startswith("refused, as it must be"), twin.startswith("NOT REFUSED: the crate is still proved")
    print(f"{row.label}: {row.stands_for}")
    print("\n".join("    " + line for line in textwrap.wrap(without_prefixes(edit), WIDTH - 4)[:MOST_LINES]))
    print("    twin accepted" if accepted else "\n".join("    " + line for line in textwrap.wrap("twin NOT ACCEPTED: " + without_prefixes(twin), WIDTH - 4)[:MOST_LINES]), flush=True)
    return refused and accepted


def try_all(work, rows):
    """Shows each row once all edits and twins have been tried; whether all are as they must be."""
    make_copy(work, rows)
    crates = sorted({row.label.split("/")[0] for row in rows})
    said = {}
    with subprocess.Popen(["rt", "must-fail", *crates], cwd=work, stdout=subprocess.PIPE, stderr=subprocess.STDOUT, text=True) as run:
        for line in run.stdout:
            told = re.match(r"rt: must-fail (\S+)\.edit: (.*)", line)
            if told:
                said[told[1]] = told[2]
            elif "error" in line or "did not build" in line:
                print(line, end="", flush=True)
    return all([shown(row, said.get(row.label, "NOT TRIED"), said.get(row.label + "-twin", "NOT TRIED")) for row in rows])


def main():
    words = sys.argv[1:]
    rows = [row for row in TABLE if not words or any(word in row.label or word in row.stands_for for word in words)]
    with tempfile.TemporaryDirectory() as work:
        right = try_all(work, rows)
    print(f"{len(rows)} rows: " + ("each edit is refused, and each twin accepted" if right else "NOT all as they must be"))
    sys.exit(0 if right else 1)


if __name__ == "__main__":
    main()
