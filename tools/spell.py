#!/usr/bin/env python3
"""Brings the names of this repository's own definitions and lemmas to snake case.

usage: tools/spell.py [--dry]        at the top of the repository, once, after Rattle's own port script

A name is the repository's own where a file of specs/ or proofs/ declares it. `callOf` becomes
`call_of`, `first-unique` becomes `first_unique`; types and modules keep their capitals. Names that
are imported from Rattle's libraries stay, and so do names of src/, strings, inputs and outputs.
It prints each pair of names that would fall together, and renames none of such a pair.
"""
import glob
import os
import re
import sys

TOKEN = re.compile(r"(?<![\w'\-◌])([^\W\d][\w'₀-₉]*(?:-[\w'₀-₉]+)*)(?![\w◌])")
DECLARED = re.compile(r"^\s*(?:(?:pub|abbrev|unfoldable|data|record|opaque)\s+)*([^\W\d][\w'₀-₉]*(?:-[\w'₀-₉]+)*)(?:\s+[\(\{\w].*?)?\s:(?:\s|$)")
TICKED = re.compile(r"`([^`\n]+)`")


# Lemmas that Rattle's script had brought to snake case already.
LEMMAS_TURNED = set(
    """
    above_new add_at add_free add_r add_spec add_start add_step add_total after_frame after_list
    all_append all_digits all_hold all_one all_pass answer_at any_order array_long as_it_was
    as_long as_written at_b at_bare at_first at_most at_n at_next at_p at_position at_set
    at_slot at_turn below_all below_end beside_long beside_none between_ends bit_at bit_le
    bit_not bridge_in by_bytes by_call by_lines by_number by_one by_place by_value bytes_back
    bytes_fit bytes_inside bytes_past call_at call_kept call_none call_step calls_same cells_are
    cells_ext cells_fit choose_spec clear_none comes_back cons_right count_less count_none
    count_past counted_next counted_none counted_skip counted_start counts_of covers_below
    digit_and digit_low digit_or digits_step digits_value distinct_append distinct_of end_reads
    ends_same enter_spec enum_told eq_of eqb_comm eqb_no eqb_yes every_more false_of_not
    filled_at filled_more filled_next filled_none first_small first_some first_taken first_three
    fits_below folded_start found_at frame_refused free_all free_more free_was from_first
    from_last from_next from_second goes_at goes_load goes_on goes_set good_more good_of has_all
    has_some head_plain head_read held_after held_by held_first held_more held_none held_on
    held_test in_frame in_memory in_one in_order in_place in_reach is_digit is_false is_free
    is_last is_lost is_read is_true kept_at kept_same last_cons last_found last_none last_one
    last_rest le_of least_at leb_no leb_yes left_after left_by left_out left_step lends_shared
    limits_of line_before line_first line_frame line_other line_read line_reads line_refused
    lines_after lines_at lines_cons lines_from lines_join lines_rest lines_start linked_up
    load_spec local_out lt_of ltb_iff ltb_next ltb_no ltb_yes made_word main_spec mark_spec
    marked_all marked_more mask_below mask_first mask_fits mask_is mask_low mask_lt met_at
    moved_other mul_at mul_next mut_back ne_of neither_left neither_right never_both never_first
    new_is next_fits next_le next_row no_call no_cell no_fields no_line no_lines no_more
    no_number no_rows no_second no_slot no_text no_tie none_before none_below none_last
    none_left none_more none_needed none_read none_yet not_last not_lower not_opened not_same
    number_append number_digits number_is number_lt number_more number_small numbered_more of_T
    of_parts one_cell one_line one_more one_selected one_size one_value only_of only_part
    only_zero onto_parts or_cases or_left or_right order_is over_last own_held own_row own_turn
    pair_fits pair_left pairwise_append parts_are passed_none passed_over past_all past_more
    past_one picked_more place_at place_none plain_cell put_other put_same put_small put_spec
    rank_below rank_is read_all read_first read_head read_more read_next read_none read_plain
    read_same read_short rest_lines right_of round_keeps row_below row_cut row_first row_fits
    row_had row_inside row_line row_read row_reads row_same row_step row_within rows_back
    rows_cut rows_few rows_fit rows_in rows_long rows_next rows_run rows_start rows_told
    rows_written run_length run_none run_on run_small run_step same_answer same_count same_from
    same_head same_length same_line same_outcome same_place says_both seen_more seen_of
    seen_same seen_test set_back set_is seven_at shared_back shift_one slots_at slots_small
    so_far some_more starts_more starts_none starts_other step_back step_left step_line
    stored_more stored_past sub_low sub_more sum_below sum_first sum_lt sum_mono sum_more
    sum_rows sums_none table_before table_is taken_in taken_is taken_out taken_step takes_of
    takes_one then_at then_found then_next tie_none to_at to_get to_none to_read to_set to_write
    too_long too_short totalled_more totalled_none tried_same true_of_not turn_inside turn_low
    turn_one turn_small two_cells value_of walk_first walked_more walked_none walked_skip
    wanted_by whole_before whole_by whole_is whole_long with_first within_low within_more
    word_fits word_had write_done write_same written_all written_one written_read wrote_none
    wrote_then zero_a
    """
    .split()
)


def snake(name):
    parts = []
    for part in name.split("-"):
        if part[:1].islower():
            part = re.sub(r"([A-Z]+)", lambda m: "_" + m.group(1).lower(), part)
        parts.append(part)
    return "_".join(parts)


def read(path):
    with open(path, encoding="utf-8") as f:
        return f.read()


def of_function(path):
    """Whether the file is a function's own proof, which declares no name that another file cites."""
    return os.path.basename(path) in ("Proof.antt", "Answers.antt", "Invariants.antt")


def code_of(line):
    """A line of antt without its comment."""
    m = re.search(r"(^|\s)--(\s|$|-)", line)
    return line[: m.start()] if m else line


def main():
    dry = "--dry" in sys.argv
    antt = sorted(glob.glob("crates/*/specs/**/*.antt", recursive=True) + glob.glob("crates/*/proofs/**/*.antt", recursive=True))
    rt = sorted(glob.glob("crates/*/src/**/*.rt", recursive=True))
    crates = {p.split("/")[1] for p in rt}
    declared, imported, used = set(), set(), {}
    for p in antt:
        text = read(p)
        lines = [code_of(line) for line in text.split("\n")]
        used[p] = set(TOKEN.findall("\n".join(lines)))
        for line in lines:
            m = DECLARED.match(line)
            if m and (not of_function(p) or m.group(1).endswith("-spec")):
                declared.add(m.group(1))
            m = re.match(r"\s*use ([\w.·]+)\.\{(.*)\}", line)
            if m and not (m.group(1).startswith("Rattle.") and m.group(1).split(".")[1] in crates):
                imported |= {w.split(" as ")[0].strip() for w in m.group(2).split(",")}
    rust = set()
    for p in rt:
        rust |= set(re.findall(r"\bfn (\w+)", read(p)))
    new = {}
    for name in sorted(declared - imported):
        to = snake(name)
        if to != name:
            new[name] = to
    # Two names that fall together: a definition keeps the plain name, its lemma ends in `_lem`.
    for name in sorted(declared - imported):
        if name not in new and name in LEMMAS_TURNED:
            new[name] = name
    by_new = {}
    for name, to in new.items():
        by_new.setdefault(to, []).append(name)
    left = 0
    for to, names in sorted(by_new.items()):
        lemmas = [n for n in names if "-" in n or n in LEMMAS_TURNED]
        words = [n for n in names if n not in lemmas]
        others = (to in declared or to in imported) and to not in names
        if len(lemmas) == 1 and (words or others):
            new[lemmas[0]] = to + "_lem"
            print(f"{lemmas[0]} -> {to}_lem beside {' '.join(words) or to}")
            names = words
        if len(names) > 1 or (others and words) or to + "_lem" in by_new:
            print(f"fall together: {' '.join(names)} -> {to}")
            left += len(names)
            for n in names:
                new.pop(n, None)
            continue
        for n in names:
            both = [p for p in used if n in used[p] and to in used[p] and n != to]
            if both and to not in rust:
                print(f"taken: {n} -> {to} in {' '.join(both)}")
    new = {n: to for n, to in new.items() if n != to}
    print(f"{len(new)} names turned, {left} left")

    def turned(text, dashes=True):
        def one(m):
            name = m.group(1)
            if name not in new or ("-" in name and not dashes):
                return name
            return new[name]
        return TOKEN.sub(one, text)

    def ticked(text):
        return TICKED.sub(lambda m: "`" + turned(m.group(1)) + "`", text)

    def operators(text):
        """A name between the places of its arguments."""
        return re.sub(r"◌([a-z][\w']*)◌", lambda m: "◌" + snake(m.group(1)) + "◌", text)

    def in_antt(path, text):
        out = []
        for line in text.split("\n"):
            code = code_of(line)
            rest = line[len(code):]
            if of_function(path):  # a generated step or goal is after a point: it has names of its own
                code = re.sub(r"(\.[\w'\-]+)|([^.]+|\.)", lambda m: m.group(1) if m.group(1) and "-" in m.group(1) else turned(m.group(0)), code)
            else:
                code = turned(code)
            out.append(code + ticked(rest))
        return "\n".join(out)

    def in_rt(text):
        out = []
        for line in text.split("\n"):
            m = re.search(r"(^|\s)//", line)
            code, rest = (line[: m.start()], line[m.start():]) if m else (line, "")
            out.append(turned(code, line.startswith("ghost use ")) + ticked(rest))
        return "\n".join(out)

    for p in antt + rt + sorted(glob.glob("crates/*/must-fail/*.edit")) + ["README.md", "CHANGELOG.md"] + sorted(glob.glob("docs/**/*.md", recursive=True)):
        text = read(p)
        if p.endswith(".antt"):
            to = in_antt(p, text)
        elif p.endswith(".rt"):
            to = in_rt(text)
        elif p.endswith(".edit"):
            to = "\n".join(line if line.startswith("file:") else turned(line) for line in text.split("\n"))
        else:
            to = ticked(text)
        to = operators(to)
        if to != text and not dry:
            with open(p, "w", encoding="utf-8") as f:
                f.write(to)


main()
