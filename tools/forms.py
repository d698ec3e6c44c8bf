#!/usr/bin/env python3
"""Counts, in crates/*/src, the places written in an older form, for docs/DESIGN-PASS.md.

    python3 tools/forms.py           a line for each form, and a column for each crate
    python3 tools/forms.py --list    each place, as FILE:LINE: its first line

A form is a pattern over one line, over a function's parameters, or over a function's contract. A pattern
finds candidates: what of them stays, and why, stands beside each in the source and in the page.
"""
import collections
import glob
import os
import re
import sys

TOP = os.path.dirname(os.path.dirname(os.path.abspath(__file__)))

# point, name, kind, pattern(s): 'line' is one pattern over a line; 'params' two patterns over the
# parameters of a function; 'clause' one over a function's contract
FORMS = [
    (1, 'a flag beside a value', 'line', r'^\s*pub (found|valid|fits|fit|ordered|last): bool'),
    (1, 'an own enum with a variant that refuses or has nothing', 'line',
     r'^\s+(Refused|Fault|Fails|Met)\([^=]*\),$|^\s+Passed,$|^\s+NoForm,$'),
    (1, 'a struct with an answer beside what is left', 'line',
     r'^\s*pub (answer|ended|verdict|event): [A-Z]'),
    (1, 'a number for a kind, a cause or nothing', 'line',
     r'const (\w+_KIND|EMPTY|NO_TABLE|TEXT_TOO_LONG|TOO_SHORT): |^const (BUSY|MANDATORY|OPTIONAL): u16|<< 48|\bNO_TABLE\b'),
    (2, 'a small function that std has, or that has a twin', 'line',
     r'\bfn (smaller|larger|less|less_byte|least|most|at_most|at_most_32|at_most_64|seen_count|places_before'
     r'|next_free|next_busy|next_job|without_next|without_lowest|record_at|copied_at|byte_at|number_at|cell_at'
     r'|cell_of|set_record|set_number|set_byte|with_record|with_mask|held_cell|free_cell|staying_cell|call_cell'
     r'|wide|widened|index|low_byte|one_if|first_slot|no_bracket|no_numeral|no_jobs|no_fields|no_records)\('),
    (2, 'a function between an entry and its work', 'line',
     r'\bfn (\w+_counted|refuse\w*|refused\w*|answer_of|presets_of|accept|answered|call_outcome|fault)\('),
    (2, 'an entry with a twin by value', 'line', r'\bpub fn \w+_by_value\('),
    (3, 'a loop that counts by hand', 'line', r'^\s*(while|loop)\b'),
    (4, 'a type that derives only a copy', 'line', r'derive\(Clone, Copy\)'),
    (4, 'a cast', 'line', r' as (u8|u16|u32|u64|usize)\b'),
    (4, 'a number or a line of a refusal by hand', 'line', r'\bcause_number\('),
    (5, 'head and presets', 'params', r'\bhead: &?(mut )?Head\b', r'\b(presets|copied|records): &?(mut )?\[Preset'),
    (5, 'clock and order of ties', 'params', r'\b(clock|start): usize\b', r'\b(hold|order): bool\b'),
    (5, 'jobs and their number', 'params', r'\bjobs: \[Job;', r'\bn: usize\b'),
    (5, 'the counts in their parts', 'params', r'\bused: &(mut )?\[u8; 256\]', r'\badmitted: '),
    (5, 'sums and their total', 'params', r'\bsums: ', r'\btotal: '),
    (5, 'output and place', 'params', r'\bout: &mut \[u8\]', r'\bat: usize\b'),
    (5, 'text and place', 'params', r'\b(text|line): &\[u8\]', r'\b(at|from): usize\b'),
    (5, 'slots and bridges', 'params', r'\bslots: usize', r'\bbridges: usize'),
    (5, 'free bridges and how many are filled', 'params', r'\bfree: ', r'\bcounts: '),
    (5, 'chains: first and next', 'params', r'\bfirst: &', r'\bnext: &'),
    (5, 'what early and late cells are', 'params', r'\bearly: ', r'\blate: '),
    (5, 'a valid head record', 'clause', r'valid_record \S*head \S*presets|valid_station station\S* ≡ true'),
    (5, 'bridges within the limit', 'clause', r'bridges ≤ most_bridges'),
    (5, 'slots within the limit', 'clause', r'slots ≤ most_slots'),
    (5, 'presets within the limit', 'clause', r'count ≤ most_presets'),
    (5, 'cells enough', 'clause', r'least_cells ≤ length'),
    (5, 'jobs within their limits', 'clause', r'jobs_outside \(jobs_in \S+ \S+\) ≡ false'),
    (6, 'a frame, a head, a table or a call packed into a number', 'params', r'\b(frame|head|table|sets|call): usize', r''),
    (7, 'a table of functions, or a switch on which step to run', 'line', r'\bfn\(|\bstep: u\d|match step\b'),
]


def functions(text):
    """Each function as (offset, parameters, contract)."""
    for m in re.finditer(r'\bfn \w+(?:<[^>]*>)?\(', text):
        at, depth = m.end(), 1
        while depth:
            depth += {'(': 1, ')': -1}.get(text[at], 0)
            at += 1
        end = re.compile(r'^\s*\{$|\{$|;$', re.M).search(text, at)
        yield m.start(), text[m.end():at - 1], text[at:end.start()] if end else ''


def places():
    for path in sorted(glob.glob(os.path.join(TOP, 'crates/*/src/**/*.rt'), recursive=True)):
        text = open(path, encoding='utf-8').read()
        crate = os.path.relpath(path, os.path.join(TOP, 'crates')).split(os.sep)[0]
        lines = text.split('\n')
        found = list(functions(text))
        for form in FORMS:
            point, name, kind = form[:3]
            if kind == 'line':
                for i, line in enumerate(lines):
                    if re.search(form[3], line) and not line.lstrip().startswith('//'):
                        yield form, crate, path, i + 1, line
            else:
                for at, params, contract in found:
                    if kind == 'params':
                        met = re.search(form[3], params) and re.search(form[4], params)
                    else:
                        met = re.search(form[3], contract)
                    if met:
                        i = text.count('\n', 0, at)
                        yield form, crate, path, i + 1, lines[i]


def main():
    found = list(places())
    if '--list' in sys.argv[1:]:
        for form, _, path, line, text in found:
            print(f'{form[0]} {form[1]}: {os.path.relpath(path, TOP)}:{line}: {text.strip()}')
        return
    crates = sorted({crate for _, crate, *_ in found})
    counts = collections.Counter((form[:2], crate) for form, crate, *_ in found)
    print('| Point | Form | ' + ' | '.join(crates) + ' | All |')
    print('|---|---|' + '---|' * (len(crates) + 1))
    for form in FORMS:
        row = [counts[(form[:2], crate)] for crate in crates]
        print(f'| {form[0]} | {form[1]} | ' + ' | '.join(str(n or '') for n in row) + f' | {sum(row)} |')


main()
