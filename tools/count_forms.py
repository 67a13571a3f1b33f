#!/usr/bin/env python3
"""Counts the places in crates/*/src that docs/DESIGN-PASS.md speaks of, point by point. With --list, names them."""
import glob
import os
import re
import sys
from collections import Counter, defaultdict

LIST = '--list' in sys.argv
LINES = [
    # (point, what, pattern of a line)
    (1, 'flag `all` with a list beside it', r'\ball: bool\b'),
    (1, 'other flags with a value beside them', r'\b(given|present|has_mode): bool\b'),
    (1, 'fields and parameters that hold a number of a refusal', r'\bnumber: u32\b'),
    (1, 'refusals returned by number', r'\breturn (Self::refused\()?\d+\)?;'),
    (1, 'functions that answer a number for a question',
     r'fn \w*(?:_number|check|fault_of|outcome_of)\b.*-> u32|^\) -> u32$'),
    (1, 'enums of the shape of Option', r'enum (FirstUnmarked|Named(Mode|Rule|Grid)) '),
    (1, 'kinds, modes, rules and outcomes as numbers',
     r'\b(kind: u32|outcome: u32|mode: u64|rule: u64|edges: usize|i: usize, (size|width))|^(pub )?const [A-Z_]+: u32 = \d;'),
    (3, 'loops over a range that index', r'\bfor \w+ in .*\.\.'),
    (3, 'while and loop', r'^\s*(\'\w+: )?(while|loop)\b'),
    (4, 'printing by the crate io or by functions for one type', r'\bio::(write_all|print_decimal|print_hex)|fn (print|say)_?\w*\('),
    (4, 'equality, copying and conversion by hand',
     r'fn (same\w*|differs|eight_bytes|copy|mode|rule|mode_of|rule_of|edges_letter|named_\w+|\w*from_bytes|'
     r'is_named|mode_is_named|mode_to_bytes|with_blocks|two_bytes|larger|small|wide|short|one_if\w*)\b'),
    (4, 'checked arithmetic and look-ups by hand',
     r'fn (min|most|less|sum|product|quotient|rest|ceiling|byte_at|number_at|byte_or|word_or|mark_or|word_at|mark_at|'
     r'listed|part|words_part)\('),
    (6, 'counts by index in one array', r'^(pub )?const [A-Z_]+: usize = \d+;'),
    (7, 'switches on which step to run', r'^\s*match (size|way|kind|below\()'),
]


def sources():
    for path in sorted(glob.glob('crates/*/src/**/*.rt', recursive=True)):
        yield path, open(path, encoding='utf-8').read().splitlines()


def signatures(text):
    """Each function's name, its parameters and its clauses."""
    for m in re.finditer(r'\bfn (\w+)(?:<[^>]*>)?\(([^)]*)\)((?:.|\n)*?)\n\s*\{\n', text):
        head = m.group(3)
        clauses = re.findall(r'(?:requires|ensures)\*?\s*\w*\s*\{((?:[^{}]|\{[^{}]*\})*)\}', head)
        yield m.group(1), m.group(2), clauses, re.findall(r'requires\*?\s*\w*\s*\{((?:[^{}]|\{[^{}]*\})*)\}', head)


def main():
    totals = defaultdict(list)
    for path, lines in sources():
        for n, line in enumerate(lines, 1):
            for point, what, pattern in LINES:
                if re.search(pattern, line):
                    totals[(point, what)].append('%s:%d: %s' % (path, n, line.strip()))
    facts = defaultdict(set)
    groups = defaultdict(set)
    for path, lines in sources():
        for name, params, _, requires in signatures('\n'.join(lines)):
            where = '%s %s' % (path, name)
            for clause in requires:
                for fact in clause.split('×'):
                    fact = ' '.join(fact.split()).strip('() ')
                    if fact:
                        facts[(path.split('/')[1], fact)].add(where)
            names = [p.split(':')[0].strip().replace('mut ', '') for p in params.split(',') if ':' in p]
            for i in range(len(names)):
                for j in range(i + 3, len(names) + 1):
                    groups[(path.split('/')[1], tuple(names[i:j]))].add(where)
    for (crate, fact), where in sorted(facts.items()):
        if len(where) >= 3:
            totals[(5, 'facts that three or more contracts of a crate require')].append(
                '%s: %s (%d)' % (crate, fact, len(where)))
    best = {}
    for (crate, names), where in groups.items():
        if len(where) >= 3:
            best[(crate, names)] = len(where)
    for (crate, names), count in sorted(best.items()):
        longer = any(c == crate and len(other) > len(names) and set(names) <= set(other) and n >= count
                     for (c, other), n in best.items())
        if not longer:
            totals[(5, 'three or more parameters that three or more functions of a crate pass together')].append(
                '%s: %s (%d)' % (crate, ', '.join(names), count))
    bodies = Counter()
    places = defaultdict(list)
    for path, lines in sources():
        text = [re.sub(r'\s+', ' ', l).strip() for l in lines]
        for i in range(len(text) - 5):
            window = text[i:i + 6]
            if all(window) and not any(w.startswith(('//', 'ghost use', 'use ')) for w in window):
                key = '\n'.join(re.sub(r'\b(u8|u16|u32|u64|usize|\d+)\b', 'N', w) for w in window)
                bodies[key] += 1
                places[key].append('%s:%d' % (path, i + 1))
    for key, count in bodies.items():
        if count > 1:
            totals[(2, 'runs of six lines that stand twice but for a type or a number')].append(', '.join(places[key]))
    answers = 0
    files = 0
    for path in glob.glob('crates/*/proofs/**/*.antt', recursive=True):
        if os.path.basename(path) in ('Proof.antt', 'Answers.antt', 'Invariants.antt'):
            files += 1
            answers += len(re.findall(r'= search rules$|\(λ c(?: κs)?\. search rules\)', open(path, encoding='utf-8').read(),
                                      flags=re.M))
    print('| Point | What | Places |\n|---|---|---|')
    for (point, what), found in sorted(totals.items()):
        print('| %d | %s | %d |' % (point, what, len(found)))
        if LIST:
            for place in found:
                print('    ' + place)
    print('| 8 | proof files of functions | %d |' % files)
    print('| 8 | answers that say only `search rules` | %d |' % answers)


if __name__ == '__main__':
    main()
