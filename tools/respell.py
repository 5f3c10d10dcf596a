#!/usr/bin/env python3
"""Respells the repository's own definitions and lemmas: words in snake case, facts and types in camel case.

usage: respell.py [FOLDER]    (a checkout that the kit's port.py has been run on; the current folder by default)

It changes specs/, proofs/ and, in src/, ghost text alone: no function, string or comment. A second run changes nothing.
"""

import glob
import os
import re
import sys

# Names that do not only turn their dashes to underscores.
SPECIAL = {
    "Cut-first": "CutFirst",
    "in-16-bits": "IsIn16Bits",
    "is-nan": "nan_only",
    "knot-held": "IsHeldKnot",
    "read-then-K": "read_then_k",
    "setting-held": "IsHeldSetting",
    "writer-at-K": "writer_at_k",
}

# Names that turn their dashes to underscores.
DASHED = """
abort-def begin-def compared-def counted-out-def go-def move-def owned-def put-def read-def recalled-def released-def
remembered-def set-up-def step-def try-commit-def turn-def wait-def
abort-quiet abort-to aborted-by-0 after-begin after-close all-zero and-false and-true answer-told ask-zero
at-end begin-grounds begun-then blank-entry call-in call-of call-walked call-with case-lt cause-number
cleared-one clearing-all clearing-length clearing-more clearing-none closed-then closing-told compared-quiet
compared-with count-after count-back count-from count-in count-is count-put count-quiet counted-out cut-first
digit-bounds digits-first done-by end-one ending-by find-end find-here find-on first-ground fits-set
five-steps four-steps free-now from-bit give-none glue-one glued-first goes-on-at-zero has-is high-of
holder-of holds-up if-said ignored-in in-line in-reads in-writes is-committed is-line-feed is-refused is-width
item-refusal items-all items-are knot-of knot-word letter-first line-by line-more line-text line-told
line-turn lock-after lock-back lock-in lock-is lock-of lock-put lock-quiet lock-to lock-word long-word low-lt
lowest-end lowest-knot lowest-on most-items most-processes most-sequence move-fits nan-in nan-out next-at
next-item no-letter no-process no-space none-given not-all number-alone number-first number-then numbers-first
of-twos off-in operation-grounds option-told or-not-a-call other-ends out-quiet played-is ran-by read-ends
read-lock read-new read-only-commits read-value record-in refusal-number refused-with released-quiet
remembered-end remembered-here remembered-on report-text same-lock seen-quiet seen-to sequence-or set-le
set-of set-size set-up set-up-grounds set-up-told setting-back setting-by setting-case setting-low setting-of
setting-text setting-word short-table slot-end slot-here slot-le slot-on spoilt-first step-grounds step-more
step-one stepped-fits stops-one storable-count store-fault stores-lock swap-count swap-lock swaps-count
swaps-lock task-of tells-accepted tells-from then-behind told-as try-commit under-way under-way-at unless-full
unlock-fits unlock-sequence unlock-to value-is value-put waits-at-one with-count with-lock with-own
with-writes word-text write-by write-lock write-slot write-value written-to zero-goes-on zero-knot zero-out
""".split()

TABLE = {**{name: name.replace("-", "_") for name in DASHED}, **SPECIAL}
TOKEN = re.compile(r"""[^\s(){}.;,@"\[\]«»]+""")


def respelled(code):
    return TOKEN.sub(lambda m: TABLE.get(m[0], m[0]), code)


def turned(line, comment):
    """The line with its code respelled: what stands in a string or behind a comment's sign stays."""
    code, sign, rest = line.partition(comment)
    parts = code.split('"')
    parts[::2] = [respelled(part) for part in parts[::2]]
    return '"'.join(parts) + sign + rest


def main():
    os.chdir(sys.argv[1] if len(sys.argv) > 1 else ".")
    for end, comment in (("rt", "//"), ("antt", "-- ")):
        for path in sorted(glob.glob(f"crates/*/**/*.{end}", recursive=True)):
            if "/out/" in path or "/target/" in path:
                continue
            with open(path, encoding="utf-8") as file:
                old = file.read()
            new = "".join(turned(line, comment) for line in old.splitlines(keepends=True))
            if new != old:
                with open(path, "w", encoding="utf-8") as file:
                    file.write(new)
                print(path)


main()
