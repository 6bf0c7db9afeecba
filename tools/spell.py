#!/usr/bin/env python3
"""Spells the definitions and lemmas of this repository in snake case.

usage: python3 tools/spell.py        at the top, once, after the kit's port.py

It renames the names listed below, and no others: in specs/ and proofs/, in the ghost parts of src/, and where README.md
and docs/ name a definition in backquotes. Types and facts keep their capitals; the functions of src/, the goals that
Rattle names, strings, inputs and outputs keep their names.
"""

import glob
import re

# Names that follow the rule: a capital in the middle, or a dash, becomes an underscore.
BY_RULE = """
abs-mul abs-product afterColumns afterRows angle-abs answered-levels answered-none answered-some answered-spread
answered-with at-list atAngle atTabs before-joins begun-back begun-tabbed behind-none behind-with below-back
below-is below-some block-bounded block-ext bounded-shorts bounded-within byFields byLetter cell-is cell-length
cell-none cell-some cellText cells-append cells-front cells-more cells-room cellsText chosen-block chosenBy clip-abs
clip-fits clipped-bounded coefficient-is coefficients-bounded cosine-abs count-after count-bad count-end
count-enough count-line count-other count-start count-stop count-tab countFrom countOn cut-append cut-found
cut-joins cut-none cut-paired cut-some cut-whole cut-within cutLine cutSeen decimal-free down-closest
drop-overwritten entry-back entryLimit err-none even-levels even-paired exact-fits fields-are fields-some filled-all
filled-cell film-count first-abs first-is firstColumn floorShift front-short half-sixteen half-small halvesDown
ifBegun inputLimit is-closest is-only left-of len-digit len-step length-block length-levels length-one length-onto
length-raw length-setting length-split length-square length-tabbed letter-newline letter-tab letterM letterOf
letterQ letterR letterS letterT level-back level-bad level-is level-minus level-plus level-room levelIn levelOf
levels-back levels-fields levelsAfter levelsIn line-back lineCount lineSeen long-letter m-whole mLine made-shorter
mapped-all name-plain name-short nearest-abs nearest-closest nearest-down nearest-only nearest-up nearest-within
negsuc-sixteen next-is no-newline no-tab noLess nonzero-head nonzeros-append not-below not-both not-empty
number-back numberBelow odd-levels odd-paired ofSetting ok-some one-digit one-film one-signed-form oneMore
only-sound onlyAt onlyFirst orBadField orNothing out-sixteen overwritten-twice pair-are pair-back pairFields
pairFields-append pairThen paired-fields paired-more pairs-are pairs-back pairs-free pairsFrom parse-one parse-other
parseSeen pass-is place-append place-below place-free place-le place-letter place-on place-one plain-from
plain-level position-back position-bad position-is position-within positionIn product-abs product-ext
product-transposed put-none put-part q-whole qLine quotient-small quotient-within raw-back raw-fields reads-back
reads-line rebuilt-block rebuilt-is rebuiltBy rebuiltCase residuals-bounded rising-at round-near round-sixteen
roundShift row-abs row-begins row-none rules-sound rulesOf s-whole sLine same-decides same-decimal sample-more
sample-none sample-some sample-step samples-all samples-append samples-are samples-back samples-end samples-free
samples-front samples-many samples-more samples-room samplesAfter samplesIn samplesOf samplesText scale-coded
scale-least scale-most scaled-is shape-parts shifted-is shifted-near short-head shorts-bounded shr-near shr-sixteen
side-cases side-range side-served signed-free signed-minus spectrum-abs spread-are spread-back spread-on spread-with
spreadAll step-low sum-abs sum-ext sum-none sumLimit sumZ sums-bounded tabbed-append tabbed-end tabbed-fields
tabbed-free tabbed-onto tabbed-tabs tabs-append tabs-at tabs-first tabs-free tabs-last tabs-many tabs-none
tabs-second tabs-some tail-text take-overwritten term-small termLimit text-is text-levels text-raw text-rest
text-setting text-split text-square too-high too-low turned-abs turned-bounded turnedBy turnedIf two-tests
unserved-sound up-closest usable-parts value-step with-are withPair withRest withSample within-bounded writes-back
writes-digit writes-first writes-some writes-value zero-here zeros-none cutAt fieldsOf lineOf nameOf numberIn numberOf
partsOf textOf valuesOf
""".split()

# Names whose rule's form is taken, or is not whole words.
OTHERWISE = {
    'digitValue': 'char_digit_value',
    'nearestTo': 'nearest_to',
    'someOr': 'some_or',
    'is-empty': 'nothing_follows',
    'getD-place': 'get_or_place',
}


def by_rule(name):
    name = re.sub(r"([a-z0-9])([A-Z])", lambda m: m.group(1) + "_" + m.group(2).lower(), name)
    return name.replace("-", "_")


NAMES = {name: by_rule(name) for name in BY_RULE} | OTHERWISE
WORD = re.compile(r"[^\s(){}\[\],.;:&*<>\"'`]+")


def renamed(text):
    """The text with each whole word renamed that is no step or field of a projection."""

    def one(m):
        before = text[m.start() - 1] if m.start() else " "
        return m.group() if before == "." and is_projection(text, m.start()) else NAMES.get(m.group(), m.group())

    return WORD.sub(one, text)


def is_projection(text, start):
    """Whether the word at start follows the dot of a projection, and not that of a module's path."""
    head = re.search(r"[^\s(){}\[\],;]*$", text[: start - 1]).group()
    return not head.startswith("Rattle.")


def antt(text):
    """Code is renamed; of a comment only what can be no plain word, a name with a capital inside."""
    lines = []
    for line in text.split("\n"):
        at = line.find("-- ") if line.lstrip().startswith("--") else -1
        lines.append(commented(line) if at >= 0 else renamed(line))
    return "\n".join(lines)


def commented(line):
    return WORD.sub(lambda m: NAMES.get(m.group(), m.group()) if re.search("[a-z][A-Z]", m.group()) else m.group(), line)


def rt(text):
    """The lines of imports, clauses and ghost members, and those that go on with one."""
    lines, depth = [], 0
    for line in text.split("\n"):
        if line.lstrip().startswith("//"):
            lines.append(commented(line))
            continue
        if depth > 0 or re.match(r"\s*(ghost|requires|ensures)\b", line):
            depth = max(0, depth + line.count("{") - line.count("}"))
            lines.append(renamed(line))
        else:
            lines.append(line)
    return "\n".join(lines)


def page(text):
    return re.sub(r"`[^`\n]+`", lambda m: renamed(m.group()), text)


def main():
    for pattern, turn in (
        ("crates/*/specs/**/*.antt", antt),
        ("crates/*/proofs/**/*.antt", antt),
        ("crates/*/src/**/*.rt", rt),
        ("README.md", page),
        ("docs/*.md", page),
    ):
        for path in sorted(glob.glob(pattern, recursive=True)):
            with open(path, encoding="utf-8") as f:
                text = f.read()
            turned = turn(text)
            if turned != text:
                with open(path, "w", encoding="utf-8") as f:
                    f.write(turned)
                print(path)


main()
