#!/usr/bin/env python3
"""Spells the repository's own definitions and lemmas as this Rattle does: words in snake case, types in camel case.

usage: python3 tools/spell.py      at the top of the repository, once, after port.py

The names stand below, so that the same text comes out wherever it is run. In .rt files only ghost imports and the
clauses that use them name definitions; functions, strings, inputs and outputs keep their names, and so do goals
(proofs/F/Answers.antt), which Rattle names.
"""
import glob
import re

TYPES = """
    About-grid All-at All-below Asked-alike Asked-once Asking-gives-survey Asks-on Begins-a-survey Below-planes Block-tells
    Both-grounds-alike Can-become-survey Comes-back Drift-is-growth Fifteen-planes Frame-survey Goes-within Ground-of Has-significant
    Heights-near In-block In-rectangle In-tree Maps-near Near-after-every-bit Near-on Of-grid One-place One-plane-count One-survey
    Places-suffice Question-is-next Questions-about-grid Readings-small Refused-exactly Rest-tells Sends-frame Significance-by-parts
    Significance-literal Some-reach Survey-gives-grid Survey-length Survey-of-cells Whole-is-survey Worked-examples
"""

WORDS = """
    Afters-++ All-++ All-arrange All-place All-prop Fores-++ Good-prop Known-++ Known-left Known-right Refines-prop Some-++ Sorts-prop
    Sound-prop Within-prop about-grid above-le above-mono above-small above-table across-small agrees-below all-few all-walk answers-ok
    answers-value any-true anySignificant anySignificant-yes apart-zero area-mono area-pos areas-++ areas-arrange areas-place ask-bare
    ask-by ask-no askAll askBlock askPart askRest asked-more asked-same asked-trace asking-gives asks-about asks-bare asks-on at-no back-run
    bare-about bare-counted bare-start bareCell bareNext base-fill begun-is below-pow below-small beside-small bit-done bit-first bit-more
    bit-out bitTold bits-few block-exactly block-ind block-named block-tells-exactly blockArea blockNodes both-alike both-bounded
    bound-closed bound-exact bound-falls bound-is bound-one-closed bound-open bound-two-closed boundOf byte-is byte-none byte-was bytesFault
    bytesFor ceilHalf cell-look cells-++ closed-is-end cnt-++ coefficients-back coefficients-defined coefficients-small coefficientsOf
    column-in column-out columns-apart columns-are columns-back columns-fit columns-within count-plane counted-headed coverage-++
    coverage-arrange coverage-place depth-place differenceOf digit-back digit-below drift-is-growth driftOf each-++ each-arranged
    each-insert end-is-closed enough-more enter-bare enter-bit enter-count enter-end enter-in enter-none enter-out enter-part enter-sound
    enter-zero enterPlane entryFault fault-at feed-count feed-sound few-each few-more few-one fifteen-planes fifth-no-contradicts filled-all
    filled-block filled-cell finer-bound finish-all finish-slot finished-asks-none first-half first-no-is-taken first-sound first-state
    first-within fits-seek floorHalf forPlanes found-bounded found-go found-is found-more foundCell foundOf four-pos fourth-no-is-taken
    from-1 from-2 from-3 from-4 from-flat go-bare goBy-count goBy-in goBy-out goBy-sound goOn goOnBy gridOf half-abs half-side
    halved-difference halved-in halved-local halved-low halved-rest halved-small halves-near halving-difference halving-low hasSide
    headFault headed-below headed-counted heights-are heights-near heights-span heights-whole heightsOf here-at here-yes in-quarters
    inColumns inRows inner-small inner-tree inside-rest insignificant-more insignificant-room is-place isNegative joined-rest length-areas
    length-arrange length-first length-packed length-place length-tiers less-near level-back level-height level-local level-made
    level-planes level-span level-zeros levels-back levels-local levels-small levels-zeros line-back line-back-if looked-all looked-found
    looked-more looked-up low-span mag-signed mapOf maps-near marked-in marked-past max-look may-walk mayStand must-walk must-yes
    named-block near-always near-base near-over near-turn neg-signed never-longer never-memory newOf next-asked next-tier no-bit no-bounded
    no-in no-out nodes-by nodes-left nodes-mono noes-in noesOf none-insignificant none-upper not-above not-drawn not-less number-before
    number-below number-high number-zeros of-cells ofSide omega-m on-two one-back one-count one-flat one-is one-near one-self one-survey
    only-drop onward-same open-always openPlanes opened-bounded or-bit or-false or-none or-or outside-all outside-either outside-fine
    outside-in outside-more outside-within owed-no own-right pair-below paired-all paired-more part-height part-ind part-long part-planes
    part-span part-zeros pass-in pass-none pass-out pass-room past-none past-refusal peak-cell peak-look peak-more peak-tells peakOf
    pick-height pick-near picked-second pileOf place-front place-past place-tree place-within placeAt placeStep places-suffice plane-few
    plane-open planes-and-signs planes-length planes-of-top planes-walk planesFault push-insignificant push-map put-base put-cases
    quarter-tree question-is-next reached-count reached-fill reached-one reached-sound read-in read-packed readings-small refine-bare
    refineOn refineOnBy refusalOf rest-afters rest-exactly rest-ind rest-inside rest-none rest-part-exactly rest-tells-exactly restArea
    restNodes rests-fores rests-front rests-near ring-all ring-outside ring-pos ring-tree roomOf row-bound row-end rows-small rows-within
    run-++ run-count run-surplus saidNo same-any same-cell same-depth same-from-near same-near same-part same-planes same-side same-survey
    same-top same-yes says-no says-yes second-half second-no-contradicts seek-cases seek-miss sends-frame set-stands settled-grid
    shape-headed shapeFault side-afters side-below side-fores side-in side-small sign-in signTold signed-eta significant-by significantBlock
    significantCell significantRest slotFault small-places some-bound some-nodes span-one span-pow span-self span-split split-insignificant
    spread-block spread-out spread-rest spread-room spread-sound spread-suc square-col square-grows square-in square-one square-row
    square-split square-zero-split stands-span start-count start-in start-out start-sound stateAt stateBy stateIn step-bare step-sound
    stepBy still-right sum-++ sum-arrange sum-place sums-near survey-length survey-of-grid8 survey-of-map survey-of-zeros survey-walk
    surveyOf taken-ok taken-on tells-each tells-one tier-all tier-more tier-room tiers-Rest tiers-above tiers-afters tiers-fores tiers-part
    to-come to-flat todo-in todoOf told-on told-once told-twice top-all top-fits top-more top-none top-upper trace-++ trace-run
    transform-local transformOf turn-bit turn-walk turnBy-count turnBy-in turnBy-out turnBy-sound turned-all undone-local unfold-bare
    unit-back unit-below unlevel-flat unlevel-in unlevel-near unlevel-out unlevels-flat unlevels-local unlevels-near unlevels-out
    unpush-left unpush-right untold-stands upper-below upper-div upper-high upper-low upper-nil upper-none upper-scaled upper-some
    value-fits waiting-freely waitingOf walk-one whole-++ whole-area whole-nodes withBit written-list written-marked written-more yes-count
    yes-in yes-out yes-sound zero-close zeros-planes
"""

# Names that would fall together with another by the rule.
OTHERS = {
    "bit-told": "bit_told_is",
    "readAt": "reading_at",
    "significant-cell": "significant_one_cell",
    "with-bit": "byte_with_bit",
}

# A name as a record's field or a constructor, which may stand behind a point.
MEMBERS = """
    across-small below-small beside-small bits-few bound-closed bound-one-closed bound-open bound-two-closed fifth-no-contradicts
    first-no-is-taken fourth-no-is-taken halving-difference halving-low nodes-left noes-in second-no-contradicts survey-of-grid8
    survey-of-map survey-of-zeros to-come todo-in zeros-planes
"""


def in_camel_case(name):
    return "".join(word[0].upper() + word[1:] for word in name.split("-"))


def in_snake_case(name):
    name = name.replace("++", "append").replace("-", "_")
    return re.sub(r"(?<=[a-z0-9])([A-Z])", r"_\1", name).lower()


NAMES = {name: in_camel_case(name) for name in TYPES.split()}
NAMES |= {name: in_snake_case(name) for name in WORDS.split()}
NAMES |= OTHERS
FIELDS = set(MEMBERS.split())
TOKEN = re.compile(r"[^\s(){}\[\];,.`\"]+")


def spelled(text, known):
    """The text with each of its names spelled anew. Behind a point stands a member, or the item of a module with the name `known`."""
    out, end = [], 0
    for found in TOKEN.finditer(text):
        name = found[0]
        if text[found.start() - 1 : found.start()] == ".":
            before = re.search(r"([^\s(){}\[\];,.`\"]*)\.$", text[: found.start()])[1]
            if name not in FIELDS and before not in known:
                continue
        if name in NAMES:
            out += [text[end : found.start()], NAMES[name]]
            end = found.end()
    return "".join(out) + text[end:]


def in_comment(text):
    """A comment, in which only names in backticks and in camel case are surely names."""
    text = re.sub(r"`[^`]*`", lambda it: spelled(it[0], ()), text)
    return re.sub(r"\b[a-z]+[A-Z]\w*", lambda it: NAMES.get(it[0], it[0]), text)


def aliases(text):
    return set(re.findall(r"(?m)^use \S+ as (\S+)$", text)) - {"goal"}


def lemma_file(text):
    known = aliases(text)
    lines = []
    for line in text.split("\n"):
        code, dashes, comment = line.partition("-- ") if line.lstrip().startswith("-- ") else (line, "", "")
        lines.append(spelled(code, known) + dashes + in_comment(comment))
    return "\n".join(lines)


def source_file(text):
    lines = []
    for line in text.split("\n"):
        if line.lstrip().startswith("//"):
            line = in_comment(line)
        elif re.match(r" *(ghost|requires|ensures)\b", line):
            line = spelled(line, ())
        lines.append(line)
    return "\n".join(lines)


def edit(text):
    lines = []
    for line in text.split("\n"):
        lines.append(line if line.startswith("file:") else spelled(line, ()))
    return "\n".join(lines)


def main():
    kinds = [
        ("crates/*/specs/**/*.antt", lemma_file),
        ("crates/*/proofs/**/*.antt", lemma_file),
        ("crates/*/src/**/*.rt", source_file),
        ("crates/*/must-fail/*.edit", edit),
        ("docs/*.md", in_comment),
        ("README.md", in_comment),
    ]
    for pattern, change in kinds:
        for path in sorted(glob.glob(pattern, recursive=True)):
            with open(path, encoding="utf-8") as file:
                old = file.read()
            new = change(old)
            if new != old:
                with open(path, "w", encoding="utf-8") as file:
                    file.write(new)


if __name__ == "__main__":
    main()
