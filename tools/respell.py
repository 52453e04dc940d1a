#!/usr/bin/env python3
"""Brings the definitions and lemmas of this repository to one spelling: snake case, and camel case for facts.

usage: python3 tools/respell.py     at the top of the repository, once, after the kit's port.py

NAMES are the names that were spelled with dashes or with a capital inside. A dash stays where it joins the names of
two definitions, the outer call first. APART has new words for names that would have fallen together with others.
Functions of src/, strings and the texts of comments stay; must-fail edits follow the code that they edit.
"""

import os
import re

NAMES = """
Longest-start Opens-again Opens-with Part-of Passed-by Sealed-only Stands-at a-is active-so active-within
activeBelow after-header after-whole agree-front agree-one all-four alone-ok among-any and-grouped answered-declined
answered-err answered-ok answered-written any-alone any-end any-one any-own any-two any-zero anyPointer
applied-lawful arm-of-nothing at-end b-is back-instance below-input below-is below-output below-replication
below-restriction binds-is bindsOf blockCount body-read bound-so bound-stays boundAbove bs-is built-is built-so
by-communication by-head by-law by-room by-scan by-test by-used byte-not bytes-append bytes-both bytes-map
bytes-renamed bytes-right bytes-zeros carriedBy carriesSo carriesSo-keeps carriesSo-same check-asked check-byte
check-communicating check-declined check-depths check-is check-laws check-nodes check-read check-sealed checkField
checkOf checkOf-small checked-sealed choice-commutes choice-regroups choice-with-nothing clear-own clear-some
clearOf communicated-communicates communicates-communicated communicating-root communication-active communication-at
communication-keeps communication-step communication-within communications-join commuting-arms commuting-parts
congruent-first congruent-offers congruent-reached congruent-respects count-is count-is-taken counts-part
counts-renamed countsFit cs-is cut-first cut-is cut-rest cut-second decides-fits either-last either-none ends-apart
err-is err-ok examined-all examined-fault examined-left examined-long examined-more examined-none examined-stuck
examined-whole exchange-agrees exchange-first exchange-lifts exchange-other exchange-past exchange-second
exchange-twice exchanged-twice f-is fault-check fault-form fault-none fault-step faultFrom faultOf fill-congruent
fill-keeps fill-reduces fill-within filled-begins filled-left filled-right filled-root filling-at filling-is
filling-read filling-sealed final-is fine-at fine-block first-arrives first-bytes first-cut first-none first-played
first-respects first-scan first-term firstSent fit-built fits-from fits-part fits-parts fits-reading fits-renamed
fits-term formed-number formed-parts formed-rest formed-sealed formed-small formed-used forth-instance found-length
found-there four-back four-of fourNames free-any free-at front-clear front-is front-sealed fuel-enough fuels-agree
full-used functionOf grown-is grown-same grown-shortens grown-sound has-arms has-input has-output has-replicated
has-restricted haveSorts haveSorts-agree head-choice head-front head-input head-lacks head-longest head-none
head-opens head-output head-parallel head-place head-replication head-restriction head-shorter head-size
head-terminated head-unknown headRenamed here-below hereOr in-left-arm in-left-part in-none in-one-more in-right-arm
in-right-part input-count input-lacks input-opens input-waits inputHead instance-back instance-forth into-first
into-last is-here is-nothing is-nowhere is-past is-receiver is-sender is-sort isNode isReceiving isSending isSort
isTerm last-is last-long last-used later-found later-here later-past law-at law-offers law-respects law-step
law-within lawful-applied lawful-congruent lawful-keeps laws-within lead-size leadOf left-declined left-longest
left-written length-block length-blocksFrom length-built length-next length-one length-payload length-payloadOf
length-read length-renamed length-sheetOf length-start length-zero located-head located-one located-past located-top
located-two-first located-two-second located-within located-zero locatedIn locates-first locates-head locates-one
locates-second locates-zero long-is long-next long-w longer-start longest-at lower-free lower-raise lowered-raised
map-undone neither-not never-past nil-cons no-fault node-clear node-input node-left-arm node-left-part node-output
node-past node-replication node-restriction node-right-arm node-right-part node-written nodeAt nodeAt-fill
nodeAt-finds nodesOf none-below-input none-below-output none-below-replication none-in-arms none-input none-output
none-restriction none-some none-some-is none-there not-empty not-past not-twice nothing-term number-sealed
numberField numbers-same o'-is object-row objects-front objects-is objects-lack objects-renamed objectsIn objectsOf
offers-renamed ok-err ok-is ok-is-so ok-outcome ok-term one-clear one-longer one-made one-node one-step one-term
one-there one-two only-is onward-same onward-shortens onward-sound onward-stuck open-below open-place opened-fault
opened-fine opened-not opened-ok opens-again opens-decided opens-from opens-with or-first or-none or-second
orElse-none outcome-long outcome-refused outcomeOf output-count output-lacks output-opens output-waits outputHead
outputOf overflow-any pack-all pack-more pack-past packed-opens packing-fits packing-is packing-long packing-ok
packing-short packs-from paid-begins parallel-commutes parallel-regroups parallel-with-nothing part-is part-long
part-of-nothing part-term part-to parts-grown parts-one parts-renamed parts-some parts-stuck parts-two parts-zero
partsFit partsWritten passed-more past-none past-shortens past-stuck past-zero payload-sealed payloadOf
payloads-step place-within placed-left placed-right played-step played-steps playedAll pointer-bound pointer-met
prefix-count prefix-free prefix-lacks process-made process-same processIn processOf put-end q-is raise-agrees
raise-free raise-lifts raise-lower raise-misses raise-top raised-lowered raised-lowered-objects raised-misses
raised-misses-objects range-counts range-from reached-back reached-join read-forth readBack readBackTold readForth
readWriting reading-alone reading-fits reading-long reading-parts reading-refused reading-term reads-back
receiver-is receiver-offers receiver-respects receives-alone receives-in-choice reduction-keeps reduction-offers
reduction-reached reductions-keep reductions-reached regrouping-arms regrouping-parts rename-built rename-undone
renamed-ok renamed-term renamedHead renames-copied renames-none renames-one renames-two renames-zero
renaming-declined renaming-fits renaming-rows renaming-short replicate-zeros replicatedOf replication-unfolds
respects-renamed rest-front rest-is rest-second rest-shorter rest-size rest-stuck rest-wrapped restricted-raised
restrictedOf restricting-nothing restriction-lacks restriction-of-nothing restrictionHead restrictions-trade-places
rightlyChecked rightlyFormed rightlyUsed room-one room-two row2-is rowPut rows-put rows-renamed s-is same-numbers
same-process same-take sameProcess sample-nodes sample-read scan-complete scan-front scan-head scan-none
scan-reading scan-shortens scan-sound scan-stuck scan-term scanWith scope-extrudes sealed-only sealed-read sealedAs
second-arrives second-bytes second-cut second-fails second-played second-term secondSent secondly-same
secondly-whole send-agrees send-first send-lifts send-next send-none send-object send-past send-top sender-is
sender-offers sender-respects sends-alone sends-in-choice sheetOf shortens-by shut-below size-cut size-first
size-renamed size-second size-sum some-clear sortOf sortOf-front sortOf-past sound-under spare-at stands-below
stands-none stands-some step-at step-played step-root steps-join steps-keep steps-played steps-reduce steps-within
stuck-alone stuck-by stuck-longest stuck-shortens stuck-size stuck-under stuck-whole subject-row subjectIn
subjects-is subjectsOf sumFrom sumFrom-push take-parts take-start take-to takes-rest takes-short takes-used
term-bytes term-headed term-length term-reading term-scan term-short term-written tests-ok told-instance top-stuck
top-whole trading-places tree-nothing tree-of tree-written turned-back turned-forth two-clear two-of two-stuck
twoSenders typed-bytes under-active under-restriction unfolding-once unless-err unless-none unless-ok unless-some
unpacking-declined unpacking-fits unpacking-short unused-vanishes up-to-congruence used-at used-is used-read
used-sealed used-small usedField viaFirst viaSecond w-is whole-alone whole-count whole-written wholeBlocks
with-shortens with-two-nothings within-err within-fits within-ok within-short wrapped-stuck wrapped-whole
write-built write-fill written-some written-whole wrong-where-told z-is zero-made zero-two zeros-all zeros-more
zeros-not zeros-replicate
""".split()

JOINED = """
length-block length-blocksFrom length-built length-payloadOf length-renamed length-sheetOf lower-raise raise-lower
lowered-raised raised-lowered nodeAt-fill rename-built write-built write-fill
""".split()

APART = {
    "readForth": "result_forth",
    "readBack": "result_back",
    "readBackTold": "result_back_told",
    "is-sort": "is_sort_lem",
    "same-numbers": "same_numbers_lem",
    "same-process": "same_process_lem",
    "tree-of": "tree_of_lem",
}

WORD = re.compile(r"(?<![\w'-])[A-Za-z][\w'-]*")


def respelled(name):
    if name in APART:
        return APART[name]
    if name[0].isupper():
        return "".join(part[0].upper() + part[1:] for part in name.split("-"))
    snake = re.sub(r"(?<=[a-z0-9])([A-Z])", lambda m: "_" + m.group(1).lower(), name)
    return snake if name in JOINED else snake.replace("-", "_")


SPELLING = {name: respelled(name) for name in NAMES}


def turned(line, comment, quote):
    """The line in the new spelling. In a comment only names with a capital inside are names for certain."""
    text = line.strip()
    if text.startswith(comment):
        keep = {n: s for n, s in SPELLING.items() if "-" not in n}
    elif quote and '"' in line:
        return line
    else:
        keep = SPELLING
    return WORD.sub(lambda m: keep.get(m.group(0), m.group(0)), line)


def main():
    for folder, dirs, files in os.walk("crates"):
        dirs[:] = sorted(d for d in dirs if d != "out")
        for name in sorted(files):
            path = os.path.join(folder, name)
            if name.endswith(".antt"):
                comment, quote = "--", False
            elif name.endswith((".rt", ".edit")):
                comment, quote = "//", True
            else:
                continue
            with open(path, encoding="utf-8") as f:
                old = f.read()
            new = "".join(turned(line, comment, quote) for line in old.splitlines(keepends=True))
            if new != old:
                with open(path, "w", encoding="utf-8") as f:
                    f.write(new)


main()
