#!/usr/bin/env python3
"""Turns the repository's own definitions and lemmas to the spelling of today's Rattle: words in snake case, types in camel case.

usage: python3 tools/respell.py       at the top of the repository, once, right after the toolchain's port.py

It goes over specs/ and proofs/, and over the clauses and ghost items of src/. Comments and strings stay as they are, and so does
every name that is not in NAMES.
"""
import glob
import re

# what port.py left: the names that this repository defines, in their old spelling
NAMES = """
All-in AnswerSet-by Between-listed Borne-is-answer-set Can-give Carried-by Complement-reduct Decisions-listed File-exact Fits-first
Given-by Head-formed Line-by-line Lodge-exact Lowest-broken Many-heads Names-head Names-way No-answer No-frame No-longer None-in Not-paged
Not-paged-first On-exactly One-book Page-borne Pages-with Refusal-on Rounds-bear Rules-cut Rules-with Run-determined Run-kept Runs-formed
Sample-text Stages-exist Step-determined Step-kept Tells-lowest Verdict-at Ways-agree a-header a-page a-rule a-trailer above-inside
above-last absent-rules account-of account-same after-inside after-step ahead-next ahead-other all-allb all-between all-fails all-is-ok
all-kept all-member all-neg all-next all-of-kept all-of-members all-ok all-or-any all-or-none all-or-none-rules all-pages-fit all-passed
all-pick all-pos all-put all-resting all-rounds all-shorter all-to all-to-kept all-to-map all-zip allb-all allowed-is allowed-parts
always-at always-of and-all and-digit and-greatest and-half and-never and-sub and-sub-of answer-of any-all any-anyb any-more any-neg
any-of-kept any-of-map any-pick any-pos any-put any-right any-split any-to any-to-kept any-to-map anyb-any ascends-apart ascends-of
ascends-tail at-number balanced-inside balanced-is bears-of behind-next behind-other below-push below-width beside-lawful between-below
between-complete between-listed between-sound between-with between-without blank-kept body-small borne-bears borne-candidate borne-first
borne-full borne-is-answer-set borne-none borne-of borne-ranked borneb-complete borneb-sound both-rules breaches-of broken-list
by-complete by-digit by-holds by-mono by-sound by-weaker byte-same bytes-append carried-span carried-weaker carriedb-by chosen-allowed
chosen-end chosen-length chosen-same co-clause co-fails collect-in collect-lt collect-out compared-chosen complement-follows
complement-model complement-of complement-reduct conditions-formed contained-sets count-rules cut-lt decided-both decided-fails decided-in
decided-out decides-sub decisions-below decisions-listed decisions-none depth-64 derives-complete derives-inside derives-mono
derives-sound digit-below digit-by digit-less digit-mono digit-not-feed digit-of digit-same digit-same-by div-one done-same drop-sub
eight-same eight-small ends-early enter-full enter-ready entry-by entry-number entry-same even-inside even-pow extreme-end extreme-more
extreme-none failing-back fails-co false-neg false-pos few-candidates few-decisions few-pages few-rules fewer-rest file-exact
file-not-paged file-open file-published file-ready file-unborne filled-stays first-at first-failing first-failing-mapped fits-tells
flip-half frame-of frames-fit frames-of frames-parts from-after from-round front-line front-more front-no-line front-none front-within
full-of gathers-of given-more grade-family grade-laws grade-lay grade-le grade-line grade-ok grade-part grade-sets grade-weights
grades-mean grades-valid grown-has grown-none grown-not grown-with guarded-lawful half-digit half-sub has-and has-collect has-flip
has-high has-minus has-none has-or has-shr has-single has-suc has-test has-with has-without has-xor has-zero head-by head-kept head-named
head-number head-same header-fits heads-complete heads-self heads-sound held-bound held-last hex-append hex-cons hex-nil high-compared
high-less highest-leading hits-by-ends in-below in-candidates in-collect in-eight in-from in-head-complete in-head-sound in-laid in-lay
in-minus in-more in-or in-rounds in-total in-wider inner-fits inner-none inner-rule inner-same inner-some is-after is-inside is-not
is-round itself-rules join-complement join-least join-reduct join-second just-one just-one-rules keeps-complete keeps-not keeps-sound
kept-none kept-one kilo-fair kilo-family kilo-laws kilo-lay kilo-le kilo-line kilo-ok kilo-part kilo-sets kilo-weights kilos-mean
kilos-valid laid-push last-below last-element last-held last-len last-of-list last-of-push last-page last-round le-suc-of-le least-le
least-passes length-between length-body length-come length-decisions length-gone length-held length-hex length-line length-one
length-round lens-counts lent-put less-high level-push level-up lift-sub line-by-line line-puts line-then lines-append lines-mean lines-on
lines-on-append lines-on-no lines-on-none lines-on-yes lines-valid listed-lawful listed-part lists-complete lists-short lodge-exact
lodge-not-paged lodge-open lodge-ready lodge-unborne lodge-unranked low-compared low-none low-sub lowest-answer lowest-first lowest-same
lowest-trailing max-body max-pages max-rules meet-first meet-greatest meet-second member-append member-append-left member-append-right
member-at member-cases member-head member-kept member-map member-of-kept member-of-map member-place member-tail members-le members-less
members-mono minus-flip minus-lt minus-none minus-sub misses-apart misses-both misses-end misses-with misses-without mod-one more-any
more-pages nearer-first nearer-second neg-all neg-any neg-complement neg-reduct never-allowed never-of next-after next-of-list no-any
no-condition no-conditions no-decisions no-digits no-domain no-family no-grade no-head no-kilo no-page no-smaller none-all none-failing
none-met none-stands not-allowed not-always not-before not-below not-kept not-member not-paged-tells number-both number-first number-none
number-second odd-start odd-sub of-always of-between of-decisions of-difference of-gathered of-join of-meet of-never of-pick of-single
ok-all ok-done ok-fails ok-next ok-range on-apart one-ascends one-book one-there only-3 only-full or-digit or-first or-least or-none
or-second or-sub other-than-none over-byte over-bytes-more over-line over-one over-over page-added page-first page-fits page-formed
page-frame page-frame-alone page-front page-of page-same page-spelled pages-agree pages-apart pages-fit pages-push pages-same pages-take
parts-mean pass-is-round passed-all passed-fewer passed-more past-always past-broken past-kept past-number pick-both pick-complete
pick-member pick-past pick-sound placing-before placing-complete placing-none placing-put placing-rest placing-short pos-all pos-any
pos-complement puts-front puts-same rank-round rank-small ranks-are ranks-more ranks-same ranks-small reached-in reduct-follows
reduct-model reduct-of refused-on rest-first rest-least rest-one resting-same rising-push rising-same round-eq round-in round-of
round-of-first round-of-in round-of-le round-of-none round-of-out round-of-pos round-ranks round-suc round-zero rounds-are rounds-bear
rounds-founded rounds-least rounds-ranked rounds-same row-allowed row-tail-allowed row-tail-length rule-first rule-formed rule-frame
rule-front rule-named rule-numbered rule-of rule-same rule-spelled rules-numbered rules-of run-determined run-from run-grown run-kept
runs-formed same-digit same-le same-meaning same-page same-pages same-record sample-text set-of set-small sets-between sets-from
settled-toward short-body shr-suc size-more small-candidate small-candidates small-rest sofar-all sofar-more sofar-none some-met
some-stands sorted-append sorted-between sorted-candidates sorted-come sorted-decisions sorted-from sorted-gone sorted-kept sorted-map
sorted-one sorted-pick sorted-right sound-allowed sound-at sound-by sound-inside sound-not split-digit stage-only stage-round stages-exist
stamped-last stamped-more stamped-none stamped-rounds step-determined step-grown step-laid step-round sub-and sub-antisym sub-le sub-lt
sum-rules tells-same text-parts to-and to-between to-candidates to-collect to-come to-come-step to-decisions to-from to-gathered to-minus
to-more to-round to-sets-between top-out total-laid total-lay total-nearer total-none total-settled total-step total-wider toward-all
trailer-fits two-ascends two-inside two-rules two-same two-small uncount-rules valid-guarded valid-narrow valid-placed way-byte
way-follows way-model way-numbered way-small ways-agree with-d withdraw-held withdraw-none withdraw-ready within-high without-d
without-out xor-digit
""".split()

# a plain turn would fall together with a variant or a module of that name
OTHERWISE = {"Many-heads": "HasManyHeads", "One-book": "SpellsOneBook"}

# behind a dot this is a name that the check generates, and not the lemma
GENERATED = {"front-line"}


def turned(name):
    if name in OTHERWISE:
        return OTHERWISE[name]
    if name[0].isupper():
        return "".join(part[0].upper() + part[1:] for part in name.split("-"))
    return name.replace("-", "_")


TURNED = {name: turned(name) for name in NAMES}
TOKEN = re.compile(r"[^\s(){}\[\];,.:«»@⌜⌝|`\"]+")


def respell(code):
    def one(m):
        word = m.group(0)
        behind_dot = m.start() > 0 and code[m.start() - 1] == "."
        if behind_dot and word in GENERATED:
            return word
        return TURNED.get(word, word)

    return TOKEN.sub(one, code)


def line_respelled(line, comment):
    at = line.find(comment)
    if at < 0 or '"' in line[:at]:
        code, rest = line, ""
    else:
        code, rest = line[:at], line[at:]
    parts = code.split('"')
    # the even parts stand outside of strings
    return '"'.join(respell(p) if i % 2 == 0 else p for i, p in enumerate(parts)) + rest


def main():
    for pattern, comment in (("crates/*/specs/**/*.antt", "--"), ("crates/*/proofs/**/*.antt", "--"), ("crates/*/src/**/*.rt", "//")):
        for path in sorted(glob.glob(pattern, recursive=True)):
            with open(path, encoding="utf-8") as f:
                text = f.read()
            new = "".join(line_respelled(line, comment) for line in text.splitlines(keepends=True))
            if new != text:
                with open(path, "w", encoding="utf-8") as f:
                    f.write(new)
                print(path)


main()
