#!/usr/bin/env python3
"""Gives the repository's own definitions and lemmas today's spelling, once, after port.py: words in snake case, a dash only between two names.

usage: python3 tools/respell.py            at the top of the repository: rewrites specs/, proofs/, clauses and imports of src/, must-fail/ and the pages
       python3 tools/respell.py --list     prints old and new names, and new names that fall together with others, and writes nothing

It ran where docs/PORT.md begins, and does not run again where that page stands.
"""

import glob
import os
import re
import subprocess
import sys

# What a name may hold: antt's words run up to a space, a bracket, a dot, a comma, a semicolon or a colon.
WORD = re.compile(r"[^\s(){}\[\].,;:`'\"|=@]+'*")
HEAD = re.compile(r"(\s*)((?:unfoldable |abbrev |pub |data |record |ruleset )*)([^\s:(){}]+)(?: \{[^}]*\}| \([^)]*\))*\s*:(?!=)")
BARE = re.compile(r"\s*(?:pub )?(?:ruleset|data|record) (\S+)")
CLAUSE = re.compile(r"^\s*(requires|ensures|ghost)\b")

# Names between which a dash stands, beside the repository's own functions.
NAMES = set("length get_or take drop map set append add sub mul neg zero suc one le lt replicate zip_with tabulate cons nil".split())
# Where the rule gives a name that stands for something else already, or that reads badly.
BY_HAND = {
    "get_d_map": "get_or-map",
    "get_d_tabulate": "get_or-tabulate",
    "greedySC": "greedy_sc",
}

# What port.py renamed of the repository's own names: the pages and the edits, which it leaves, follow.
PORTED = dict(
    pair.split("=")
    for pair in """
    T-true=T_true abs-mag=abs_mag abs-neg=abs_neg add-assoc=add_assoc add-comm=add_comm add-is=add_is add-left-comm=add_left_comm add-ok=add_ok
    after-first=after_first after-list=after_list all-alike=all_alike all-pass=all_pass all-small=all_small and-left=and_left and-right=and_right
    answer-at=answer_at answerOf=answer_of as-first=as_first as-long=as_long askedOf=asked_of at-most=at_most at-place=at_place bit-is=bit_is
    bits-above=bits_above bits-fit=bits_fit bitsOf=bits_of by-tests=by_tests byte-more=byte_more bytes-back=bytes_back bytesOf=bytes_of cast-is=cast_is
    cast-ok=cast_ok chosenOf=chosen_of complement-low=complement_low cond-cases=cond_cases cond-ind=cond_ind counts-of=counts_of d-small=d_small
    digits-8=digits_8 digits-append=digits_append digits-are=digits_are digits-number=digits_number done-next=done_next entries-next=entries_next
    every-of=every_of fieldsOf=fields_of filled-at=filled_at first-below=first_below first-fits=first_fits first-reduced=first_reduced
    first-rows=first_rows first-short=first_short firstOf=first_of flip-is=flip_is front-long=front_long gathered-none=gathered_none getD=get_or
    getD-map=get_or-map getD-tabulate=get_or-tabulate given-out=given_out halfOf=half_of high-bits=high_bits inRange=in_range inner-bound=inner_bound
    is-same=is_same isByte=is_byte isRest=is_rest isSet=is_set join-first=join_first kept-at=kept_at key-back=key_back key-counts=key_counts keyOf=key_of
    known-is=known_is late-rule=late_rule le-in=le_in le-is=le_is le-out=le_out le-yes=le_yes leZ=le_z left-at=left_at length-digits=length_digits
    length-high=length_high length-shift=length_shift listed-more=listed_more low-first=low_first low-product=low_product low-turn=low_turn lt-in=lt_in
    lt-no=lt_no lt-out=lt_out lt-yes=lt_yes ltZ=lt_z made-at=made_at map-back=map_back map-more=map_more map-same=map_same map-turned=map_turned
    mask-is=mask_is minus-one=minus_one mul-assoc=mul_assoc mul-comm=mul_comm mul-is=mul_is mul-left-comm=mul_left_comm mul-ok=mul_ok
    named-back=named_back namedOf=named_of natAbs=nat_abs negℤ=neg_ℤ no-le=no_le no-lt=no_lt no-word=no_word not-T=not_T not-done=not_done
    not-negative=not_negative number-digits=number_digits number-small=number_small numberIn=number_in numberOf=number_of one-at=one_at
    one-found=one_found one-left=one_left one-less=one_less one-more=one_more or-assoc=or_assoc other-length=other_length part-small=part_small
    partAt=part_at partOf=part_of placeOf=place_of power-at=power_at power-le=power_le product-at=product_at product-is=product_is product-lt=product_lt
    put-record=put_record quotient-le=quotient_le raised-is=raised_is raised-lt=raised_lt read-as=read_as readingOf=reading_of record-is=record_is
    restored-at=restored_at rooted-more=rooted_more rooted-none=rooted_none row-one=row_one rows-at=rows_at same-asked=same_asked same-digits=same_digits
    same-ends=same_ends same-rest=same_rest scaled-at=scaled_at second-fits=second_fits second-is=second_is secondOf=second_of set-at=set_at
    set-known=set_known shift-suc=shift_suc shift-zero=shift_zero sign-bit=sign_bit signatureIn=signature_in size-below=size_below small-all=small_all
    square-le=square_le step-is=step_is step-small=step_small stored-at=stored_at sub-is=sub_is sum-back=sum_back sum-fits=sum_fits sum-more=sum_more
    sum-wraps=sum_wraps sums-at=sums_at takenOf=taken_of times-zero=times_zero too-short=too_short totalOf=total_of turn-at=turn_at
    turned-more=turned_more two-at=two_at unsigned-is=unsigned_is walk-end=walk_end walk-more=walk_more walk-start=walk_start walkOf=walk_of
    whole-long=whole_long whole-numbers=whole_numbers within-first=within_first within-low=within_low within-of=within_of within-wider=within_wider
    writer-out=writer_out written-at=written_at yes-le=yes_le yes-lt=yes_lt zero-is=zero_is zipWith=zip_with
""".split()
)


def files():
    return sorted(glob.glob("crates/*/specs/*.antt") + glob.glob("crates/*/proofs/*.antt"))


def defined():
    """The names that files of specs/ and lemma files of proofs/ define, with those of record fields."""
    found = {}
    for path in files():
        for line in open(path, encoding="utf-8"):
            if line.lstrip().startswith("--"):
                continue
            it = HEAD.match(line)
            name = it.group(3) if it else None
            if not it:
                it = BARE.match(line)
                name = it.group(1) if it else None
            if name and name not in ("module", "use"):
                found.setdefault(name, set()).add(path)
    return found


def snake(word):
    word = word.replace("getD", "get_or")
    if word[:1].isupper():
        return word
    word = re.sub(r"(?<=[a-z0-9])([A-Z]+)(?![a-z])", lambda m: "_" + m.group(1).lower(), word)
    return re.sub(r"(?<=[a-z0-9])([A-Z])", lambda m: "_" + m.group(1).lower(), word)


def mapping(found):
    names = NAMES | {snake(n) for n in found if re.search("[a-z][A-Z]", n) and "-" not in n and not n[:1].isupper()}
    to = {}
    for name in found:
        if name in BY_HAND:
            to[name] = BY_HAND[name]
            continue
        if name[:1].isupper() or "◌" in name:
            continue
        parts = name.split("-")
        if "" in parts:
            continue
        new = snake(parts[0])
        for a, b in zip(parts, parts[1:]):
            a, b = snake(a), snake(b)
            operators = not re.search(r"\w", b)
            new += ("-" if operators or (a in names and b in names) else "_") + b
        if new != name:
            to[name] = new
    # A lemma that would have its function's name gets `_lem`.
    taken = set(found) - set(to)
    for name in sorted(to, key=lambda n: "-" in n):
        if to[name] in taken:
            to[name] += "_lem"
        taken.add(to[name])
    return to


def respell(text, to):
    return WORD.sub(lambda m: to.get(m.group(0), m.group(0)), text)


def respell_rt(text, to):
    """Words in imports of ghosts and in clauses alone, and in comments between backticks."""
    out = []
    depth = 0
    inside = False
    for line in text.split("\n"):
        begins = line.lstrip().startswith("ghost use") or CLAUSE.match(line)
        if begins or inside:
            out.append(respell(line, to))
            depth = (0 if begins and not inside else depth) + line.count("{") - line.count("}")
            inside = depth > 0
        elif line.lstrip().startswith("//"):
            out.append(re.sub(r"`[^`]*`", lambda m: respell(m.group(0), to), line))
        else:
            out.append(line)
    return "\n".join(out)


def edit_line(line, to):
    """The texts of an edit follow: names, tight projections and plain clauses. What stands otherwise in its file is by hand."""
    if not line.startswith(("old: ", "new: ")):
        return re.sub(r"`[^`]*`", lambda m: respell(respell(m.group(0), PORTED), to), line)
    line = respell(respell(line.replace("′", "'"), PORTED), to)
    line = re.sub(r"\((\w+'?) ((?:\.\w+)+)\)", r"\1\2", line)
    line = re.sub(r"(?<=[\w')]) (?=\.[a-z0-9])", "", line)
    line = re.sub(r"\{ λ (\w+)\. ⌜ (.*) ⌝ \}", lambda m: "{ " + re.sub(r"\b" + m.group(1) + r"\b", "result", m.group(2)) + " }", line)
    return re.sub(r"\{ ⌜ (.*) ⌝ \}", r"{ \1 }", line)


def write(path, text, old):
    if text != old:
        with open(path, "w", encoding="utf-8") as f:
            f.write(text)


def main(argv):
    os.chdir(subprocess.run(["git", "rev-parse", "--show-toplevel"], capture_output=True, text=True, check=True).stdout.strip())
    if argv not in ([], ["--list"]):
        print(__doc__)
        return 2
    if not argv and os.path.exists("docs/PORT.md"):
        print("respell: docs/PORT.md is there, so this ran already: nothing was changed")
        return 2
    found = defined()
    to = mapping(found)
    back = {}
    for old, new in to.items():
        back.setdefault(new, []).append(old)
    bad = [(n, o) for n, o in back.items() if len(o) > 1 or n in found]
    if "--list" in argv:
        for old, new in sorted(to.items()):
            print(old, new)
        print("fall together:", bad)
        return 0
    antt = glob.glob("crates/*/specs/*.antt") + glob.glob("crates/*/proofs/**/*.antt", recursive=True)
    for path in sorted(set(antt)):
        old = open(path, encoding="utf-8").read()
        write(path, respell(old, to), old)
    for path in glob.glob("crates/*/src/*.rt"):
        old = open(path, encoding="utf-8").read()
        write(path, respell_rt(old, to), old)
    pages = ["README.md", "host/README.md"] + glob.glob("docs/*.md") + glob.glob("docs/changes/*.md")
    for path in pages:
        old = open(path, encoding="utf-8").read()
        write(path, re.sub(r"`[^`\n]*`", lambda m: respell(respell(m.group(0), PORTED), to), old), old)
    for path in sorted(glob.glob("crates/*/must-fail/*.edit")):
        old = open(path, encoding="utf-8").read()
        write(path, "\n".join(edit_line(l, to) for l in old.split("\n")), old)
    return 0


if __name__ == "__main__":
    raise SystemExit(main(sys.argv[1:]))
