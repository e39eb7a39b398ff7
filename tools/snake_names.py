#!/usr/bin/env python3
"""Respells the repository's own definitions and lemmas: words in snake case, types and modules in camel case.

usage: python3 tools/snake_names.py      at the top of the repository, once, after the kit's port.py and before any edit by hand

It renames what specs/*.antt and the lemma files of proofs/ declare (definitions, lemmas, fields, constructors, names given by 'as'), wherever
they are cited: in .antt files, in clauses and ghost imports of .rt files, in must-fail edits, and between backticks in comments, README.md and docs/.
Functions, types and variants of src/, exported names, strings, inputs and outputs keep their names.
"""

import collections
import glob
import os
import re

STOP = r"\s(){}\[\],;.`"
TOKEN = re.compile(r"[^" + STOP + r"]+")
# names of std or of the kit that a lemma file declares too
KEPT = {"map-append"}
# what port.py itself respelled in .antt and .rt files, and not in must-fail edits and pages
PORTED = """
a-in a-turn add-a add-at add-half add-read added-none after-items all-done all-known all-three all-true and-both and-left and-right andThen any-false
any-none any-some apart-from as-before as-long as-many at-8 at-first at-least at-most at-most-one at-one atStart back-end back-step before-last below-
last below-more below-none below-set between-is bit-found bit-in bit-inj bit-kept bitAt bitOf bits-of bits-small bitsOf block-in block-inside block-
none block-row blockOf both-below both-ways by-blocks by-bool by-byte by-entries by-form by-last by-le by-order by-place by-row by-token byte-at
bytesOf cells-are check-inv clear-spec cleared-more code-at code-frame columns-of cond-same copied-more copied-none copy-spec count-less count-no
count-none count-same count-set count-small count-spec count-yes decMem decimal-step depthOf digit-at digits-are each-map each-same each-turn end-low
end-of ends-at entry-of entry-row entry-spec enum-told every-one few-bits fewer-digits fill-one fill-spec filled-is find-spec first-alike first-bit
first-block first-byte first-count first-found first-of first-part first-passes first-rows first-spec firstOf fits-both flipped-word found-at found-
first found-none found-nothing found-some from-end from-in from-row from-step gap-more gather-append gather-none getD-any getD-map getD-past give-spec
go-on goes-on going-end going-start graphOf grew-same grows-end grows-start half-of half-spec held-none high-part in-either in-lane in-row in-rows in-
tree index-kept inside-of is-below is-block is-negative is-one isOrder isSome isZero itemsOf joined-at joined-length joins-at joins-of keeps-spec
kept-byte laid-out lane-in laneOf last-bit last-done last-mem last-of last-sum layoutOf leading-zeros left-below left-end left-is leftOf lent-of line-
low line-read line-wrote lineOf lines-are lines-end lines-next lines-start linesFrom linesOf listOf lists-at load-spec low-bit low-byte low-part
lower-of lower-spec main-spec make-spec map-at map-each map-same marked-empty marked-row mask-is mem-below met-at minus-one mostOf mul-at new-is new-
meets new-row new-walks next-le next-of next-row nextFrom no-more no-other no-place no-room no-row node-at node-end nodup-add nodup-append nodup-range
none-after none-before none-between none-first none-in none-left none-of none-passes none-right none-seen not-after not-same number-is number-more
number-past number-same number-short numberIn numberOf of-mask of-none of-one of-other of-tree of-two one-bit one-byte one-in one-less one-more one-
way only-then or-else or-some orElse orZero other-block other-byte other-way others-same pair-ends pair-same part-room parts-are pass-spec passed-none
passed-then passes-none passes-on past-end past-first pick-same pickBy place-none place-of placeIn placeOf planOf put-right put-same put-spec read-
meets read-next read-one read-spec reads-end reads-lines rest-end rest-of rest-put restOf right-is ring-of row-first row-in row-is row-line row-list
row-next row-out row-room row-small rowAt rowOf rows-alike rows-are rows-end rows-in rows-is rows-named rows-next rows-of rows-right rows-start rowsOf
run-at run-more run-none runBy same-back same-bit same-block same-blocks same-bool same-check same-digits same-first same-graph same-length same-line
same-lists same-more same-number same-place same-point same-refl same-rest same-row same-rows same-seen same-shape same-way same-word second-alike
select-no shapeOf shift-is shift-small shiftOf shown-by sideOf size-fits size-is size-small skip-by small-product some-at some-bits some-of some-same
sound-none start-is start-none start-spec step-block step-follows step-is step-of stop-is store-spec stored-other stored-same sub-read sum-fields sum-
more sum-same swapped-other swapped-same symbolOf table-is table-taken text-out textOf to-high to-in to-low to-read token-end too-large too-short
turn-in turn-low two-ways under-next value-grows walk-more way-end way-of weight-is whole-length width-spec widthOf within-same without-other word-
kept word-of wordOf worked-then wrap-spec write-spec written-is written-none wrote-none wrote-one wrote-then
"""
# names of one file alone
OF_FILE = {
    ("crates/promises/specs/Remainders.antt", "filled-word"): "filled_word",
    ("crates/promises/proofs/Remainders.antt", "filled-word"): "filled_word",
}
# where two names would fall together, and the plain rule has no good answer
NAMED = {
    "checks-of": "checks_among",
    "plan-rules": "plan_laws",
    "check-rules": "check_laws",
    "fill-rules": "fill_laws",
    "flip-rules": "flip_laws",
    "pair-rules": "pair_laws",
    "table-rules": "table_laws",
    "test-rules": "test_laws",
    "text-rules": "text_laws",
    "Promise-1": "Promise1",
    "Promise-2": "Promise2",
    "Promise-3": "Promise3",
}


def files(*endings):
    for folder, dirs, names in os.walk("crates"):
        dirs[:] = sorted(d for d in dirs if d != "out")
        for f in sorted(names):
            if f.endswith(endings):
                yield os.path.join(folder, f)


def read(path):
    with open(path, encoding="utf-8") as f:
        return f.read()


def of_a_function(path):
    """A file of one function's proof: what it declares are answers, named by the check."""
    return os.path.exists(os.path.join(os.path.dirname(path), "Proof.antt"))


def declared():
    """Each name that is declared, with the kinds of its declarations."""
    names = collections.defaultdict(set)
    for path in files(".antt"):
        if of_a_function(path):
            continue
        in_record = False
        for line in read(path).split("\n"):
            if re.match(r"\S", line):
                in_record = bool(re.match(r"(?:pub )?record ", line))
            for given in re.findall(r" as ([^" + STOP + r"]+)", line) if line.startswith("use ") else []:
                names[given].add("as")
            m = re.match(r"^( *)(?:(?:abbrev |unfoldable |pub )*)(data |record )?([^" + STOP + r"]+)((?: [({][^)}]*[)}])*) : ", line)
            if m and not line.strip().startswith("--"):
                names[m.group(3)].add("field" if in_record and m.group(1) else "inner" if m.group(1) else "outer")
    return names


def old_form(name):
    return bool(re.search(r"[a-z0-9][A-Z]|-|\u2032", name)) and (name[0].islower() or "-" in name) and name not in KEPT


def plain(name):
    name = name.replace("getD", "get_or").replace("\u2032", "'")
    name = re.sub(r"([a-z0-9])([A-Z]+)", lambda m: m.group(1) + "_" + m.group(2).lower(), name)
    return name.replace("-", "_").lower()


def spelling(names):
    """The new name of each old one. Of a definition and a lemma that would fall together in some file, the lemma is told apart."""
    new = {n: NAMED.get(n, plain(n)) for n in names if old_form(n)}
    new |= {n: n.replace("get_d_", "get_or_") for n in names if n.startswith("get_d_")}
    tokens = {path: set(TOKEN.findall(read(path))) for path in files(".antt")}
    alike = collections.defaultdict(set)
    for n in names:
        alike[new.get(n, n)].add(n)
    for n, group in sorted(alike.items()):
        if len(group) > 1 and any(len(group & it) > 1 for it in tokens.values()):
            for lemma in sorted(g for g in group if "-" in g):
                new[lemma] = n + "_law"
                if n + "_law" in alike:
                    raise SystemExit(f"{lemma}: {n}_law is taken")
    return new


def in_backticks(text, new):
    return re.sub(r"`[^`\n]*`", lambda m: TOKEN.sub(lambda t: new.get(t.group(0), t.group(0)), m.group(0)), text)


def turned(line, new, comment, fields=None):
    """The line with each name respelled; in its comment only those between backticks. With `fields`, what follows a dot is a name of the check unless it is a field."""
    at = line.find(comment)
    code, rest = (line, "") if at < 0 else (line[:at], line[at:])

    def one(m):
        name = m.group(0)
        if fields is not None and m.start() > 0 and code[m.start() - 1] == "." and name not in fields and not code[: m.start()].startswith("use "):
            return name
        return new.get(name, name)

    return TOKEN.sub(one, code) + in_backticks(rest, new)


def main():
    names = declared()
    new = spelling(names)
    fields = {n for n, kinds in names.items() if "field" in kinds}
    pages = {n: plain(n) for n in PORTED.split()} | new
    for path in files(".antt", ".rt", ".edit"):
        text = read(path)
        if path.endswith(".edit"):
            lines = [turned(l, pages, "\0") if re.match(r"(old|new): ", l) else in_backticks(l, pages) for l in text.split("\n")]
        else:
            here = new | {n: to for (p, n), to in OF_FILE.items() if p == path}
            if of_a_function(path) and path.endswith(".antt"):
                for spec in re.findall(r"(?m)^pub (\S+-spec) :", text):
                    here[spec] = plain(spec)
            inside = fields if of_a_function(path) else None
            lines = [turned(l, here, "//" if path.endswith(".rt") else "--", inside) for l in text.split("\n")]
        after = "\n".join(lines)
        if after != text:
            with open(path, "w", encoding="utf-8") as f:
                f.write(after)
    for path in ["README.md", *sorted(glob.glob("docs/*.md"))]:
        text = read(path)
        after = in_backticks(text, pages)
        if after != text:
            with open(path, "w", encoding="utf-8") as f:
                f.write(after)
    for n, group in sorted((k, [o for o in new if new[o] == k]) for k in set(new.values())):
        if len(group) > 1 or (n in names and n not in new):
            print("falls together in no file:", n, "of", ", ".join(sorted(group)), "and itself" if n in names else "")
    print(len(new), "names respelled")


if __name__ == "__main__":
    main()
