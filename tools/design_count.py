#!/usr/bin/env python3
"""Counts, in src/ and proofs/ as they stand at a commit (or in the working tree), the places that docs/DESIGN-PASS.md speaks of.

    python3 tools/design_count.py [COMMIT] [-v]

With -v each place is printed. A place that stays has a comment that begins with '// Stays:' within three lines above it or inside it.
"""
import collections
import re
import subprocess
import sys

args = [a for a in sys.argv[1:] if a != "-v"]
verbose = "-v" in sys.argv
commit = args[0] if args else None


def sh(*cmd):
    return subprocess.run(cmd, capture_output=True, text=True, check=True).stdout


def files(pattern):
    if commit:
        names = sh("git", "ls-tree", "-r", "--name-only", commit).split("\n")
    else:
        names = sh("git", "ls-files", "-co", "--exclude-standard").split("\n")
    return sorted(n for n in set(names) if re.fullmatch(pattern, n))


def text(name):
    if commit:
        return sh("git", "show", f"{commit}:{name}")
    try:
        return open(name, encoding="utf-8").read()
    except FileNotFoundError:
        return ""


SRC = {n: text(n) for n in files(r"crates/\w+/src/.*\.rt")}
found = collections.OrderedDict()


def place(point, what, name, pos, s):
    line = s.count("\n", 0, pos) + 1
    lines = s.split("\n")
    stays = any("// Stays:" in l for l in lines[max(0, line - 4):line + 3])
    found.setdefault((point, what), []).append((f"{name}:{line}", stays))


def functions(s):
    """Name, start, signature and body of each function."""
    for m in re.finditer(r"^( *)(?:pub )?(?:extern \"C\" )?fn (\w+)", s, re.M):
        end = re.search(r"^" + m.group(1) + r"\}|\{\}$", s[m.start():], re.M)
        whole = s[m.start():m.start() + end.end()] if end else s[m.start():]
        cut = re.search(r"^" + m.group(1) + r"\{|\{$", whole, re.M)
        yield m.group(2), m.start(), whole[:cut.start()] if cut else whole, whole[cut.start():] if cut else ""


def enums(s):
    for m in re.finditer(r"^(?:pub )?enum (\w+)(?:<[^>]*>)? \{\n(.*?)^\}", s, re.M | re.S):
        body = re.sub(r"//.*", "", m.group(2))
        body = re.sub(r"\{[^}]*\}", "{..}", body)
        yield m.group(1), m.start(), [v.strip() for v in body.split(",\n") if v.strip()]


shapes = collections.defaultdict(list)
for name, s in SRC.items():
    # 1: own enums of the shape of Option or Result; flags and numbers in their place
    for enum, pos, variants in enums(s):
        carry = [v for v in variants if "(" in v or "{" in v]
        refused = any(re.match(r"(Refused|Wrong|Differs)\(", v) for v in variants)
        if len(variants) > 12:
            continue
        if refused or (len(variants) == 2 and len(carry) == 1):
            place(1, "own enums of the shape of Option or Result", name, pos, s)
    for m in re.finditer(r"^ *// .*\b(or|else) (the (list's |text's )?(length|number of)|0\b)", s, re.M):
        if re.match(r"[^\n]*\n(?:\s*//[^\n]*\n)*(?:#\[[^\n]*\n|    [^\n]*\n)*\s*(pub )?fn [^{]*?-> usize", s[m.start():]):
            place(1, "a length, a limit or 0 in place of nothing", name, m.start(), s)
    for m in re.finditer(r"^(pub )?struct \w+[^{;]*\{[^}]*\b(count|outcome): [^}]*\}", s, re.M):
        place(1, "a flag or a count beside its values", name, m.start(), s)
    for m in re.finditer(r"fn (number_of|values_of)\b", s):
        place(1, "numbers in place of refusals", name, m.start(), s)
    for m in re.finditer(r"\w+::Refused\((\w+)\) => (\w+::Refused\(\1\)|refused)", s):
        place(1, "an error handed on by a match", name, m.start(), s)
    # 2: twins
    for fn, pos, sig, body in functions(s):
        code = re.sub(r"//.*", "", body)
        toks = re.findall(r"[A-Za-z_]\w*|\d+|[^\sA-Za-z_0-9]", code)
        keep = {"if", "else", "match", "while", "for", "in", "let", "mut", "return", "as", "true", "false", "Ok", "Err", "Some", "None", "self"}
        shape = " ".join(t if t in keep or not re.match(r"\w", t) else "N" if t[0].isdigit() else "x" for t in toks)
        if len(toks) >= 24:
            shapes[shape].append((name, pos, s))
    # 3: loops that count an index by hand
    for m in re.finditer(r"^ *while ", s, re.M):
        place(3, "while loops", name, m.start(), s)
    # 4: equality, order, copying, printing by hand
    for fn, pos, sig, body in functions(s):
        arms = re.findall(r"=> (?:true|false),", body)
        if arms and len(arms) == len(re.findall(r"=>", body)):
            place(4, "a match of which each arm is true or false", name, pos, s)
    for m in re.finditer(r"if (\w+) < (\w+) \{\s*(?:return )?\2;?\s*\} else \{\s*\1\s*\}|if (\w+) < (\w+) \{\s*\3\s*\} else \{\s*\4\s*\}|if (\w+) < (\w+) \{\s*return \6;\s*\}\s*\5\s*\}", s):
        place(4, "the larger or smaller of two by hand", name, m.start(), s)
    for m in re.finditer(r"^ *(\w+)\[(\w+)\] = (\w+\[\2\]|0);", s, re.M):
        place(4, "elements copied or set one by one", name, m.start(), s)
    for m in re.finditer(r"\bif [^{}]* \{\s*return true;\s*\}\s*(?:return )?false\b", s):
        place(4, "a test turned into true or false", name, m.start(), s)
    for m in re.finditer(r"\b(say|number|out\.print)\(", s):
        if not re.match(r".*fn ", s[s.rfind("\n", 0, m.start()):m.start()]):
            place(4, "a print of one piece", name, m.start(), s)
    # 5: what travels together
    for fn, pos, sig, body in functions(s):
        if re.search(r"\bplan: &(?:'\w+ )?\[i16\]", sig) and re.search(r": Shape\b|\blift: ", sig):
            place(5, "a plan beside its sizes, as parameters", name, pos, s)
        if re.search(r"\balong: &", sig) and re.search(r"\bplan: |\bdown: ", sig):
            place(5, "a plan beside its indexes, as parameters", name, pos, s)
        if re.search(r"\bbyrow: |\brow_weights: ", sig) and re.search(r"\bbycol: |\bcol_weights: ", sig):
            place(5, "two lists of weights, as parameters", name, pos, s)
    for m in re.finditer(r"WellFormed |AlongIndex |DownIndex |\bReady |\bLists |\bMeasured |\bWeighed ", "\n".join(l if "requires" in l else "" for l in s.split("\n"))):
        found.setdefault((5, "a fact of a plan in a requires"), []).append((name, False))
    # 6: buffers with a length, numbered fields, parallel arrays
    for m in re.finditer(r"^(pub )?struct (\w+)[^{;]*\{([^}]*)\}", s, re.M):
        if re.search(r"\b\w0: .*\b\w1: ", m.group(3), re.S):
            place(6, "numbered fields", name, m.start(), s)
    for fn, pos, sig, body in functions(s):
        if re.search(r"&mut \[u(8|32|64)\],\s*(at|top): usize", sig):
            place(6, "a buffer and its place, as parameters", name, pos, s)
    # 7: switches
    for fn, pos, sig, body in functions(s):
        if re.search(r"\w+: bool\b", sig):
            place(7, "a flag that says what is done", name, pos, s)

for shape, where in shapes.items():
    if len(where) > 1:
        for name, pos, s in where[1:]:
            place(2, "functions of the shape of another", name, pos, s)

proofs = {n: text(n) for n in files(r"crates/\w+/proofs/.*\.antt")}
answers = {n: t for n, t in proofs.items() if n.endswith("Answers.antt")}
invariants = {n: t for n, t in proofs.items() if n.endswith("Invariants.antt")}

for point in range(1, 8):
    for (p, what), where in found.items():
        if p == point:
            stays = sum(1 for _, k in where if k)
            print(f"{p}  {what}: {len(where)}" + (f", of which {stays} stay" if stays else ""))
            if verbose:
                for w, k in where:
                    print("     ", w, "stays" if k else "")
goals = sum(len(re.findall(r"^pub [\w'-]+ : goal", t, re.M)) for t in answers.values())
print(f"8  files of answers: {len(answers)}, of invariants: {len(invariants)}")
print(f"8  goals answered by hand: {goals}")
print(f"8  lines of answers and invariants: {sum(t.count(chr(10)) for t in answers.values()) + sum(t.count(chr(10)) for t in invariants.values())}")
print(f"8  lines of lemmas: {sum(t.count(chr(10)) for n, t in proofs.items() if n not in answers and n not in invariants)}")
print(f"   lines of src: {sum(t.count(chr(10)) for t in SRC.values())}")
