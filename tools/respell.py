#!/usr/bin/env python3
"""Brings the definitions and lemmas of specs/ and proofs/ to snake case: `pointAt` becomes `point_at`, and a dash stays only between two names of functions.

usage: tools/respell.py        at the top of the repository, once, after port.py
Names of src/ keep their spelling, and so do strings; a name that would fall together with another is told, and gets the name that OWN gives it.
"""
import collections
import os
import re
import sys

# names that would fall together with another, or with a word of the language
OWN = {"firstOf": "first_true", "first_of": "first_true"}
# names that port.py wrote, or that stood, where another now gets them: (the file, the name, its new name)
FIRST = [
    ("geometry/proofs/Sizes.antt", "point_at", "point_at_lem"),
    ("placing/proofs/Sizes.antt", "point_at", "point_at_lem"),
    ("job_lists/proofs/Fits.antt", "ring_of", "ring_of_lem"),
    ("placing/proofs/one_loop/plan_and_place/Proof.antt", "ring_of", "turned_ring"),
    ("placing/proofs/place/place/Proof.antt", "ring_of", "turned_ring"),
    ("placing/proofs/place/place_side/Proof.antt", "ring_of", "turned_ring"),
    ("job_text/proofs/jobs/read_job/Proof.antt", "size_word", "size_word_lem"),
    ("tile_list/proofs/Verdicts.antt", "same_bytes", "same_bytes_lem"),
    ("float/proofs/Choices.antt", "is-nan", "is_nan_lem"),
]
# names of the library that keep a capital
KEEP = {"scaled_Fits", "not_T"}
# functions of the library whose names stand before a dash in a lemma's name
LIBRARY = set("length take drop map append set sets get_or replicate sum reverse size round lt le num den neg root to_bits of_bits decimal".split())
IDENT = re.compile(r"[^\s(){}\[\]<>.;,:\"«»⌜⌝`+*/%=|&≡≤≢×→↔λ∷⊎?≠∘@#!$~^]+")


def files(top, *ends):
    for folder, dirs, names in os.walk(os.path.join(top, "crates")):
        dirs[:] = sorted(d for d in dirs if d != "out")
        for n in sorted(names):
            if n.endswith(ends):
                yield os.path.join(folder, n)


def is_function_proof(path):
    """A file of a function's proof, whose names are mostly generated."""
    parts = path.split("/")
    i = len(parts) - 1 - parts[::-1].index("crates")
    return parts[i + 2] == "proofs" and len(parts) > i + 4


def defined(text):
    """What a module defines: (name, kind) by its first column, its fields and its constructors."""
    out = []
    for l in text.split("\n"):
        m = re.match(r"(\s*)((?:(?:unfoldable|abbrev|pub|data|record|private)\s+)*)([^\s(){}:]+)\s*(?::|\(|\{|$)", l)
        if not m or l.lstrip().startswith(("--", "use ", "unfolding")):
            continue
        if m.group(1) == "" and (re.match(r"\s*\S+ : ", l) or m.group(2)):
            out.append((m.group(3), "word"))
        elif m.group(1) and re.match(r"\s+(?:pub )?[^\s(){}:]+(?: \([^)]*\))* : ", l):
            out.append((m.group(3), "inner"))
    return out


def snake(name):
    return re.sub(r"(?<=[a-z0-9])([A-Z])", lambda m: "_" + m.group(1).lower(), name)


def is_word(name):
    return re.match(r"[a-z]", name) is not None


def locals_too(top):
    """What is still in camel case: definitions below a module's parameters, local names, aliases of imports."""
    word = re.compile(r"[a-z][a-z0-9]*(?:_[a-z0-9]+)*[A-Z][A-Za-z0-9_']*$")
    changed = 0
    for p in files(top, ".antt", ".rt", ".edit"):
        t = open(p, encoding="utf-8").read()

        def put(m):
            w = m.group(0)
            return snake(w) if word.match(w) and w not in KEEP and "-" not in w else w

        def line(l):
            if re.match(r"\s*(?:pub )?(?:ghost )?use Rattle\.std", l):
                return l
            if p.endswith(".rt"):
                return "".join(x if x.startswith('"') else IDENT.sub(put, x) for x in re.split(r'("(?:\\.|[^"\\\n])*")', l))
            return IDENT.sub(put, l)

        new = "\n".join(line(l) for l in t.split("\n"))
        if new != t:
            open(p, "w", encoding="utf-8").write(new)
            changed += 1
    print(f"{changed} files with names that were left")


def main():
    top = os.getcwd()
    if sys.argv[1:] == ["--locals"]:
        return locals_too(top)
    antt = list(files(top, ".antt"))
    text = {p: open(p, encoding="utf-8").read() for p in antt}
    for end, o, n in FIRST:
        for p in antt:
            if p.endswith("/crates/" + end):
                text[p] = re.sub(r"(?<![.\w'-])" + re.escape(o) + r"(?![\w'-])", n, text[p])
    modules = [p for p in antt if not is_function_proof(p)]
    functions = set(LIBRARY)
    names = collections.defaultdict(set)
    for p in modules:
        for n, kind in defined(text[p]):
            names[n].add((p, kind))
            if "/specs/" in p and kind == "word" and is_word(n):
                functions.add(n)
                functions.add(snake(n))
    # one map for camel case, over all files; one for dashes, by module
    camel = {n: OWN.get(n, snake(n)) for n in names if is_word(n) and re.search(r"[A-Z]", n) and "-" not in n}
    camel.update({o: n for o, n in OWN.items() if o in names})

    def dashed(n):
        parts = [camel.get(x, snake(x)) if is_word(x) else x for x in n.split("-")]
        parts = ["get_or" if x == "get_d" else x for x in parts]
        out = parts[0]
        for a, b in zip(parts, parts[1:]):
            names_both = (a in functions and b in functions) or a[:1].isupper() or b[:1].isupper()
            out += ("-" if names_both else "_") + b
        return OWN.get(n, out)

    dash = {n: dashed(n) for n in names if "-" in n and is_word(n)}
    taken = set(camel.values())
    for n in dash:
        if dash[n] in taken:
            dash[n] += "_lem"
    every = {}
    for n, new in list(camel.items()) + list(dash.items()):
        every.setdefault(new, set()).add(n)
    for new, olds in sorted(every.items()):
        if len(olds) > 1:
            print("fall together:", new, "of", ", ".join(sorted(olds)), file=sys.stderr)
    changed = 0
    for p in antt:
        t = text[p]
        own = {n for n, _ in defined(t)} if not is_function_proof(p) else set()
        scope = set(own)
        for m in re.finditer(r"^(?:pub )?use (Rattle\.[a-z_]+\.(?:specs|proofs)\S*?)\.\{([^}]*)\}", t, re.M):
            if not m.group(1).startswith("Rattle.std"):
                for item in m.group(2).split(","):
                    scope.update(item.split(" as ")[0].split())
        lines = []
        for l in t.split("\n"):
            if re.match(r"\s*(?:pub )?use Rattle\.std", l):
                lines.append(l)
                continue

            def put(m):
                w = m.group(0)
                before = l[: m.start()]
                field = before.endswith(".")
                if w in camel:
                    return camel[w]
                if w in dash and (w in scope or (field and is_alias(before, t)) or (field and any(k == "inner" for _, k in names[w]))):
                    return dash[w]
                if "-" in w and not is_function_proof(p):
                    return w
                return w

            lines.append(IDENT.sub(put, l))
        new = "\n".join(lines)
        # tell where a new name was there before
        if new != open(p, encoding="utf-8").read():
            had = set(IDENT.findall(re.sub(r"--.*", "", t)))
            for w in set(IDENT.findall(t)):
                n = camel.get(w) or (dash.get(w) if w in scope else None)
                if n and n != w and n in had and re.search(r"(?<![.\w-])" + re.escape(n) + r"(?![\w'-])", re.sub(r"--.*", "", t)):
                    print("there already:", os.path.relpath(p, top), w, "->", n, file=sys.stderr)
            open(p, "w", encoding="utf-8").write(new)
            changed += 1
    for p in files(top, ".rt", ".edit"):
        t = open(p, encoding="utf-8").read()

        def put(m):
            w = m.group(0)
            return w if w.startswith('"') else camel.get(w, w)

        new = re.sub(r'"(?:\\.|[^"\\\n])*"|[A-Za-z_][A-Za-z0-9_\']*(?:-[A-Za-z0-9_\']+)*', put, t) if p.endswith(".rt") else re.sub(r"[A-Za-z_][A-Za-z0-9_']*", put, t)
        if new != t:
            open(p, "w", encoding="utf-8").write(new)
            changed += 1
    print(f"{changed} files, {len(camel)} names of camel case, {len(dash)} with a dash")
    locals_too(top)


def is_alias(before, t):
    """Whether the name before the dot is a module's alias, as `helpers.`."""
    m = re.search(r"([\w-]+)\.$", before)
    return bool(m) and re.search(r"^(?:pub )?use Rattle\.\S+(?: as)? ?" + re.escape(m.group(1)) + r"$|\.%s$" % re.escape(m.group(1)), t, re.M) is not None


main()
