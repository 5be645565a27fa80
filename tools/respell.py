#!/usr/bin/env python3
"""Brings this repository's own definitions and lemmas to the spelling of today's Rattle.

usage: python3 tools/respell.py [--list]     once, at the top, after /opt/rattle/port/port.py

Types and facts become UpperCamel, everything else snake_case; a dash stays in a lemma on one function of another.
It changes the words of crates/**/specs and proofs, of the ghost parts of crates/**/src, and of the must-fail edits.
Names that come from Rattle code, names of goals and of generated steps, and names of libraries stay.
"""

import collections
import glob
import re
import sys

ID = r"[^\s(){}\[\].,;:λ∣∥⟨⟩·`\"|⌜⌝→×]+"
TOKEN = re.compile(r"(?<![^\s(){}\[\].,;:λ∣∥⟨⟩·`\"|⌜⌝→×«»])(" + ID + r")")
# Names that would fall together with those of the functions that they are about, or read badly.
OWN = {
    "all-of": "all_of_decides",
    "any-of": "any_of_decides",
    "axiom-line": "axiom_of-line_of",
    "concept-open": "concept_open_decides",
    "counts-simple": "counts_simple_reads",
    "getD-nth": "get_or-nth",
    "getD-zeros": "get_or-zeros",
    "includes-by": "includes_by_decides",
    "is-inclusion": "is_inclusion_decides",
    "line-at": "line_at_reads",
    "lodge-session": "lodge_session_stands",
    "record-at": "record_at_reads",
    "role-open": "role_open_decides",
    "same-expression": "same_expression_decides",
    "same-fact": "same_fact_decides",
    "same-term": "same_term_decides",
    "same-var": "same_var_tells",
    "sizes-fit": "sizes_fit_test",
    "sizes-of": "has_sizes",
    "ruleOf": "rule_of",
    "unsafe-axioms": "unsafe_ones",
    "unsafeAxioms": "unsafe_axioms_of",
    "well-formed": "well_formed_decides",
}
# Lemmas on one function of another: here the dash stays.
JOINED = set("""axiom_of-line_of get_or-nth get_or-zeros add-added add-grows add-short distinct-kept distinct-map distinct-take held-take joined-distinct kept-none length-codes length-each length-encode
    length-held length-kept length-listed length-said map-map spare-set strike-distinct strike-length without-length""".split())
# Names that the port's own script had made and that are others' now, in the crates where they are such.
OWN_IN = {
    "held_in": ("held_in_is_held", ("start",)),
    "same_line": ("same_line_decides", ("theory", "layout")),
    "same_row": ("same_row_decides", ("trial",)),
    "some_below": ("some_below_decides", ("graph", "shapes")),
}


def files(*patterns):
    found = []
    for p in patterns:
        found += glob.glob("crates/*/" + p, recursive=True)
    return sorted(f for f in found if "/out/" not in f)


def theory():
    return files("specs/**/*.antt", "proofs/**/*.antt")


def imported(text):
    """The names that a file takes from libraries."""
    names = set()
    for m in re.finditer(r"(?m)^\s*(?:ghost )?use (Rattle\.std|lib|mathlib|Prim)\b[^{;\n]*\{([^}]*)\}", text):
        names |= {x.strip().split(" as ")[-1] for x in m.group(2).split(",")}
    return names


def defined():
    """Own names, with the names of types among them, and the names of fields."""
    names, types, fields, goals = collections.Counter(), set(), set(), set()
    for f in theory():
        with open(f, encoding="utf-8") as it:
            text = it.read()
        for line in text.split("\n"):
            line = re.sub(r"--.*$", "", line)
            if re.match(r"\s*(open )?use ", line):
                continue
            m = re.match(r"^(\s*)((?:(?:abbrev|unfoldable|pub|data|record)\s+)*)(" + ID + r")((?:\s+" + ID + r")*)\s*(\(|\{|:)", line)
            if m:
                first = m.group(3)
                if re.search(r": goal\.", line):
                    goals.add(first)
                    continue
                more = m.group(4).split() if m.group(5) == ":" else []
                for n in [first] + more:
                    names[n] += 1
                    if m.group(1) and m.group(2).strip() == "pub":
                        fields.add(n)
                if re.search(r"\b(data|record)\b", m.group(2)) or line.rstrip().endswith("Type 0") or "Type 0 where" in line:
                    types.add(first)
            for m in re.finditer(r"\blet\s+(" + ID + r")\s*(?::|=|\()", line):
                names[m.group(1)] += 1
            for m in re.finditer(r"λ\s*((?:" + ID + r"|\s)+)\.", line):
                names.update(m.group(1).split())
            for m in re.finditer(r"[({](" + ID + r"(?:\s+" + ID + r")*)\s*:", line):
                names.update(m.group(1).split())
    for g in goals:
        names.pop(g, None)
    return names, types, fields


def snake(name):
    name = re.sub(r"(?<=[a-z0-9])(?=[A-Z])", "_", name)
    return "_".join(p if p[:1].isupper() and "_" not in p and not p.isupper() and len(p) > 1 else p.lower() for p in name.split("_"))


def spelt(name, types):
    if name in OWN:
        return OWN[name]
    if name in types:
        return "".join(p[:1].upper() + p[1:] for p in re.split("[-_]", name))
    if "-" in name:
        left, _, right = name.partition("-")
        if name in JOINED:
            return snake(left) + "-" + snake(right)
        if name[:1].isupper():
            return name[: name.index("-")] + "-" + snake(right).replace("-", "_").lower()
    if name[:1].isupper():
        return name
    first = re.sub(r"(?<=[a-z0-9])(?=[A-Z])", "_", name.replace("-", "_"))
    return first.lower()


def plan():
    names, types, fields = defined()
    library = set()
    for f in theory() + files("src/**/*.rt"):
        with open(f, encoding="utf-8") as it:
            library |= imported(it.read())
    turned = dict(OWN)
    for n in names:
        if "-" in n or "′" in n or (re.search(r"[a-z0-9][A-Z]", n) and n[:1].islower()) or (n[:1].isupper() and "_" in n):
            new = spelt(n, types).replace("′", "'")
            if new != n:
                turned[n] = new
    return names, types, fields, turned, library


def clashes(names, turned, library):
    names = set(names) - set(OWN_IN)
    back = collections.defaultdict(list)
    for old, new in turned.items():
        back[new].append(old)
    out = []
    for new, olds in sorted(back.items()):
        if len(olds) > 1 or new in names or new in library:
            out.append((new, olds, "own" if new in names else "", "library" if new in library else ""))
    return out


def turn(text, turned, fields, path):
    """A file with its names turned, but for those that it takes from libraries."""
    keep = imported(text)
    crate = path.split("/")[1]
    here = dict(turned)
    for old, (new, crates) in OWN_IN.items():
        if crate in crates:
            here[old] = new
    if path.endswith(".antt"):
        result = []
        for line in text.split("\n"):
            code, dashes, rest = line.partition("--")
            result.append(TOKEN.sub(lambda m: local(m, code, here, keep, fields), code) + dashes + rest)
        return "\n".join(result)
    return "\n".join(code_line(line, here, keep, fields) for line in text.split("\n"))


def local(m, code, turned, keep, fields):
    """One word of a line: names of goals and of the steps of a goal stay."""
    w = m.group(1)
    bare = w.strip("«»")
    if bare not in turned or bare in keep:
        return w
    before = code[: m.start()]
    if before.endswith(".") and bare not in fields:
        stem = re.search(r"([^\s(){}\[\].,;:]+)\.$", before)
        if stem and stem.group(1) not in ALIASES and not stem.group(1)[:1].isupper():
            return w
    if re.search(r"(goal|given)\.$", before):
        return w
    return w.replace(bare, turned[bare])


ALIASES = set()


def code_line(line, turned, keep, fields):
    """Of Rattle code only words that no Rust name could be: those in camel case, and dashed ones in ghost lines."""
    if line.lstrip().startswith("//"):
        return line

    def word(m):
        w = m.group(1)
        if "-" in w and not re.match(r"\s*(pub )?(ghost|requires|ensures|≡|×)|^\s+[^;]*[≡λ]", line):
            return w
        return local(m, line, turned, keep, fields)

    return TOKEN.sub(word, line)


def main(argv):
    names, types, fields, turned, library = plan()
    for f in theory() + files("src/**/*.rt"):
        with open(f, encoding="utf-8") as it:
            for m in re.finditer(r"(?m)^\s*(?:ghost )?use [\w.]+ as ([\w]+)", it.read()):
                ALIASES.add(m.group(1))
    found = clashes(names, turned, library)
    if argv and argv[0] == "--list":
        for old, new in sorted(turned.items()):
            print(old, "->", new)
        print("aliases:", sorted(ALIASES))
        for c in found:
            print("clash:", *c)
        return 0
    done = 0
    for f in theory() + files("src/**/*.rt", "must-fail/*.edit"):
        with open(f, encoding="utf-8") as it:
            text = it.read()
        new = turn(text, turned, fields, f)
        if new != text:
            with open(f, "w", encoding="utf-8") as it:
                it.write(new)
            done += 1
    print(f"respell: {len(turned)} names in {done} files")
    return 0


if __name__ == "__main__":
    raise SystemExit(main(sys.argv[1:]))
