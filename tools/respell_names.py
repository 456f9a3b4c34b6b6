#!/usr/bin/env python3
"""Respells this repository's own definitions and lemmas as PORTING.md, part 3, has it: words in snake case, facts (what is a type) in camel case.

usage: python3 tools/respell_names.py [--list] [FOLDER]      once, right behind port.py, at the top of the repository (or of FOLDER)

A name counts as ours where specs/ or proofs/ declare it: a definition, a lemma, a field, a constructor. What src/ declares keeps its name, and so does what a file
imports from a library that is not ours. A dash stays where it joins two names of definitions, as in `length-drop`; else it becomes `_`. --list writes the renamings and
changes nothing. What would fall together with another name of the same file is said, and nothing is written."""
import collections
import os
import re
import sys

IDENT = re.compile(r"(?<![\w'◌₀-₉-])[A-Za-z_][A-Za-z0-9_'₀-₉]*(?:-[A-Za-z0-9_'₀-₉*+≤<≡]+)*")
DECL = re.compile(r"^( *)((?:(?:abbrev|opaque|unfoldable|pub|instance)\s+)*)(?:(record|data)\s+)?([^\s:(){},.=|;λ]+)((?:\s+[^:=]*?)?)\s*:(?:\s|$)(.*)")
FIELD = re.compile(r"^\s+(?:pub\s+)?([a-zA-Z_][^\s:(){},.=|;]*)\s*:\s")
RESERVED = set("data record deriving module where use mod pub package open as unfoldable abbrev axiom unfold unfolding ruleset mutual infix infixl infixr elim let in do Type".split())
# facts that were spelled as functions are
FACTS = {"means": "Means", "unread": "IsUnread", "says": "Says", "reads": "Reads", "refuses": "Refuses", "shows": "Shows", "every": "Every"}
FACT_FILES = ("Examples.antt", "Passes.antt")
# where two names fall together, or one would hide a parameter or a field of src/
OTHER = {"walkIs": "walk_as", "is-nan": "is_nan_lem", "four_bytes": "four_bytes_lem"}
HERE = {"playing/proofs/Cancels.antt": {"in_order": "in_order_lem"}}
# functions of src/, which no clause can name
FUNCTIONS = {("desk/src/lib.rt", "after_command"), ("text/src/words.rt", "count_in")}


def files(root):
    for folder, dirs, names in os.walk(os.path.join(root, "crates")):
        dirs[:] = sorted(d for d in dirs if d not in ("out", ".git"))
        for n in sorted(names):
            if n.endswith((".antt", ".rt")):
                yield os.path.join(folder, n)


def code_and_comment(line, mark):
    i = line.find(mark)
    while i > 0 and mark == "--" and line[i - 1] not in " \t":
        i = line.find(mark, i + 2)
    return (line, "") if i < 0 else (line[:i], line[i:])


def snake(word):
    word = re.sub(r"(?<=[a-z0-9])(?=[A-Z])", "_", word)
    return word.lower() if word[:1].islower() else word


def declared(path, text):
    """Names that the file declares, each with whether it is a definition (not a field or a binder)."""
    out, in_record = {}, None
    for line in text.split("\n"):
        code = code_and_comment(line, "--")[0].rstrip()
        m = DECL.match(code)
        if m and m[4] not in RESERVED and m[4] != "_" and "◌" not in m[4]:
            out[m[4]] = out.get(m[4]) or not (in_record is not None and len(m[1]) > in_record)
            if m[3]:
                in_record = len(m[1])
            elif in_record is not None and len(m[1]) <= in_record:
                in_record = None
    return out


def imports(text):
    """What the file's use lines bring from elsewhere than our own crates: the names as the file writes them."""
    out = set()
    for m in re.finditer(r"^(?:ghost )?use ([^\s;{]+?)\.?(?:\{([^}]*)\})?(?: as ([^\s;]+))?;?\s*$", text, re.M):
        yield m[1], [x.strip() for x in (m[2] or "").split(",") if x.strip()], m[3]


def main(argv):
    only_list = "--list" in argv
    rest = [a for a in argv if not a.startswith("--")]
    root = rest[0] if rest else "."
    texts = {p: open(p, encoding="utf-8").read() for p in files(root)}
    ours = set(os.listdir(os.path.join(root, "crates")))
    names, definitions = set(), set()
    for p, t in texts.items():
        if p.endswith(".antt"):
            for n, is_definition in declared(p, t).items():
                names.add(n)
                if is_definition and not p.endswith("Proof.antt"):
                    definitions.add(n)
    # a dash joins two names: these are the words that may stand on its sides
    spec_words = set()
    for p, t in texts.items():
        if p.endswith(".antt") and "/specs/" in p:
            for n, is_definition in declared(p, t).items():
                if is_definition and n[:1].islower():
                    spec_words.add(snake(n).replace("-", "_"))
    spec_words |= set("length take drop append map replicate set get_or".split())

    def joined(name):
        parts = [snake(x) for x in name.split("-")]
        best = None
        for i in range(1, len(parts)):
            a, b = "_".join(parts[:i]), "_".join(parts[i:])
            if a in spec_words and b in spec_words:
                best = (a, b)
        return "-".join(best) if best else "_".join(parts)

    table = {}
    for n in sorted(names):
        if n[:1].isupper() or n.startswith("_"):
            continue
        new = OTHER.get(n) or joined(n)
        # a lemma that would have its function's name
        if new != n and "-" in n and (new in names or any(q != n and "-" not in q and snake(q) == new for q in names if q[:1] == n[:1])):
            new += "_lem"
        if new in RESERVED:
            new += "_lem"
        if new != n:
            table[n] = new
    if only_list:
        for a, b in sorted(table.items()):
            print(a, b)
        return 0
    bad, out = [], {}
    for p, t in texts.items():
        foreign = set()
        for module, items, _ in imports(t):
            top = module.split(".")
            own = top[0] == "Rattle" and len(top) > 1 and top[1] in ours
            generated = own and "declared" in top or (own and len(top) > 2 and top[2] == "proofs" and top[-1] in ("Statement", "Tie", "Reads", "Lts", "Met", "Symbol", "Code"))
            if not own or generated:
                for it in items:
                    foreign.add(re.split(r"\s+as\s+", it)[0])
        here = {a: b for a, b in table.items() if a not in foreign}
        if os.path.basename(p) in FACT_FILES:
            for a, b in FACTS.items():
                if a in declared(p, t) or p.endswith(".antt") and re.search(rf"use [^\n]*\b{a}\b", t):
                    here[a] = b
        here |= {a: snake(a) for a in re.findall(r"\bas ([a-z]+[A-Z]\w*)", t)}
        here |= next((h for q, h in HERE.items() if p.endswith(q)), {})
        is_rt = p.endswith(".rt")
        seen, mapped = set(), collections.defaultdict(set)
        lines = []
        depth, in_clause = 0, False
        for line in t.split("\n"):
            code, comment = code_and_comment(line, "//" if is_rt else "--")

            def one(m):
                w = m[0]
                if w in here:
                    mapped[here[w]].add(w)
                    return here[w]
                seen.add(w)
                return w

            if is_rt:
                if re.match(r"\s*ghost use ", code):
                    code = IDENT.sub(one, code)
                else:
                    i, built = 0, ""
                    while i < len(code):
                        if not in_clause:
                            m = re.compile(r"\b(?:requires|ensures|ghost)\b[^{;]*\{").search(code, i)
                            if not m:
                                seen.update(IDENT.findall(code[i:]))
                                built += code[i:]
                                break
                            seen.update(IDENT.findall(code[i : m.end()]))
                            built += code[i : m.end()]
                            i, in_clause, depth = m.end(), True, 1
                        else:
                            j = i
                            while j < len(code) and depth:
                                depth += (code[j] == "{") - (code[j] == "}")
                                j += 1
                            built += IDENT.sub(one, code[i:j])
                            i, in_clause = j, depth > 0
                    code = built
            else:
                code = IDENT.sub(one, code)
            comment = re.sub(r"`([^`\n]+)`", lambda m: "`" + IDENT.sub(lambda w: here.get(w[0], w[0]), m[1]) + "`", comment)
            comment = IDENT.sub(lambda w: here[w[0]] if w[0] in here and re.search(r"[a-z][A-Z]", w[0]) else w[0], comment)
            lines.append(code + comment)
        for b, origins in mapped.items():
            hides = b in seen and (not is_rt or re.search(rf"\b{b}\s*:(?!:)|\b(?:let|mut|ref|for)\s+{b}\b|[|,(]\s*{b}\s*[,|]", t))
            hides = hides and not p.endswith("Proof.antt") and not any(p.endswith(q) and b == f for q, f in FUNCTIONS)
            if hides or len(origins) > 1:
                bad.append((p, b, sorted(origins), b in seen))
        out[p] = "\n".join(lines)
    for p, b, origins, there in bad:
        print(f"together: {p}: {', '.join(origins)} -> {b}{' (which is there)' if there else ''}")
    if bad and "--force" not in argv:
        print(f"{len(bad)} places fall together: nothing was written")
        return 1
    n = 0
    for p, t in out.items():
        if t != texts[p]:
            open(p, "w", encoding="utf-8").write(t)
            n += 1
    print(f"{len(table)} names, {n} files")
    return 0


if __name__ == "__main__":
    raise SystemExit(main(sys.argv[1:]))
