#!/usr/bin/env python3
"""Brings the repository's own definitions and lemmas to snake case: camelCase and kebab-case become snake_case.

usage: python3 tools/snake_names.py         at the top of the repository, once, right after port.py
       python3 tools/snake_names.py map     prints old and new names, and does nothing

Types, modules and type-valued definitions keep their capital. Names of src/, of the kit's library and of what Rattle
makes (goals, steps) stay. A new name that a module or a file already uses for something else gets `_lem`.
Files: crates/*/specs, crates/*/proofs, the clauses of crates/*/src, crates/*/must-fail.
"""

import os
import re
import sys

ROOT = os.getcwd()
CRATES = sorted(c for c in os.listdir(os.path.join(ROOT, "crates")) if os.path.isdir(os.path.join(ROOT, "crates", c, "src")))
# a token of antt: letters, digits, marks; a dot separates
TOKEN = re.compile(r"[^\s.(){}\[\],;:=λ→×≡∷⌜⌝←↦|\"`«»]+")
DECL = re.compile(r"^(\s*)((?:(?:pattern|unfoldable|abbrev|pub|axiom) )*)((?:[^\s:(){}\[\],;.=λ→]+ )+)(?:\{[^}]*\} )?: ")
USE = re.compile(r"^(?:ghost )?(?:pub )?use (Rattle\.[\w.'-]+?)(?:\.\{([^}]*)\}|( as [^\s;]+))?;?$")
HEAD = re.compile(r"^\s*(?:pub )?(?:record|data) ")


# lemmas that would fall together with a definition that their users see too (also some that port.py already turned)
BY_HAND = {
    ("Rattle.bits.proofs.Packed", "byte-of"): "byte_of_lem",
    ("Rattle.capi.proofs.NoZero", "join-tests"): "join_tests_lem",
    ("Rattle.loes.proofs.Members", "key-bytes"): "key_bytes_lem",
    ("Rattle.encoding.proofs.Agree", "edges-at"): "edges_at_lem",
    ("Rattle.loes.proofs.Reading", "read-tests"): "read_tests_lem",
    ("Rattle.merge.proofs.Flags", "flag-of"): "flag_of_lem",
    ("Rattle.pack.proofs.Batches", "bad-width"): "bad_width_lem",
    ("Rattle.pack.proofs.Levels", "row-offset"): "row_offset_lem",
    ("Rattle.printing.proofs.Paging", "first-line"): "first_line_lem",
    ("Rattle.restrict.proofs.Marking", "mask-record"): "mask_record_lem",
    ("Rattle.weights.proofs.Answers", "post-call"): "post_call_lem",
    ("Rattle.weights.proofs.Members", "kept-to"): "kept_to_lem",
    ("Rattle.weights.proofs.Flags", "kept-to"): "kept_to_lem",
    ("Rattle.capi.proofs.Steps", "is_state"): "is_state_lem",
    ("Rattle.capi.proofs.Steps", "step_call"): "step_call_lem",
    ("Rattle.cursor.proofs.Filling", "goes_on"): "goes_on_lem",
    ("Rattle.divide.proofs.Dividing", "in_both"): "in_both_lem",
    ("Rattle.loes.proofs.Navigation", "index_is"): "index_is_lem",
    ("Rattle.loes.proofs.Numbers", "number-at"): "number_at_lem",
    ("Rattle.loes.proofs.Reading", "body-at"): "body_at_lem",
    ("Rattle.pack.proofs.Batches", "too_large"): "too_large_lem",
    ("Rattle.pack.proofs.Batches", "edge-count"): "edge_count_lem",
    ("Rattle.query.proofs.Paths", "key-of"): "key_of_lem",
    ("Rattle.query.proofs.Readings", "index_is"): "index_is_lem",
    ("Rattle.records.proofs.Numbers", "eightSet"): "eight_set",
    ("Rattle.records.proofs.Numbers", "eight-set"): "eight_set_lem",
    ("Rattle.restrict.proofs.Subsets", "flag_at"): "flag_at_lem",
}


def snake(name):
    s = re.sub(r"(?<=[a-z0-9₀-₉'])-(?=[a-zA-Z0-9])|(?<=[a-zA-Z0-9])-(?=[a-z0-9])", "_", name)
    s = re.sub(r"(?<=[a-z0-9])([A-Z])", lambda m: "_" + m.group(1).lower(), s)
    return s


def to_turn(name):
    return bool(re.match(r"[a-z]", name)) and snake(name) != name and re.fullmatch(r"[a-zA-Z0-9_'₀-₉-]+", name) is not None


def files():
    for c in CRATES:
        base = os.path.join(ROOT, "crates", c)
        for sub in ("specs", "proofs", "src"):
            for folder, dirs, names in os.walk(os.path.join(base, sub)):
                dirs.sort()
                for f in sorted(names):
                    if f.endswith((".antt", ".rt")):
                        yield c, sub, os.path.join(folder, f)


def read(p):
    with open(p, encoding="utf-8") as f:
        return f.read()


def module(c, sub, p):
    rel = os.path.relpath(p, os.path.join(ROOT, "crates", c, sub))[: -len(".antt")]
    return f"Rattle.{c}.{sub}." + rel.replace("/", ".")


def declared(text):
    """The names that a file declares: definitions, lemmas, constructors, fields."""
    out = set()
    for line in text.split("\n"):
        if line.lstrip().startswith(("--", "use ", "let ", "λ")):
            continue
        m = DECL.match(line)
        if m:
            names = m.group(3).split()
            if all(re.fullmatch(r"[a-zA-Z0-9_'₀-₉-]+", n) for n in names) and names[0] not in ("let", "module", "pub", "record", "data", "use", "in"):
                out.update(names)
    return out


def imports(text):
    """(module, names) and aliases of a file's `use` lines."""
    names, aliases = {}, {}
    for line in text.split("\n"):
        m = USE.match(line.strip())
        if not m:
            continue
        if m.group(2) is not None:
            for n in m.group(2).split(","):
                n = n.strip()
                if n:
                    names[n.split(" as ")[-1]] = (m.group(1), n.split(" as ")[0])
        elif m.group(3):
            aliases[m.group(3)[4:]] = m.group(1)
    return names, aliases


def own(mod):
    return mod.split(".")[1] in CRATES


def plan():
    """Each own name that turns, by its module; where names fall together; and the texts."""
    made, texts = {}, {}
    for c, sub, p in files():
        texts[p] = read(p)
        if shared(sub, p):
            made[module(c, sub, p)] = declared(texts[p])
    turn = dict(BY_HAND)
    for mod, names in made.items():
        for n in names:
            if to_turn(n):
                turn.setdefault((mod, n), snake(n))
    return made, turn, texts


def shared(sub, p):
    """A file of specs/ or a lemma file: others import from it. The proof of one function is none."""
    return sub == "specs" or sub == "proofs" and os.path.basename(os.path.dirname(p)) == "proofs"


def new_text(text, mod, made, turn, anywhere):
    """A file's text with the names turned; and two names that fall together in it."""
    names, aliases = imports(text)
    here = {}
    for n in made.get(mod, ()):
        here[n] = turn.get((mod, n), n)
    kept = set()
    for n, (m, orig) in names.items():
        if own(m):
            here[n] = turn.get((m, orig), orig) if n == orig else n
        else:
            kept.add(n)
            here[n] = n
    if mod is None:
        kept |= {n for n in declared(text)}

    def name(t, dot, before):
        if dot:
            alias = TOKEN.findall(before[-80:])[-1:]
            if alias and alias[0] in aliases:
                return turn.get((aliases[alias[0]], t), t) if own(aliases[alias[0]]) else t
        elif t in here:
            return here[t] if t not in kept else t
        if t in kept and not dot:
            return t
        return anywhere.get(t, t) if to_turn(t) else t

    out = []
    for line in text.split("\n"):
        m = USE.match(line.strip())
        if m and m.group(2) is not None:
            if own(m.group(1)):
                parts = []
                for n in m.group(2).split(","):
                    n = n.strip()
                    orig, new = n.split(" as ") if " as " in n else (n, None)
                    parts.append(turn.get((m.group(1), orig), orig) + (" as " + new if new else ""))
                a, b = line.index("{"), line.rindex("}")
                line = line[: a + 1] + ", ".join(parts) + line[b:]
            out.append(line)
            continue
        if m:
            new_alias = m.group(3)[4:] if m.group(3) else None
            if new_alias and to_turn(new_alias):
                line = line.replace(" as " + new_alias, " as " + snake(new_alias))
            out.append(line)
            continue
        at, made_line = 0, []
        for t in TOKEN.finditer(line):
            made_line.append(line[at : t.start()])
            w = t.group()
            if w in aliases and to_turn(w):
                made_line.append(snake(w))
            else:
                made_line.append(name(w, t.start() > 0 and line[t.start() - 1] == ".", line[: t.start() - 1]))
            at = t.end()
        made_line.append(line[at:])
        out.append("".join(made_line))
    seen, fallen = {}, []
    for n, new in here.items():
        if new in seen and seen[new] != n:
            fallen.append((seen[new], n, new))
        seen[new] = n
    olds = set(TOKEN.findall(text))
    for n, new in here.items():
        if n != new and new in olds and new not in here:
            fallen.append((n, "a name of the file", new))
    return "\n".join(out), fallen


def main():
    made, turn, texts = plan()
    anywhere = {}
    for (mod, n), new in sorted(turn.items()):
        if to_turn(n) and (n not in anywhere or (mod, n) not in BY_HAND):
            anywhere[n] = new
    write = sys.argv[1:] != ["map"]
    changed = 0
    where = {p: module(c, sub, p) if shared(sub, p) else None for c, sub, p in files()}
    for p, text in texts.items():
        new, fallen = new_text(text, where[p], made, turn, anywhere)
        for f in fallen:
            print("look:", os.path.relpath(p, ROOT), *f)
        if new != text:
            changed += 1
            if write:
                with open(p, "w", encoding="utf-8") as f:
                    f.write(new)
    print(f"snake_names: {len(turn)} names, {changed} files")
    edits(anywhere, write)


def edits(anywhere, write):
    """Each edit's lines in today's spelling; what does not fit its file any more is told, and is brought over by hand."""
    for c in CRATES:
        folder = os.path.join(ROOT, "crates", c, "must-fail")
        for f in sorted(os.listdir(folder)) if os.path.isdir(folder) else ():
            if not f.endswith(".edit"):
                continue
            p = os.path.join(folder, f)
            text, file, out = read(p), None, []
            for line in text.split("\n"):
                if line.startswith("file: "):
                    file = read(os.path.join(ROOT, "crates", c, line[6:]))
                elif line.startswith(("old: ", "new: ")):
                    line = line[:5] + TOKEN.sub(lambda m: anywhere.get(m.group(), snake(m.group())) if re.search("[A-Z]", m.group()) and to_turn(m.group()) else m.group(), line[5:])
                    line = re.sub(r"(?<=[\w)]) \.(?=[a-z0-9])", ".", line)
                out.append(line)
            for line in out:
                if line.startswith("old: ") and file.count(line[5:]) != 1:
                    print("look:", os.path.relpath(p, ROOT), "stands", file.count(line[5:]), "times:", line[5:])
            if write and "\n".join(out) != text:
                with open(p, "w", encoding="utf-8") as g:
                    g.write("\n".join(out))


if __name__ == "__main__":
    main()
