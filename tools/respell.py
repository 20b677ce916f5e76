#!/usr/bin/env python3
"""Brings this repository's own definitions and lemmas to today's spelling.

usage: python3 tools/respell.py [FOLDER] [--list]

Run once, at the top of the repository (or of FOLDER), right after the toolchain's port.py. In specs/, proofs/, the clauses of
src/ and must-fail/, each name that is declared in a specs/ or proofs/ file of a crate here is written in snake case, and one
that stands for a type or a fact in camel case. Names of the library, names that the check generates for goals, functions of
src/, strings, inputs and outputs stay. With --list it prints old and new names, and names that would fall together, and
changes nothing.
"""
import os, re, sys

WORD = r"[^\s(){}\[\];,.:@λ→×∷\"⌜⌝«»]+"
TOKEN = re.compile(r'"(?:\\.|[^"\\\n])*"|' + WORD)
# Files that answer the check's goals; other files of proofs/ have lemmas.
ANSWERS = re.compile(r"/(Answers|Invariants|Proof|Choices)\.antt$")
# What the check makes up from the code begins so.
MADE = re.compile(r"^(then|else|loop|if|in_\w+|in|returns|overflow_\w+|bounds|slice_bounds|index|match|the|decreases|invariant|ghost|call)-")
OUR = r"(?:answer|answer_tests|exports|layout|linebreak|machine|meaning|notation|print|samples|session|speed|store|telling|text|tries|wire|words)"


def files(top):
    for folder, dirs, names in os.walk(os.path.join(top, "crates")):
        dirs[:] = sorted(d for d in dirs if d != "out")
        for name in sorted(names):
            if name.endswith((".antt", ".rt", ".edit")):
                yield os.path.join(folder, name)


def read(path):
    with open(path, encoding="utf-8") as f:
        return f.read()


def bare(text):
    """Without comments, for looking only."""
    return re.sub(r"(?m)(^|\s)(--|//)[^\n]*", r"\1", text)


def declared(text):
    """(name, its type or None) of each definition, constructor and field that a file declares."""
    text = bare(text)
    for m in re.finditer(r"(?m)^([ ]*)(?:unfoldable |abbrev )?(?:pub )?(?:unfoldable |abbrev )?(data|record )?\s*(" + WORD + r")((?: [({][^\n]*?[)}])*) :\s+([^\n]*)$", text):
        indent, kind, name, _, typ = m.groups()
        if name in ("goal", "let", "=") or "goal." in typ:
            continue
        # the type goes on over lines that are further in
        rest = text[m.end():]
        more = re.match(r"(?:\n" + indent + r"[ ]+[^\n]*)*", rest)
        yield name, typ + (more.group(0) if more and not kind else "")


def library(text):
    """Names that a file imports from elsewhere than this repository's crates."""
    out = set()
    for m in re.finditer(r"(?m)^\s*(?:ghost )?use ([\w.]+?)\.\{([^}]*)\}", text):
        if not re.match(r"Rattle\." + OUR + r"\b", m.group(1)):
            for item in m.group(2).split(","):
                out.update(w.strip() for w in item.split(" as "))
    return out


def camel(name):
    return "".join(w[:1].upper() + w[1:] for w in re.split(r"[-_]", name))


def renamed(top):
    """Old name to new name, for all of the repository."""
    new, facts = {}, set()
    for path in files(top):
        if not path.endswith(".antt"):
            continue
        for name, typ in declared(read(path)):
            if not re.match(r"[A-Za-z]", name) or MADE.match(name) and ANSWERS.search(path):
                continue
            fact = re.search(r"(?:^|→|\s)Type 0\s*(?:where)?\s*$", typ.strip()) is not None
            if fact:
                facts.add(name)
            if "-" in name or "′" in name or fact:
                new.setdefault(name, None)
    for name in new:
        plain = name.replace("′", "'")
        if name in facts or name[0].isupper():
            new[name] = camel(plain)
        else:
            new[name] = plain.replace("-", "_")
    return {a: b for a, b in new.items() if a != b}


def turn(text, new, keep):
    def word(m):
        w = m.group(0)
        if w.startswith('"') or w in keep:
            return w
        if w in new:
            return new[w]
        return w
    return TOKEN.sub(word, text)


def local(path, text, new, keep):
    """Names of variables: all in a file of lemmas or definitions, and those that a `let` binds in answers."""
    if ANSWERS.search(path):
        found = set(re.findall(r"\blet (" + WORD + r")(?= [:=])", text))
    else:
        found = {m.group(0) for m in TOKEN.finditer(bare(text)) if m.start() == 0 or text[m.start() - 1] != "."}
    return {w: w.replace("-", "_") for w in found if re.match(r"[a-z]", w) and "-" in w.strip("-") and not w.endswith("-") and w not in new and w not in keep and not MADE.match(w)}


def clauses(text, new, keep):
    """In code only what is ghost is turned: imports and clauses."""
    out, at = [], 0
    for m in re.finditer(r"(?m)^\s*(?:pub )?ghost use [^;]*;|\b(?:requires|ensures|ghost)\*?(?:\s+\w+)?(?:\s*:)?\s*(?:=\s*)?\{", text):
        if m.start() < at:
            continue
        end = m.end()
        if text[end - 1] == "{":
            depth = 1
            while depth and end < len(text):
                depth += {"{": 1, "}": -1}.get(text[end], 0)
                end += 1
        out.append(text[at:m.start()])
        out.append(turn(text[m.start():end], new, keep))
        at = end
    out.append(text[at:])
    return "".join(out)


def main():
    words = [w for w in sys.argv[1:] if not w.startswith("--")]
    top = words[0] if words else "."
    new = renamed(top)
    if "--list" in sys.argv:
        for a in sorted(new):
            print(a, "->", new[a])
        back = {}
        for a, b in new.items():
            back.setdefault(b, []).append(a)
        every = set()
        for path in files(top):
            every.update(TOKEN.findall(bare(read(path))))
        for b, old in sorted(back.items()):
            if len(old) > 1 or b in every:
                print("falls together:", b, old, "already there" if b in every else "")
        return
    for path in files(top):
        text = read(path)
        keep = library(text)
        to = turn(text, new | local(path, text, new, keep), keep) if path.endswith(".antt") else clauses(text, new, keep)
        if to != text:
            with open(path, "w", encoding="utf-8") as f:
                f.write(to)


main()
