#!/usr/bin/env python3
"""Brings the names of this repository's own definitions and lemmas to snake case, as nodeCount and by-node to
node_count and by_node. Types, relations and modules keep their capitals; names from src/ and names that Rattle
makes for goals and steps stay.

usage: python3 tools/spelling.py [--check]     at the top of the repository; --check writes nothing and lists what falls together
"""
import collections
import glob
import os
import re
import sys

WORD = re.compile(r"[^\s(){}.;,@\"«»]+")
DECLARED = re.compile(r"^\s*(?:unfoldable |abbrev )?(?:pub )?(?:abbrev )?([^\s(){}.;,@\"«»:]+) :(?= |$)")
# names whose parts are spelled otherwise today, and names that would fall together
OTHERS = {
    name: name.replace("-", "_") + "_lem"
    for name in """action-arity all-delays all-moves argument-bytes at-node call-arity delays-in is-term kids-at node-words
    owner-from process-at process-of transitions-in entry-of flat-at number-of shape-at size-at""".split()
}
# the same, where the name was in snake case already; a relation with a dash, and two lemmas named by capitals
OTHERS_IN = {
    "crates/behaviour/proofs/ByNode.antt": {"Fits-above": "FitsAbove"},
    "crates/ways/proofs/Turns.antt": {"R-top": "R_top", "W-top": "W_top"},
    "crates/behaviour/proofs/Summands.antt": {"all_ways": "all_ways_lem"},
}
# in prose these are words, not names
PROSE_KEEPS = set()


def snake(name):
    name = name.replace("getD", "get_or")
    name = re.sub(r"(?<=[a-z0-9])([A-Z])", lambda m: "_" + m.group(1).lower(), name)
    name = name.replace("-", "_")
    return name[0] + name[1:].lower() if not name[0].isupper() else name


def files(*patterns):
    for p in patterns:
        for f in sorted(glob.glob(p, recursive=True)):
            if "/out/" not in f and os.path.isfile(f):
                yield f


def antt():
    return files("crates/*/specs/**/*.antt", "crates/*/proofs/**/*.antt")


def of_a_function(path):
    return os.path.basename(path) in ("Answers.antt", "Invariants.antt", "Proof.antt", "Choices.antt") and path.count("/") > 3


def declared():
    own, made = set(), set()
    for f in antt():
        for line in open(f, encoding="utf-8"):
            m = DECLARED.match(line)
            if m:
                name = m.group(1)
                if not name[0].isupper() and (re.search("[-]", name) or re.search("[a-z][A-Z]", name)):
                    (made if of_a_function(f) and re.search(r": goal\.", line) else own).add(name)
    return own, made


def table():
    own, made = declared()
    return {n: OTHERS.get(n, snake(n)) for n in own - made}


def turned(text, names, path):
    """The words of a line of code, or of a clause, that are names."""
    step = re.compile(r"(?<![^\s(])[clg]\.$") if of_a_function(path) else None
    def word(m):
        w = m.group(0)
        if step and step.search(text[: m.start()]):
            return w
        return names.get(w, w)
    return WORD.sub(word, text)


def comment(text, names):
    def word(m):
        w = m.group(0)
        core = w.strip("`:'()")
        if core in names and core not in PROSE_KEEPS:
            return w.replace(core, names[core])
        return w
    return re.sub(r"[^\s(){}.;,@\"«»]+", word, text)


def line_antt(line, names, path):
    at = line.find("--")
    m = re.search(r"(?:^|\s)--(?:\s|$)", line)
    if m:
        return turned(line[: m.start()], names, path) + comment(line[m.start():], names)
    return turned(line, names, path)


def line_rt(line, names, path):
    m = re.search(r"(?:^|\s)//", line)
    code, tail = (line[: m.start()], line[m.start():]) if m else (line, "")
    # strings stay
    parts = re.split(r'("(?:\\.|[^"\\])*")', code)
    code = "".join(p if p.startswith('"') else turned(p, names, path) for p in parts)
    return code + comment(tail, names)


def main():
    names = table()
    check = "--check" in sys.argv
    if check:
        back = collections.defaultdict(list)
        for a, b in names.items():
            back[b].append(a)
        for b, xs in sorted(back.items()):
            if len(xs) > 1:
                print("fall together:", b, xs)
        seen = collections.defaultdict(set)
        for f in list(antt()) + list(files("crates/*/src/**/*.rt")):
            for w in WORD.findall(open(f, encoding="utf-8").read()):
                if w in back:
                    seen[w].add(f)
        for w, fs in sorted(seen.items()):
            print("stands already:", w, "for", back[w], "in", sorted(fs)[:6], len(fs))
        for f in antt():
            if of_a_function(f):
                for w in re.findall(r"(?<![^\s(])[cl]\.([^\s(){};,]+)", open(f, encoding="utf-8").read()):
                    for p in w.split("."):
                        if p in names:
                            print("a step of the same spelling:", p, f)
        return
    for f in antt():
        old = open(f, encoding="utf-8").read()
        here = {**names, **OTHERS_IN.get(f, {})}
        new = "".join(line_antt(l, here, f) for l in old.splitlines(True))
        if new != old:
            open(f, "w", encoding="utf-8").write(new)
    for f in files("crates/*/src/**/*.rt"):
        old = open(f, encoding="utf-8").read()
        new = "".join(line_rt(l, names, f) for l in old.splitlines(True))
        if new != old:
            open(f, "w", encoding="utf-8").write(new)
    for f in files("crates/*/must-fail/*.edit"):
        old = open(f, encoding="utf-8").read()
        new = "".join(turned(l, names, f) if l.startswith(("old:", "new:")) else l for l in old.splitlines(True))
        if new != old:
            open(f, "w", encoding="utf-8").write(new)


main()
