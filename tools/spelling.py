#!/usr/bin/env python3
"""Spells the repository's own definitions and lemmas as the library's are: words in snake case, types and facts as they are.

usage: tools/spelling.py [--check]        at the top of the repository, once, on what port.py wrote

`nextUp` becomes `next_up`, `chosen-first` becomes `chosen_first`, `exp--746` becomes `exp_minus_746`. A name that begins with a capital stays, and so do the names of
src/, of folders and modules, of what a proof file answers, and of a library. A name is turned where a file declares it, imports it from a crate of this repository or
has it behind a dot, in `specs/`, `proofs/`, clauses and must-fail edits. So is what clauses say of references and of a choice: see `references` and `conditional`.
"""

import glob
import os
import re
import subprocess
import sys

# Lemmas that port.py gave the name that a definition beside them gets here.
TWICE = {"of_three": "of_three_lem", "all_sound": "all_sound_lem"}

TOKEN = re.compile(r"--[^\n]*|//[^\n]*|\"(?:[^\"\\\n]|\\.)*\"|[^\s(){}.;,@\"«»\[\]`]+")
DECLARED = re.compile(r"^( *)(?:(?:pub|abbrev|unfoldable) )*([^\s(){}.;,@\"«»:]+)(?: \{[^{}\n]*\})* :(?!:)(?P<type> *[^\n]*)", re.M)
USED = re.compile(r"\buse ([^\s;{]+?)(?:\.\{([^}]*)\}|(?: as (\S+))?)(?=[;\s]|$)", re.M)


def spelled(name):
    if name[:1].isupper() or "◌" in name or name.startswith("+") or len(name) < 3:
        return name
    name = re.sub(r"--(?=\d)", "-minus-", name).replace("·", "-")
    name = re.sub(r"(?<=[a-z0-9])[A-Z]", lambda m: "_" + m[0].lower(), name)
    return re.sub(r"(?<=\w)-(?=[\w≤])|(?<=[\w≤≥'])-(?=\w)", "_", name)


def conditional(path, text):
    """The repository's own `if b then x else y` is `when b then x else y`: the library has one of the old name, which is open to every proof."""
    if "if◌then◌else◌" not in text:
        return text
    text = text.replace("if◌then◌else◌", "when◌then◌else◌")
    lines = text.split("\n")
    for i, line in enumerate(lines):
        if path.endswith(".antt") or re.match(r" *(ensures|requires)\b", line):
            code, dashes, comment = line.partition("--") if path.endswith(".antt") and line.lstrip().startswith("--") else (line, "", "")
            lines[i] = re.sub(r"(?<![^\s(])if (?=\S)", "when ", code) + dashes + comment
    return "\n".join(lines)


def references(path, text):
    """What a `&` points to is `x.now`. `old x` and `final x`, and `before lo hi` of boxes, are of a `&mut`."""
    if not path.endswith(".rt"):
        return text

    def turn(m):
        head = m[0]
        lent = dict(re.findall(r"\b(\w+)\s*:\s*&(mut )?", re.split(r"\n *(?:requires|ensures)\b", head)[0]))
        for x, mut in lent.items():
            if not mut:
                head = re.sub(rf"\(old {x}\)|\bold {x}\b", f"{x}.now", head)
        for lo, hi in re.findall(r"\bbefore (\w+) (\w+)", head):
            if lent.get(lo) == lent.get(hi) == "":
                head = head.replace(f"before {lo} {hi}", f"intervals {lo}.now {hi}.now")
        return head

    return re.sub(r'^( *)(?:pub )?(?:extern "C" )?fn \w+.*?^\1\{', turn, text, flags=re.S | re.M)


def aliases(text):
    """Another name that a file gives an import."""
    for name in set(re.findall(r" as ([a-z]+[A-Z]\w*)", text)):
        text = re.sub(rf"(?<![\w.-]){name}(?![\w-])", spelled(name), text)
    return text


def files(*ends):
    listed = subprocess.run(["git", "ls-files", "--cached", "--others", "--exclude-standard"], capture_output=True, text=True, check=True).stdout
    return [f for f in listed.splitlines() if f.endswith(ends) and os.path.exists(f)]


def declared(text):
    for m in DECLARED.finditer(text):
        if not re.match(r" *(?:tie|goal|given)\.", m["type"]):
            yield m[2]


def main():
    crates = {os.path.basename(os.path.dirname(p)) for p in glob.glob("crates/*/src")}
    texts = {f: open(f, encoding="utf-8").read() for f in files(".antt", ".rt", ".edit")}
    turned = {n: spelled(n) for f, t in texts.items() if f.endswith(".antt") for n in declared(t)}
    # A lemma that would meet its definition in some file gets `_lem`.
    for t in texts.values():
        there = {m[0] for m in TOKEN.finditer(t)} & set(turned)
        for n in there:
            if "-" in n and any(spelled(o) == spelled(n) for o in there - {n}):
                turned[n] = spelled(n) + "_lem"
    turned = {n: s for n, s in turned.items() if n != s}
    for f, t in texts.items():
        own, other = set(declared(t)) if f.endswith(".antt") else set(), set()
        for m in USED.finditer(t):
            of = m[1].split(".")
            names = {n.split(" as ")[0].strip(" «»") for n in (m[2] or "").replace("\n", " ").split(",")}
            (own if len(of) > 1 and of[0] == "Rattle" and of[1] in crates else other).update(names)
        if not f.endswith(".antt"):
            own |= set(turned)
        scope = {n: turned[n] for n in own - other if n in turned} | {n: TWICE[n] for n in own - other if n in TWICE and f.endswith(".antt")}

        def turn(m):
            w = m[0]
            if w.startswith("--") and not w.startswith("--[") or w.startswith("//"):
                return re.sub(r"`[^`]*`", lambda s: TOKEN.sub(turn, s[0]) if "--" not in s[0] else s[0], re.sub(r"[\w'-]+", lambda s: scope.get(s[0], s[0]) if re.search("[a-z][A-Z]", s[0]) else s[0], w))
            behind = m.string[m.start() - 1 : m.start()] == "." and not re.search(r"\b(tie|goal|given)\.$", m.string[max(0, m.start() - 8) : m.start()])
            if behind and w in turned and w not in other:
                return turned[w]
            in_path = m.string[m.start() - 1 : m.start()] == "." or m.string[m.end() : m.end() + 1] == "."
            return w if in_path and w in TWICE else scope.get(w, w)

        new = aliases(references(f, conditional(f, TOKEN.sub(turn, t))))
        if new != t and "--check" not in sys.argv:
            open(f, "w", encoding="utf-8").write(new)
    print(f"spelling: {len(turned)} names turned")


if __name__ == "__main__":
    main()
