#!/usr/bin/env python3
"""Brings the repository's own ghost names to today's spelling: words in snake case, types in camel case.

usage: python3 tools/respell.py [FOLDER]      once, after port.py, on the tree as port.py left it; FOLDER is this one where none is given

Every name of an .antt file that has a hyphen or is in camel case is turned, in .antt and .rt files and in must-fail edits; in pages (README.md,
docs/) where it stands between backquotes or is in camel case. Names that start with a capital letter and have a hyphen lose the hyphen
(Ticked-to, TickedTo). Names of the toolchain's library keep their spelling. Names that the checker makes for proofs that walk
the code (Need-.., After-..) are left: such a file is written anew. It prints the names that fall together: but for those of APART they are a definition
and the function of src/ that gives it, or a name that an old proof has for a call of that function.
"""

import os
import re
import sys

TOKEN = re.compile(r"(?<![A-Za-z0-9_'-])[A-Za-z_][A-Za-z0-9_']*(?:-[A-Za-z0-9_']+)*")
MADE = re.compile(r"^(Need|Lts|After|Goes|Block)-")
# a lemma whose name would fall together with that of a definition takes another (the name as port.py left it: the one it gets)
APART = {
    "due_in": "due_in_is",
    "most-in": "most_in_is",
    "setting-at": "setting_kept",
    "bits-at": "bits_kept",
    "bits-of": "bits_from_small",
    "direction-of": "direction_is_flag",
    "ticked-to": "ticked_paced",
    "waiting-in": "waiting_fits",
    "tick-writes": "a_tick_writes",
}

# what port.py had turned by then in crates/, for the pages alone
PORTED = """
add-at all-pass answerOf as-long at-most bare-step bit-at bits-back bits-inside bitsAt bitsOf blank-of block-out block-spec both-left both-right
by-answer byte-small byte-split byteOf bytes-drop bytes-take carried-none clear-spec close-spec closed-at closed-is copy-spec countOf digits-last
digits-mod digits-more digits-number digits-push digits-same drop-of-take due-in each-more each-take fill-done fill-spec from-view full-block get-spec
given-is gives-none goes-on good-of got-of head-at held-in in-between in-pieces is-open joined-is keys-length kind-at laid-from laid-more laid-none
laid-on laid-out leave-spec left-down left-in length-X length-digits length-last length-part length-seen length-up lies-in lineOf listed-same
look-spec move-in move-some moved-keeps new-in no-bits no-room not-first number-append number-digits numberAt numberOf one-bit one-more open-done
open-of open-spec opened-of part-at part-none place-in plus-none plus-one put-spec ran-line ran-on ran-out read-back read-is read-spec read-whole
room-moved run-spec same-false same-length same-lines same-refl same-true small-of small-one step-spec take-min take-part tick-is tickAnswer
under-drop under-one upTo within-both within-step write-spec written-count written-is writtenOf zero-bits
""".split()


KIT = (r"^\s*(?:pub )?use (?!Rattle\.(?:%s)\b)[^\s{;]+\.\{([^}]*)\}")


def of_kit(text, crates):
    """The names that a file takes from the toolchain's library."""
    pattern = re.compile(KIT % "|".join(crates), re.M)
    return {n.strip() for m in pattern.finditer(text) for n in m.group(1).split(",")}


def code_of(path, text):
    """The text without comments."""
    mark = r"(^|\s)--.*$" if path.endswith(".antt") else r"//.*$"
    return re.sub(mark, "", text, flags=re.M)


def respelled(name):
    if name in APART:
        return APART[name]
    if name[0].isupper():
        head, *rest = name.split("-")
        return head + "".join(w[:1].upper() + w[1:] for w in rest)
    words = re.sub(r"(?<=[a-z0-9])(?=[A-Z])", "_", name) if not re.match(r"^x[0-9A-F]{2}$", name) else name
    return words.replace("-", "_").lower()


def files(root, ends):
    for folder, dirs, names in os.walk(root):
        dirs[:] = sorted(d for d in dirs if d not in ("out", "target", ".git"))
        for n in sorted(names):
            if n.endswith(ends):
                yield os.path.join(folder, n)


def main():
    root = sys.argv[1] if len(sys.argv) > 1 else "."
    crates = os.path.join(root, "crates")
    texts = {p: open(p, encoding="utf-8").read() for p in files(crates, (".antt", ".rt", ".edit"))}
    names = sorted(os.listdir(crates))
    kit = {p: of_kit(t, names) for p, t in texts.items()}
    functions = {f.replace("_", "-") for p, t in texts.items() if p.endswith(".rt") for f in re.findall(r"\bfn (\w+)", t)}
    every, turned = set(), {}
    for p, t in texts.items():
        if p.endswith(".edit"):
            continue
        walk = p.endswith("/Proof.antt")
        declared = set(re.findall(r"(?m)^\s*(?:pub )?(?:abbrev |unfoldable )?(?:pub )?(?:let )?([^\s(){}]+)", t)) | functions
        for n in TOKEN.findall(code_of(p, t)):
            every.add(n)
            if n in kit[p] or walk and n not in declared:
                continue
            if p.endswith(".antt") and not MADE.match(n) and (n in APART or "-" in n or re.match(r"^[a-z][a-z0-9]*[A-Z]", n)):
                turned[n] = respelled(n)
    together = {}
    for old, new in turned.items():
        together.setdefault(new, set()).add(old)
    fall = []
    for new, olds in sorted(together.items()):
        if new in every:
            olds = olds | {new}
        if len(olds) > 1:
            fall.append((new, sorted(olds)))
    for new, olds in fall:
        print(f"{new}: {', '.join(olds)}")
    spoken = dict(turned, **{n: respelled(n) for n in PORTED})
    for p, t in texts.items():
        lines = []
        for line in t.split("\n"):
            mark = "--" if p.endswith(".antt") else "//"
            m = re.search(r"(^|\s)" + mark, line) if not p.endswith(".edit") else None
            code, comment = (line[:m.start()], line[m.start():]) if m else (line, "")
            names = spoken if p.endswith(".edit") else turned
            code = TOKEN.sub(lambda k: k.group(0) if k.group(0) in kit[p] else names.get(k.group(0), k.group(0)), code)
            lines.append(code + TOKEN.sub(lambda k: spoken.get(k.group(0), k.group(0)), comment))
        write(p, t, "\n".join(lines))
    for p in [os.path.join(root, "README.md")] + list(files(os.path.join(root, "docs"), (".md",))):
        t = open(p, encoding="utf-8").read()
        write(p, t, prose(t, spoken))


def prose(text, turned):
    """Names between backquotes, and camel-case ones anywhere."""
    def quoted(k):
        return TOKEN.sub(lambda n: turned.get(n.group(0), n.group(0)), k.group(0))
    text = re.sub(r"`[^`\n]*`", quoted, text)
    return TOKEN.sub(lambda n: turned.get(n.group(0), n.group(0)) if "-" not in n.group(0) else n.group(0), text)


def write(path, old, new):
    if old != new:
        with open(path, "w", encoding="utf-8") as f:
            f.write(new)


if __name__ == "__main__":
    main()
