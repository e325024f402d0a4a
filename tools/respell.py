#!/usr/bin/env python3
"""Brings the repository's own definitions, laws and variables of clauses and proofs to the spelling of today's library.

usage: tools/respell.py        at the top of the repository, once, right after the kit's port.py

Words are in snake case: `lengthsValid` becomes `lengths_valid`. In a law's name a dash stays where it joins the names of two
definitions, as in `length-written`, and is a low line elsewhere, as in `prefixed_is`. Types, modules and variants, functions and
parameters of src/, exported names, strings and programs' texts keep their names. Of a proof by hand (Proof.antt) only what it cites of
other files is renamed, since its own names go by what Rattle generates.

The edits of must-fail/ are turned as the files that they change: names as above, and what port.py turns in these texts.
With --table the laws' names are listed, old and new, and nothing is written.
"""
import glob
import os
import re
import sys

# names of definitions that are one word: the library's, and of the repository's own those that are no plain English word in a law's name
WORD = re.compile(r"[^\W\d][\w']*")
SINGLE = set("length append drop take map get_or reverse foldl min max replicate paste written little pasted".split())
CAMEL = re.compile(r"(?<![\w'])[a-z][a-z0-9]*(?:[A-Z][a-z0-9]*)+'*(?![\w'])")
HEAD = re.compile(r"^ *((?:(?:abbrev|unfoldable|opaque|pub|record|data|ruleset)\s+)*)([^\s:(){}\[\],.]+)(?= *(?::|\(|\{| ))")
SPECIAL = {"block2K": "block_2k", "block4K": "block_4k", "in2K": "in_2k", "in4K": "in_4k", "basic2K": "basic_2k", "basic4K": "basic_4k",
           "word2K": "word_2k", "word4K": "word_4k"}

# laws' names that port.py itself has turned: pages, comments and edits still have them with a dash
PORTED = """
    add-assoc add-at add-done add-left address-read all-here all-there any-at any-found any-none any-order any-same append-assoc as-before at-block
    at-most at-rest below-power below-suc bits-of block-inside block-same body-bytes both-hold by-bytes by-front by-key by-kind by-lines by-one by-two
    byte-inside byte-left byte-step bytes-apart bytes-below bytes-drop bytes-fit bytes-left bytes-same bytes-take call-played code-apart code-fits
    code-same code-stays counted-is drop-at each-at each-next each-set each-step either-way enough-turns enum-told fields-read first-below first-byte
    first-fits first-step found-drop four-bytes given-to goes-on got-same high-is in-block in-order in-table in-two is-read joined-back kept-from
    kept-next key-left keys-length keys-of keys-on kind-1 kind-2 kind-3 last-word least-size left-after left-is left-out left-over lengths-read
    line-clear low-bits moved-on mul-at mul-next ne-eqb never-first next-address no-access no-length no-line no-record no-room no-wrap none-left
    not-end not-equal not-on nothing-yet number-same one-found one-key one-more one-unit other-fits other-key other-place own-key pair-left pair-of
    passed-first paste-more place-is put-back put-both put-other put-same read-as read-fits read-is read-keeps read-short reads-both record-same
    recorded-more run-alone run-ends same-alike same-answer same-block same-by same-byte same-bytes same-digits same-gives same-keys same-left
    same-length same-names same-test second-fits second-is set-comm set-out so-far some-bytes span-fits stays-on step-count step-falls step-fits
    step-stays store-bytes store-writes stored-on sub-part table-below take-all take-at the-type too-long too-short with-size word-read word-same
    written-after written-back written-both written-is written-once written-same zeros-of ℕ-discrete
"""


def snake(word):
    """`lengthsValid` as `lengths_valid`; other words stay."""
    if word in SPECIAL:
        return SPECIAL[word]
    if not CAMEL.fullmatch(word):
        return word
    return re.sub(r"([A-Z])", lambda m: "_" + m.group(1).lower(), word)


def camel(text):
    return CAMEL.sub(lambda m: snake(m.group(0)), text)


def defined(text):
    """The names that a file of antt defines, at the top and inside modules and `where`."""
    found = []
    for line in text.split("\n"):
        if re.match(r"^(pub )?(mod|module|use|open) |^--|^\s*let ", line):
            continue
        m = HEAD.match(line)
        if m and (m.group(1) or re.match(r"^ *[^\s:(){}\[\],.]+ : ", line)):
            found.append(m.group(2))
    return found


def dashed(name, words):
    """A law's name: a dash stays between the names of two definitions."""
    parts = name.split("-")
    groups, i = [], 0
    while i < len(parts):
        for j in range(len(parts), i, -1):
            joined = "_".join(parts[i:j])
            if joined in words or j == i + 1:
                groups.append((joined, joined in words))
                i = j
                break
    text = groups[0][0]
    for (_, before), (part, now) in zip(groups, groups[1:]):
        text += ("-" if before and now else "_") + part
    return text


def files(pattern):
    return sorted(p for p in glob.glob(pattern, recursive=True) if "/out/" not in p)


def renames():
    """Each law's name with a dash, old to new. A law that would have a definition's name gets `_lem`."""
    words = set(SINGLE)
    for p in files("crates/*/specs/**/*.antt"):
        words |= {w for w in (snake(n) for n in defined(open(p).read()) if "-" not in n) if "_" in w}
    table = {}
    sources = files("crates/*/specs/**/*.antt") + [p for p in files("crates/*/proofs/**/*.antt") if not p.endswith("/Proof.antt")]
    names = {n for p in sources for n in defined(open(p).read())}
    plain = {snake(n) for n in names if "-" not in n}
    for n in names:
        if "-" in n and re.fullmatch(r"[\w'-]+", n) and not n.startswith("-"):
            new = dashed(camel(n), words)
            table[n] = new + "_lem" if new in plain else new
    return table


NAME = re.compile(r"(?<![\w'◌-])[^\W\d_][\w'-]*[\w']|(?<![\w'◌-])[^\W\d_](?![\w'-])")


def laws(text, table):
    return NAME.sub(lambda m: table.get(m.group(0), m.group(0)), text)


def antt(path, table):
    text = open(path).read()
    by_hand = path.endswith("/Proof.antt")
    text = laws(camel(text), table)
    if not by_hand:
        imported = set()
        for m in re.finditer(r"^(?:pub )?use [^\n{]*\{([^}]*)\}", text, re.M):
            imported |= {w.split(" as ")[-1].strip() for w in m.group(1).split(",")}
        imported |= set(table.values()) | set(re.findall(r"\b[A-Z]\w*\.([a-z][\w'-]*)", text))
        used = set(WORD.findall(text))
        local_names = {}
        for n in set(NAME.findall(text)):
            if "-" in n and n not in imported and n not in table and n[0].islower():
                local_names[n] = n.replace("-", "_") + ("_lem" if n.replace("-", "_") in used else "")
        code = []
        for line in text.split("\n"):
            if line.startswith("--") or line.lstrip().startswith("-- "):
                code.append(line)
            elif re.match(r"^(pub )?use ", line):
                code.append(line)
            else:
                code.append(NAME.sub(lambda m: local_names.get(m.group(0), m.group(0)), line))
        text = "\n".join(code)
    return text


def rattle(path, table):
    """Ghost imports, clauses and comments of a source: its code has no names in camel case but types."""
    out = []
    for line in open(path).read().split("\n"):
        if '"' in line and not line.lstrip().startswith(("//", "ghost", "ensures", "requires")):
            out.append(line)
        else:
            out.append(laws(camel(line), table) if line.lstrip().startswith(("//", "ghost")) else camel(line))
    return "\n".join(out)


def turned_edit(text, table):
    lines = []
    for line in text.split("\n"):
        m = re.match(r"^(old: |new: )(.*)$", line)
        if m:
            t = m.group(2)
            t = re.sub(r"(?<=[\w')\]]) \.(?=[a-z])", ".", t)
            t = re.sub(r"«(\w+_\w+)»", r"\1", t)
            t = re.sub(r"(?<=\w) \.(?=[a-z])", ".", t)
            t = re.sub(r"\((\w+(?:\.\w+)+)\)", r"\1", t)
            t = re.sub(r"(?<![\w'])_([-+*/%<≡≤&|∷^]+)_", r"◌\1◌", t)
            t = t.replace("getD", "get_or").replace("getElem?", "get_elem?").replace("′", "'")
            t = t.replace("⌜ ", "").replace(" ⌝", "")
            t = re.sub(r"\bnow (\w+)", r"\1.now", t)
            line = m.group(1) + laws(camel(t), table)
        else:
            line = laws(camel(line), table) if line.startswith("#") else line
        lines.append(line)
    return "\n".join(lines)


def main():
    table = renames()
    ported = {n: n.replace("-", "_") for n in PORTED.split()}
    if "--table" in sys.argv:
        for a, b in sorted(table.items()):
            print(a, b)
        return
    turned = {}
    for p in files("crates/*/specs/**/*.antt") + files("crates/*/proofs/**/*.antt"):
        turned[p] = antt(p, table)
    for p in files("crates/*/src/**/*.rt"):
        turned[p] = rattle(p, ported | table)
    for p in files("crates/*/must-fail/*.edit"):
        turned[p] = turned_edit(open(p).read(), ported | table)
    for p in ["README.md"] + files("docs/**/*.md") + files("host/**/*.md"):
        text = open(p).read()
        text = text.replace("getD", "get_or").replace("getElem?", "get_elem?")
        turned[p] = re.sub(r"`([^`\n]+)`", lambda m: "`" + laws(camel(m.group(1)), ported | table) + "`", text)
    for p, t in turned.items():
        if t != open(p).read():
            open(p, "w").write(t)


main()
