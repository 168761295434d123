#!/usr/bin/env python3
"""Brings the repository's own definitions and lemmas to today's spelling: words in snake case, types and facts as they are.

usage: python3 tools/spelling.py        once, at the top of the repository, after the port.py of the installed kit

It goes by names: whatever a file of specs/ or proofs/ declares and that is spelled with a capital inside or with a dash gets
its words joined by `_`, wherever that name stands in specs/, proofs/, contracts, must-fail edits and, in backticks, in the
pages. A name that Rattle makes (an answer to a goal, a step of a proof) and a name of Rust code keeps its spelling, and so
does a lemma that is named by a fact and a word, as `Nearer-wf`. Where two names would fall together, SPECIAL and LEMMAS say
what they become.
"""
import collections
import glob
import os
import re
import sys

# a definition that would take the name of a constructor or of a field
SPECIAL = {
    "tooMany": "is_too_many",
    "tooFar": "is_too_far",
    "tooShort": "is_too_short",
    "noRoom": "has_no_room",
    "otherFormat": "in_other_format",
    "recordsPass": "records_pass_end",
    "tagsPass": "tags_pass_end",
    "languageRefused": "is_language_refused",
    "onlyLeft": "left_only",
    "onlyRight": "right_only",
    "otherBytes": "both_other",
    "upTo18": "up_to_18",
    # a tactic's name today
    "firstOf": "first_among",
    "first_of": "first_among",
}
# a lemma that would take the name of a definition, with the folders where it stands ('' for all)
LEMMAS = {
    "bit-of": "", "ill-formed": "", "left-bytes": "", "right-bytes": "", "looks-sought": "", "number-said": "crates/gyalvindor/",
    "numbers-in": "", "on-left": "", "on-right": "", "on-whole": "", "one-of": "", "optical-said": "", "rights-said": "",
    "style-said": "", "version-said": "crates/gyalvindor/", "said-case": "", "text-of": "",
    "in_both": "crates/name_compare/proofs/", "on_call": "crates/os2_compare/proofs/", "text_at": "crates/name_store/proofs/",
    "too_long": "crates/compare_lines/proofs/ crates/name_lines/proofs/ crates/os2_lines/proofs/",
}
# variables, which no line declares on its own
VARIABLES = ["sameKey", "leftKind", "leftValue", "rightKind", "rightValue", "isTaken", "words-refused", "text-right", "of-absent", "of-not-known"]
DECLARED = re.compile(r"^(\s*)((?:(?:pub|abbrev|unfoldable|ruleset)\s+)*)([^\s(){}.;,]+)\s*(:|=)(?:\s|$)")
# a name ends at a space, a bracket, a dot or one of these; dashes and primes are of the name
PIECE = re.compile(r"[^\s(){}\[\].;,`\"⌜⌝]+")
# what stands before a dot where the name behind it is one that Rattle makes
MADE = {"c", "tie", "goal", "l", "w", "l₀", "g", "t"}


def spelled(name):
    if re.match(r"[A-Z]", name):
        return name
    return re.sub(r"([a-z0-9])([A-Z])", lambda m: m.group(1) + "_" + m.group(2).lower(), name.replace("-", "_"))


def own_folder(path):
    """Whether a file is of one function's proof: proofs/F/.., where answers have the names of goals."""
    parts = path.split("/")
    return parts[2] == "proofs" and len(parts) > 4


def read(path):
    with open(path, encoding="utf-8") as f:
        return f.read()


def write(path, text):
    with open(path, "w", encoding="utf-8") as f:
        f.write(text)


def declared(files):
    """The names that the files declare, with where, and the names of fields."""
    names, fields, answers = collections.defaultdict(set), set(), collections.defaultdict(set)
    for path in files:
        record = None
        for line in read(path).split("\n"):
            if line.strip().startswith("--"):
                continue
            start = re.match(r"^(\s*)(?:pub )?record ", line)
            if start:
                record = len(start.group(1))
            elif line.strip() and record is not None and len(line) - len(line.lstrip()) <= record:
                record = None
            m = DECLARED.match(line)
            if not m or not (m.group(4) == ":" or "ruleset" in m.group(2)):
                continue
            name = m.group(3)
            if own_folder(path) and len(m.group(1)) == 0 and re.search(r": *(tie|goal)\.|statement", line):
                answers[path].add(name)
                continue
            names[name].add(path)
            if record is not None:
                fields.add(name)
    return names, fields, answers


def main():
    files = sorted(glob.glob("crates/*/specs/**/*.antt", recursive=True) + glob.glob("crates/*/proofs/**/*.antt", recursive=True))
    if not files:
        sys.exit("spelling: no crates here: run this at the top of the repository")
    names, fields, answers = declared(files)
    for n in VARIABLES:
        names[n].add("")
    turned = {n: SPECIAL.get(n, spelled(n)) for n in names}
    made = set()
    for n in LEMMAS:
        made.add(spelled(n) + "_lem")

    def new_name(name, path):
        if name in LEMMAS and any(path.startswith(p) for p in (LEMMAS[name].split() or [""])):
            return spelled(name) + "_lem"
        return turned.get(name, name)

    def in_antt(text, path):
        keep = answers.get(path, set())

        def one(m, line):
            name = m.group(0)
            if name in keep or name not in turned and name not in LEMMAS:
                return name
            before = line[: m.start()]
            if before.endswith("."):
                chain = re.search(r"([^\s(){}\[\];,`]+)\.$", before)
                root = chain.group(1).split(".")[0] if chain else ""
                if root in MADE and own_folder(path) and name not in fields:
                    return name
                # a field is no lemma
                if not before.endswith(("Rattle.", "}.")) and not re.match(r"^[A-Z]", root) and name in fields:
                    return turned.get(name, name)
            return new_name(name, path)

        out = []
        for line in text.split("\n"):
            code, dashes, note = line.partition("--") if line.strip().startswith("--") else (line, "", "")
            code = PIECE.sub(lambda m: one(m, code), code)
            note = re.sub(r"`([^`\s]+)`", lambda m: "`" + new_name(m.group(1), path) + "`", note)
            out.append(code + dashes + note)
        text = "\n".join(out)
        # the proof of the function F is `F_spec`
        if own_folder(path):
            function = path.split("/")[-2]
            old = function.replace("_", "-") + "-spec"
            text = re.sub(r"(?<![\w-])" + re.escape(old) + r"(?![\w-])", function + "_spec", text)
        return text

    def in_rt(text, path):
        """Clauses and imports name definitions of specs/; Rust code has no such name."""
        out = []
        for line in text.split("\n"):
            code, slashes, note = line.partition("//")
            if re.search(r"ghost|requires|ensures|invariant|≡", code) or line.startswith(("old:", "new:")):
                code = PIECE.sub(lambda m: new_name(m.group(0), path) if re.search(r"[A-Z-]", m.group(0)) or m.group(0) in LEMMAS and "ghost use" in line else m.group(0), code)
            else:
                code = PIECE.sub(lambda m: new_name(m.group(0), path) if re.match(r"[a-z0-9]+[A-Z]", m.group(0)) else m.group(0), code)
            note = re.sub(r"`([^`\s]+)`", lambda m: "`" + new_name(m.group(1), path) + "`", note)
            out.append(code + slashes + note)
        return "\n".join(out)

    def in_edit(text, path):
        target = re.search(r"^file: (.*)$", text, re.M)
        out = []
        for line in text.split("\n"):
            if line.startswith("file:"):
                target = line
            if line.startswith(("old:", "new:")):
                head, body = line[:4], line[4:]
                turn = in_antt if target and ".antt" in str(target) else in_rt
                # port.py turned some names, but not in edits
                body = PIECE.sub(lambda m: page_name(m.group(0)) if re.match(r"[a-z0-9]+[A-Z]", m.group(0)) else m.group(0), body)
                line = head + turn(body, path)
            out.append(line)
        return "\n".join(out)

    # a name in the pages and in edits, also one that port.py turned
    known = set(turned.values()) | made
    older = {}
    for n in list(names):
        older[n] = turned[n]

    def page_name(name):
        if name in SPECIAL:
            return SPECIAL[name]
        if name in older:
            return older[name]
        if re.match(r"[a-z][A-Za-z0-9]*[A-Z-]", name) and spelled(name) in known:
            return spelled(name)
        if name.startswith("_") and name.endswith("_") and len(name) > 2:
            return "◌" + name.strip("_") + "◌"
        return name

    new_texts = {}
    for path in files:
        new_texts[path] = in_antt(read(path), path)
    for path in sorted(glob.glob("crates/*/src/*.rt")):
        new_texts[path] = in_rt(read(path), path)
    for path in sorted(glob.glob("crates/*/must-fail/*")):
        new_texts[path] = in_edit(read(path), path)

    for path in sorted(glob.glob("docs/*.md") + ["README.md"]):
        text = re.sub(r"`([^`\s]+)`", lambda m: "`" + page_name(m.group(1)) + "`", read(path))
        new_texts[path] = text
    path = "docs/headlines.txt"
    if os.path.exists(path):
        lines = []
        for line in read(path).split("\n"):
            crate, colon, rest = line.partition(":")
            if colon and not line.startswith("#"):
                rest = " " + " ".join(page_name(n) for n in rest.split())
            lines.append(crate + colon + rest)
        new_texts[path] = "\n".join(lines)
    for path, text in new_texts.items():
        if text != read(path):
            write(path, text)
    print(f"spelling: {sum(1 for n in turned if turned[n] != n)} names in {len(new_texts)} files")


main()
