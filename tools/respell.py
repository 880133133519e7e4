#!/usr/bin/env python3
"""Brings the names of this repository's own definitions and lemmas to snake case.

usage: python3 tools/respell.py [ROOT]      at the top of a checkout; it rewrites crates/ in place
       python3 tools/respell.py --list      prints each old name and its new one, and the names that fall together

It renames what the .antt files below crates/ define by a signature, as a constructor or as a field: `tokensFrom` becomes
`tokens_from`, `clause-true-kept` becomes `clause_true_kept`. Names that Rattle gives to goals keep theirs, and so do names
that begin with a capital, types, modules, and everything in src/ but clauses and `ghost use` lines. Strings are left alone,
and in comments only names in camel case are turned.
"""
import os
import re
import sys

LETTER = r"[A-Za-z0-9_'\u0370-\u03ff\u2080-\u2089\u2200-\u22ff\u25cc\u2100-\u214f\u00ac]"
NAME = re.compile(r"[A-Za-z\u0370-\u03ff](?:%s|-(?=[A-Za-z0-9]))*" % LETTER)
# A signature, or the constructors and fields of a type: one or more names before a colon.
SIGNATURE = re.compile(r"^\s*(?:(?:abbrev|unfoldable|mutual|pub)\s+)*((?:[A-Za-z][A-Za-z0-9_'\-]*\s+)+):\s")
# What Rattle calls a goal, a measure or an invariant, with the function's name before it in a cycle of calls.
GOAL = re.compile(
    r"(^|-)(returns|requires|preserved|smaller|init|invariant|decreases|bounds|overflow|unreachable|loop)(-|$)|"
    r"^(invariant|decreases|returns|loop)"
)
STRING = re.compile(r'b?"(?:[^"\\]|\\.)*"')
# Own names whose plain respelling would fall together with another name: what they are called instead. A lemma with the name of
# the function that it speaks of ends in `_lem`.
CHOSEN = {
    "declareFun": "declared_fun",
    "declareSort": "declared_sort",
    "clause-true": "clause_true_lem",
    "congruent-by": "congruent_by_lem",
    "first-place": "first_place_lem",
    "judge-bare": "judge_bare_lem",
    "literal-true": "literal_true_lem",
    "pair-at": "pair_at_lem",
    "ruled-by": "ruled_by_lem",
    "same-sort": "same_sort_lem",
    "same-sorts": "same_sorts_lem",
    "same-value": "same_value_lem",
}
# The same, of names that are in snake case already: by the file that has them.
CHOSEN_IN = {
    "entries/proofs/Alike.antt": {"head_at": "head_at_lem", "same_sign": "same_sign_lem"},
    "equality/specs/Sided.antt": {"same_sign": "same_sign_lem"},
    "equality/specs/Tested.antt": {"applied_by": "applied_by_lem"},
}


def files(root, ends):
    for folder, dirs, names in os.walk(os.path.join(root, "crates")):
        dirs[:] = sorted(d for d in dirs if d != "out")
        for name in sorted(names):
            if name.endswith(ends):
                yield os.path.join(folder, name)


def snake(name):
    if name in CHOSEN:
        return CHOSEN[name]
    name = re.sub(r"(?<=[a-z0-9])([A-Z])", lambda m: "_" + m.group(1).lower(), name)
    return name.replace("-", "_")


def is_goal_file(path):
    return os.path.basename(path) in ("Answers.antt", "Invariants.antt", "Choices.antt", "Proof.antt")


def library_names(root):
    crates = "|".join(sorted(os.listdir(os.path.join(root, "crates"))))
    names = set()
    for path in files(root, (".antt", ".rt")):
        with open(path, encoding="utf-8") as text:
            for line in text:
                if re.match(r"\s*(ghost )?use ", line) and not re.match(r"\s*(ghost )?use Rattle\.(%s)\." % crates, line):
                    names.update(NAME.findall(line))
    return names


def own_names(root):
    """Each name that is to be turned, and its new spelling. What a file imports from Rattle's own library keeps its name."""
    turned, theirs = {}, library_names(root)
    for path in files(root, ".antt"):
        with open(path, encoding="utf-8") as text:
            for line in text:
                found = SIGNATURE.match(line)
                if not found:
                    continue
                for name in found.group(1).split():
                    if name[0].isupper() or name in ("abbrev", "unfoldable", "pub", "mutual"):
                        continue
                    if GOAL.search(name) and (is_goal_file(path) or GOAL.match(name)):
                        continue
                    new = snake(name)
                    if new != name and name not in theirs:
                        turned[name] = new
    return turned


def pieces(text, comment):
    """The text cut into code, strings and comments: (kind, piece)."""
    at, out = 0, []
    whole = re.compile(r'b?"(?:[^"\\\n]|\\.)*"|%s[^\n]*' % comment)
    for found in whole.finditer(text):
        out.append(("code", text[at : found.start()]))
        out.append(("comment" if found.group().startswith(comment) else "string", found.group()))
        at = found.end()
    out.append(("code", text[at:]))
    return out


def turn(text, comment, turned):
    def in_code(found):
        return turned.get(found.group(), found.group())

    def in_comment(found):
        name = found.group()
        return turned[name] if name in turned and "-" not in name else name

    out = []
    for kind, piece in pieces(text, comment):
        if kind == "code":
            piece = NAME.sub(in_code, piece)
        elif kind == "comment":
            piece = NAME.sub(in_comment, piece)
        out.append(piece)
    return "".join(out)


def main(words):
    root = words[0] if words and words[0] != "--list" else "."
    turned = own_names(root)
    if words and words[0] == "--list":
        for old, new in sorted(turned.items()):
            print(old, new)
        report(root, turned)
        return
    for path in files(root, (".antt", ".rt", ".edit")):
        with open(path, encoding="utf-8") as it:
            text = it.read()
        here = os.path.relpath(path, os.path.join(root, "crates"))
        new = turn(text, "//" if path.endswith(".rt") else "--", turned | CHOSEN_IN.get(here, {}))
        if new != text:
            with open(path, "w", encoding="utf-8") as it:
                it.write(new)


def report(root, turned):
    """The new names that stand in the repository already, and two old names with one new spelling."""
    news = {}
    for old, new in turned.items():
        news.setdefault(new, []).append(old)
    for new, olds in sorted(news.items()):
        if len(olds) > 1:
            print("TWICE", new, olds)
    for path in files(root, (".antt", ".rt")):
        with open(path, encoding="utf-8") as it:
            text = it.read()
        comment = "//" if path.endswith(".rt") else "--"
        code = "".join(piece for kind, piece in pieces(text, comment) if kind == "code")
        here = set(NAME.findall(code))
        for new, olds in sorted(news.items()):
            if new in here and any(old in here for old in olds):
                print("THERE", path, new, olds)


main(sys.argv[1:])
