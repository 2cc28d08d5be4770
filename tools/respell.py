#!/usr/bin/env python3
"""tools/respell.py: brings the repository's own definitions and lemmas to today's spelling, once, after the toolchain's script has turned
what it turns. Types and modules stay in upper camel case; every other name gets underscores: goesFirst becomes goes_first, keep-all
becomes keep_all. A dash stays where it joins the spelled-out name of a definition to another: seenAs-unknown becomes seen_as-unknown.

Run at the top of the repository. It rewrites crates/*/specs and crates/*/proofs, the clauses of crates/*/src, and must-fail edits; in
README.md and the pages of docs/ it respells a name that a file of specs/ or proofs/ defines. Functions of src/, exported names, strings,
inputs and outputs keep their names. It says where two names of one file would fall together, and then writes nothing.
"""
import os
import re
import sys

TOKEN = re.compile(r"[^\s(){}\[\],;.:λ`\"]+")
GOAL = re.compile(r":\s*tie\.|→\s*statement M|:\s*statement\b")
# Names that would fall together with another of their file, or with a word of the library that stands for something else.
CHOSEN = {
    "fitAt": "values_fit_at",
    "allNamed": "named_indexes",
    "first-input": "first_input_is",
    "first-output": "first_output_is",
}
# Steps of a function's proof, which the toolchain names, and which a proof by hand cites behind a dot.
STEPS = {"first-input", "first-output"}


def snake(part):
    """One part of a name, between dashes."""
    if not part or part[0].isupper() or not re.search(r"[a-z0-9][A-Z]", part):
        return part
    if part == "getD":
        return "get_or"
    return re.sub(r"(?<=[a-z0-9])([A-Z])", r"_\1", part).lower()


def respelled(name):
    if name in CHOSEN:
        return CHOSEN[name]
    parts = name.split("-")
    out = snake(parts[0])
    for before, after in zip(parts, parts[1:]):
        spelled = any(re.search(r"[A-Z]", part) for part in (before, after))
        out += ("-" if spelled else "_") + snake(after)
    return out


def is_ours(name):
    """Whether a name is in a spelling that goes: words joined by dashes or by capitals, none of them an operator or a number."""
    return bool(re.fullmatch(r"[A-Za-z][A-Za-z0-9₀-₉'′_]*(-[A-Za-z0-9₀-₉'′_]+)*", name)) and respelled(name) != name


def files(*endings):
    for folder, dirs, names in os.walk("crates"):
        dirs[:] = sorted(d for d in dirs if d != "out")
        for name in sorted(names):
            if name.endswith(endings):
                yield os.path.join(folder, name)


def defined():
    """Names that files of specs/ and proofs/ give by a signature, and the fields of records; goals of a function, which the toolchain names,
    aside."""
    names, fields, goals = set(), set(), set()
    for path in files(".antt"):
        inside = None
        for line in open(path, encoding="utf-8"):
            if line.lstrip().startswith("--"):
                continue
            depth = len(line) - len(line.lstrip())
            head = re.match(r"\s*(?:(?:pub|abbrev|unfoldable|data|record)\s+)*([^\s(){}\[\],;:.=]+(?:\s+[^\s(){}\[\],;:.=]+)*?)\s*(?:[({].*)?:(?!=)", line)
            if inside is not None and line.strip() and depth <= inside:
                inside = None
            if head:
                for name in head.group(1).split():
                    if GOAL.search(line) and path.endswith("Proof.antt"):
                        goals.add(name)
                    elif inside is not None:
                        fields.add(name)
                        names.add(name)
                    else:
                        names.add(name)
            if re.match(r"\s*(pub )?record .* where", line):
                inside = depth
    # A lemma that would have the name of what it is about says so.
    said = {respelled(n) if "-" not in n else n for n in names if "-" not in n}
    for name in sorted(names):
        if "-" in name and name not in CHOSEN and respelled(name) != name and respelled(name) in said:
            CHOSEN[name] = respelled(name) + "_lem"
    return {n for n in names if is_ours(n)} - goals, {n for n in fields if is_ours(n)}


def imported(text):
    """What a file takes from libraries that are not the repository's."""
    own = {name for name in os.listdir("crates")}
    names = set()
    for line in re.findall(r"^(?:ghost )?use ([^\n]*)", text, re.M):
        head = re.match(r"Rattle\.(\w+)\.", line)
        if head and head.group(1) in own:
            continue
        inside = re.search(r"\{(.*)\}", line)
        for one in inside.group(1).split(",") if inside else []:
            names.update(one.split())
    return names


def turned(text, names, fields, keep, steps=frozenset()):
    """The text with its names respelled, and what each name of it has become."""
    met, aliases = {}, set(re.findall(r"^use [^\n{]* as (\w+)", text, re.M)) - {"tie"}

    def one(match):
        before = re.search(r"([^\s(){}\[\],;.]+)\.$", text[max(0, match.start() - 80) : match.start()])
        if before and before.group(1) in aliases:
            return respelled(match.group(0)) if match.group(0) in names else match.group(0)
        word, behind = match.group(0), match.start() and text[match.start() - 1] == "." and text[match.start() - 2 : match.start() - 1] not in " \n"
        if behind:
            return respelled(word) if word in fields and word not in steps else word
        new = respelled(word) if word in names and word not in keep else word
        line = text.rfind("\n", 0, match.start()) + 1
        if not text[line:].lstrip().startswith("--"):
            met.setdefault(new, set()).add(word)
        return new

    return TOKEN.sub(one, text), met


def clauses(text, names, fields, keep):
    """A source with the names in its clauses, its ghost items and its comments respelled."""
    out, met, ghost, depth = [], {}, False, 0
    for line in text.splitlines(keepends=True):
        starts = re.match(r"\s*(ghost|requires|ensures)\b", line)
        code, mark, comment = line.partition("//")
        if depth or starts:
            code, seen = turned(code, names, fields, keep)
            for new, old in seen.items():
                met.setdefault(new, set()).update(old)
            depth = max(0, depth + code.count("{") - code.count("}"))
        if mark:
            comment = turned(comment, {n for n in names if re.search(r"[a-z][A-Z]", n)}, set(), set())[0]
        out.append(code + mark + comment)
    return "".join(out), met


def main():
    if not os.path.isdir("crates"):
        raise SystemExit("respell: run at the top of the repository")
    names, fields = defined()
    done, clash, renamed = {}, [], {}
    for path in files(".antt", ".rt"):
        text = open(path, encoding="utf-8").read()
        keep = imported(text)
        if path.endswith(".antt"):
            new, met = turned(text, names, fields, keep, STEPS if path.endswith("Proof.antt") else frozenset())
        else:
            new, met = clauses(text, names, fields, keep)
        clash += [f"{path}: {' and '.join(sorted(old))} would both be {name}" for name, old in sorted(met.items()) if len(old) > 1]
        done[path] = (text, new)
    if clash and "--anyway" not in sys.argv:
        print("\n".join(clash))
        raise SystemExit(f"respell: {len(clash)} names would fall together; nothing is written")
    after = set()
    for path, (text, new) in done.items():
        if path.endswith(".antt"):
            for line in new.splitlines():
                head = re.match(r"\s*(?:(?:pub|abbrev|unfoldable|data|record)\s+)*([^\s(){}\[\],;:.=]+(?:\s+[^\s(){}\[\],;:.=]+)*?)\s*(?:[({].*)?:(?!=)", line)
                if head:
                    after.update(head.group(1).split())
    # Pages and edits name what the toolchain's own script turned, too.
    pages = [os.path.join(folder, name) for top in ("docs", "oracle", "tests", "host") for folder, dirs, found in os.walk(top) for name in found if name.endswith(".md")]
    for path in [p for p in ["README.md", *pages] if os.path.isfile(p)]:
        text = open(path, encoding="utf-8").read()

        def told(match):
            word = match.group(0)
            if re.search(r"[a-z][A-Z]|-", word) and not word[0].isupper() and is_ours(word) and respelled(word) in after and (re.search(r"[a-z][A-Z]", word) or text[match.start() - 1] in "`" or text[match.end() : match.end() + 1] == "`"):
                return respelled(word)
            return word

        done[path] = (text, re.sub(r"[A-Za-z][A-Za-z0-9'_]*(-[A-Za-z0-9'_]+)*", told, text))
    for path in files(".edit"):
        text = open(path, encoding="utf-8").read()
        new = re.sub(r"[a-z][a-z0-9]*[A-Z][A-Za-z0-9'_]*(-[A-Za-z0-9'_]+)*", lambda m: respelled(m.group(0)) if respelled(m.group(0)) in after else m.group(0), text)
        done[path] = (text, new)
    changed = 0
    for path, (text, new) in done.items():
        if new != text:
            changed += 1
            with open(path, "w", encoding="utf-8") as f:
                f.write(new)
    print(f"respell: {len(names)} names, {changed} files")


main()
