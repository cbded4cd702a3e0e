#!/usr/bin/env python3
"""Respells the repository's own definitions and lemmas: words in snake case, types and facts in camel case.

usage: python3 tools/respell.py           at the top of the repository: says what falls together, and changes nothing
       python3 tools/respell.py write     writes it, if nothing falls together

Names of functions in src/, goals, strings, inputs and outputs stay as they are.
"""
import collections
import glob
import re
import sys

TOKEN = re.compile(r"(?:«[^»\n]*»|[\w'ℕ′]+(?:-[\w'ℕ′*+≤<≡]+)*)")
DEFINED = re.compile(r"^(?P<in> *)(?:(?:abbrev|unfoldable|pub|data|record|ruleset) )*(?P<names>[\w'ℕ]+(?:-[\w'ℕ]+)*(?: [\w'ℕ]+(?:-[\w'ℕ]+)*)*)(?P<args>(?: *[({][^)}]*[)}])*) *:(?: |$)")
TYPE = re.compile(r"^(?:pub )?(?:data|record) ([\w'ℕ]+(?:-[\w'ℕ]+)*)")
GIVEN = re.compile(r" as ([\w'ℕ]+(?:-[\w'ℕ]+)*)")
FOREIGN = re.compile(r"^\s*(?:ghost )?(?:pub )?use (?!Rattle\.(?:%s)\.(?:specs|proofs)\b)[^\n]*\{([^}]*)\}")
# Names of variables.
OTHERS = {"all-rows", "by-sums", "join-text", "on-numbers"}
DOCS = ["README.md"] + sorted(glob.glob("docs/*.md"))


def crates():
    return sorted(p.split("/")[1] for p in glob.glob("crates/*/src"))


def antt_files():
    return sorted(glob.glob("crates/*/specs/**/*.antt", recursive=True) + glob.glob("crates/*/proofs/**/*.antt", recursive=True))


def files():
    return antt_files() + sorted(glob.glob("crates/*/src/**/*.rt", recursive=True))


def respelled(name):
    if name[0].isupper():
        parts = re.split("[-_]", name)
        return "".join(p[:1].upper() + p[1:] for p in parts)
    return name.replace("-", "_")


def comment(line):
    return line.lstrip().startswith(("--", "//"))


def defined(path):
    """Names that a file defines: tops, constructors, fields, lets; goals of a function are Rattle's names and not among them."""
    with open(path, encoding="utf-8") as f:
        for line in f:
            if comment(line) or re.search(r": *(?:goal|given|need)\.", line):
                continue
            m = DEFINED.match(line)
            names = m["names"].split() if m else TYPE.findall(line)
            if re.match(r"\s*use ", line):
                names = GIVEN.findall(line)
            for name in names:
                if "-" in name or name[0].isupper() and "_" in name:
                    yield name


def foreign(text, own):
    """Names that a file takes from outside the repository."""
    rule = re.compile(FOREIGN.pattern % "|".join(map(re.escape, own)))
    names = set()
    for line in text.splitlines():
        m = rule.match(line)
        if m:
            names |= {n.strip().strip("«»").split(" as ")[0] for n in m[1].split(",")}
    return names


def a_function(name, path, text):
    """A name of a function may be that of a definition too: it is named with fn, or by the folder of its proof."""
    return f"/{name}/" in path or re.search(rf"\bfn {name}\b", text) or f" {name}." in text or f".{name}." in text or f" {name}(" in text


def turn_docs(names):
    for path in DOCS:
        with open(path, encoding="utf-8") as f:
            text = f.read()
        new = re.sub(r"`([^`\n]*)`", lambda m: "`" + respelled(m[1]) + "`" if m[1] in names else m[0], text)
        with open(path, "w", encoding="utf-8") as f:
            f.write(new)


def main(write):
    own = crates()
    names = {n for p in antt_files() for n in defined(p)} | OTHERS
    names = {n for n in names if respelled(n) != n}
    bad, changed, uses = [], {}, collections.Counter()
    for path in files():
        with open(path, encoding="utf-8") as f:
            text = f.read()
        keep = foreign(text, own)
        before = {t.strip("«»") for line in text.splitlines() if not comment(line) for t in TOKEN.findall(line)}
        here = (names & before) - keep
        for n in sorted(here):
            if respelled(n) in before and not a_function(respelled(n), path, text):
                bad.append(f"{path}: {n} and {respelled(n)} fall together")
        bad += [f"{path}: {n} is also a name from outside" for n in sorted(keep & set(defined(path)))]

        def turn(m):
            n = m[0].strip("«»")
            if n not in here:
                return m[0]
            uses[n] += 1
            return respelled(n)

        new = TOKEN.sub(turn, text)
        if new != text:
            changed[path] = new
    print(f"{len(names)} names, {len(changed)} files")
    falls = collections.defaultdict(set)
    for n in names:
        falls[respelled(n)].add(n)
    bad += [f"{sorted(v)} all become {k}" for k, v in falls.items() if len(v) > 1]
    print("\n".join(bad))
    if write and not bad:
        for path, new in changed.items():
            with open(path, "w", encoding="utf-8") as f:
                f.write(new)
        turn_docs(names)
        print("written")
    return bool(bad)


if __name__ == "__main__":
    sys.exit(main(sys.argv[1:] == ["write"]))
