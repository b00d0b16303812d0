#!/usr/bin/env python3
"""Brings the repository's own names in specs/ and proofs/ to one spelling: types in camel case, all else in snake case, ' for a prime.

usage: python3 tools/respell.py [FOLDER]      once, at the top of a repository whose other spelling was turned already

Names of src/, strings, comments, inputs and outputs keep their spelling, and so do names that a file takes from the toolchain's library.
In answers and invariants, where the checker makes a name out of the names of the source, those parts are spelled as in the source.
"""

import collections
import glob
import os
import re
import sys

TOP = sys.argv[1] if len(sys.argv) > 1 else "."
WORD = r"[^\s:(){};,.«»@\[\]|\"]+"
TOKEN = re.compile(r"(?<![\w'′-])[A-Za-zΑ-ω_ℤℕ][\w'′ℤℕ]*(?:-[\w'′ℤℕ]+)*")

# A definition that would get the name of a field gets `_of`: in a clause the bare name would mean both.
OF = {
    "grid-charging": "grid_charging_of",
    "store-feed-in": "store_feed_in_of",
    "direct-feed-in": "direct_feed_in_of",
    "marked-direct": "marked_direct_of",
    "marked-store": "marked_store_of",
}
# The same of one that is also a field of a record of specs/: only where it is no field.
OF_UNLESS_FIELD = {"site-power": ("site_power_of", "site/specs/Plants.antt", r"Plants\.\{[^}]*\bsite-power\b")}

# Parts of made names that are two words.
MADE = {("in", "ok"), ("in", "err"), ("from", "residual"), ("is", "ok"), ("is", "err")}


def files(pattern):
    return sorted(glob.glob(os.path.join(TOP, "crates", pattern), recursive=True))


def pieces(text, comment):
    """The text in turns of code and of what keeps its spelling: strings and comments."""
    keep = re.compile(r'"(?:[^"\\\n]|\\.)*"|' + comment + r"[^\n]*")
    at = 0
    for m in keep.finditer(text):
        yield True, text[at : m.start()]
        yield False, m.group()
        at = m.end()
    yield True, text[at:]


def code(text, comment):
    return "".join(p for is_code, p in pieces(text, comment) if is_code)


def defined(texts):
    """Every name that specs/ and proofs/ define, but for the answers to goals."""
    names = set()
    line = re.compile(r"(?m)^[ ]*(?:(?:abbrev|unfoldable|pub|data|record) )*(" + WORD + r")\s*(?:[({][^\n]*?[)}]\s*)*:(?!=)\s*([^\n]*)")
    for text in texts:
        for m in line.finditer(text):
            if "goal." not in m.group(2) and "given." not in m.group(2):
                names.add(m.group(1))
        # names that a let or a λ binds
        names.update(re.findall(r"\blet (" + WORD + r") ?[=:]", text))
        for bound in re.findall(r"λ ((?:" + WORD + r" ?)+)\.", text):
            names.update(bound.split())
    return {n for n in names if re.search(r"[-′]", n) and TOKEN.fullmatch(n)}


def respelled(name):
    name = name.replace("′", "'")
    if "-" not in name:
        return name
    if name[0].isupper():
        return "".join(p[0].upper() + p[1:] for p in name.split("-"))
    return name.replace("-", "_")


def taken_from_library(text):
    names = set()
    for m in re.finditer(r"use (?:Rattle\.std|Rattle\.core|borrow|native|Prim|mathlib|lib)\b[^{;\n]*\.\{([^}]*)\}", text):
        names.update(n.strip() for part in m.group(1).split(",") for n in part.split(" as "))
    return names


def is_answer(f):
    return os.path.basename(f) in ("Answers.antt", "Invariants.antt", "Proof.antt")


def made(name, phrases):
    """A made name with the parts that are one name of the source joined as there."""
    parts, out = name.split("-"), []
    while parts:
        for n in range(len(parts), 1, -1):
            if tuple(parts[:n]) in phrases:
                out.append("_".join(parts[:n]))
                parts = parts[n:]
                break
        else:
            out.append(parts.pop(0))
    return "-".join(out)


def main():
    antt = {f: open(f, encoding="utf-8").read() for p in ("*/specs/**/*.antt", "*/proofs/**/*.antt") for f in files(p)}
    rust = {f: open(f, encoding="utf-8").read() for f in files("*/src/**/*.rt")}
    library = set().union(*(taken_from_library(code(t, "//" if f.endswith(".rt") else "--")) for f, t in {**antt, **rust}.items()))
    own = defined(code(t, "--") for t in antt.values())
    for f, t in antt.items():
        # outside of answers a name that no file takes from the library is one of the repository's own
        if not is_answer(f):
            own.update(n for n in TOKEN.findall(code(t, "--")) if re.search(r"[-′]", n))
    own -= library
    source = set(re.findall(r"[a-z][a-z0-9]*(?:_[a-z0-9]+)+", "\n".join(code(t, "//") for t in rust.values())))
    phrases = MADE | {tuple(n.split("_")) for n in source}
    news = collections.defaultdict(set)
    for n in own:
        news[OF.get(n, respelled(n))].add(n)
    for new, olds in sorted(news.items()):
        if len(olds) > 1:
            print("fall together:", new, sorted(olds))
    for f, text in {**antt, **rust}.items():
        comment = "//" if f.endswith(".rt") else "--"
        answers = is_answer(f)
        unless = {
            old: new
            for old, (new, home, imports) in OF_UNLESS_FIELD.items()
            if f.endswith(home) or re.search(imports, text)
        }

        def turn(m):
            name = m.group()
            before = m.string[max(0, m.start() - 1) : m.start()]
            if name in library:
                return name
            if name in unless and before != "." and not re.match(r"\s*[:=] ", m.string[m.end() :]) or name in unless and re.match(r" : [^\n]*→", m.string[m.end() :]):
                return unless[name]
            if name in unless and f.endswith(OF_UNLESS_FIELD[name][1]):
                return unless[name]
            if name in OF:
                return OF[name]
            if name in own:
                return respelled(name)
            if "′" in name:
                return respelled(name)
            if answers and "-" in name:
                return made(name, phrases)
            return name

        if comment == "//":
            turned = "".join(TOKEN.sub(turn, p) if is_code and "-" in p else p for is_code, p in pieces(text, comment))
        else:
            turned = "".join(TOKEN.sub(turn, p) if is_code else p for is_code, p in pieces(text, comment))
        if turned != text:
            with open(f, "w", encoding="utf-8") as out:
                out.write(turned)


main()
