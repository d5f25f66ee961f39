#!/usr/bin/env python3
"""Brings the repository's own definitions and lemmas to snake case: run once at the top, after the kit's port.py.

Words that the repository defines in specs/ and proofs/ (definitions, lemmas, record fields, constructors,
bound names) lose their dashes and inner capitals: time-divides and handOut become time_divides and hand_out.
Types, modules, names of the kit's library, functions of src/, strings and comments keep their spelling; in the
proof files of a function a name of the source inside a made name gets its underscores back (is-visible, is_visible).
It prints names that fall together in a file of specs/ or of lemmas, and changes nothing then.
A definition may have the name of the function of src/ that computes it.
"""
import os
import re
import sys

ROOT = "crates"
NAME = r"[A-Za-zλκ_][\w']*(?:-[\w']+)*"
# names bound on the left of a clause, or labels of the source
ALSO = {"z-is", "p-is", "fitsMore", "zero-answer", "zero-lots", "inRates", "inTotals", "orders-are", "queue-is", "first-is", "same-orders", "strangersHeld", "strangersFree", "securitiesTaken", "moneyTaken"}
# names that would fall together, and what stands for them
OTHER = {n: n.replace("-", "_") + "_lem" for n in ("ended-inside", "day-met", "round-lots", "after-round", "resting-rate", "same-direction", "released-all", "line-of")}


def files(ending):
    for folder, dirs, names in os.walk(ROOT):
        dirs[:] = sorted(d for d in dirs if d != "out")
        for n in sorted(names):
            if n.endswith(ending):
                yield os.path.join(folder, n)


def crate(path):
    return path.split("/")[1]


def is_answer(path):
    """Whether a proof file belongs to one function."""
    return path.split("/")[2] == "proofs" and os.path.basename(path) in ("Answers.antt", "Invariants.antt", "Proof.antt", "Choices.antt")


def code(text):
    return re.sub(r"--(?![\w']).*", "", text)


def snake(name):
    if name in OTHER:
        return OTHER[name]
    s = name.replace("-", "_")
    s = re.sub(r"(?<=[a-z0-9'])([A-Z])", r"_\1", s)
    return s.lower() if s != name else name


def wants(name):
    """A word, not a type, that is not in snake case."""
    return name[0].islower() and ("-" in name or re.search(r"[a-z0-9'][A-Z]", name) is not None) and not re.search(r"[^\x00-\x7f]", name)


def imports(text):
    """(path, [(name, alias)]) of each `use`."""
    for m in re.finditer(r"^(?:pub )?(?:ghost )?use ([\w.◌∙]+)\.\{([^}]*)\}", text, re.M):
        names = []
        for part in m[2].split(","):
            w = part.split()
            if w:
                names.append((w[0], w[2] if len(w) == 3 and w[1] == "as" else w[0]))
        yield m[1], names


def own_crates():
    return {line.split(":")[0].split()[0] for line in open("crates.txt", encoding="utf-8") if line.strip() and not line.startswith("#")}


def is_own(path, crates):
    parts = path.split(".")
    return parts[0] == "Rattle" and len(parts) > 1 and parts[1] in crates and ".Goals" not in path and ".Lts" not in path


def defined(text, answer):
    """The names that a file of antt defines or binds."""
    found = set()
    t = code(text)
    for m in re.finditer(r"^[ \t]*((?:pub |abbrev |unfoldable |private |opaque )*)(" + NAME + r"(?:[ \t]+" + NAME + r")*)[ \t]*:(?!:)[ \t]*(\S*)", t, re.M):
        if answer and re.match(r"(goal|given|need)\.", m[3]):
            continue
        for n in m[2].split():
            found.add(n)
    for m in re.finditer(r"[({]((?:" + NAME + r"[ \t]+)*" + NAME + r")[ \t]*:(?!:)", t):
        found.update(m[1].split())
    for m in re.finditer(r"λ((?:[ \t]+" + NAME + r")+)\.", t):
        found.update(m[1].split())
    for m in re.finditer(r"let[ \t]+(" + NAME + r")[ \t]*(?::|=)", t):
        found.add(m[1])
    for m in re.finditer(r"\bas[ \t]+(" + NAME + r")", t):
        found.add(m[1])
    for m in re.finditer(r"^[ \t]*(?:pub |abbrev |unfoldable )*(?:record|data)[ \t]+\S+((?:[ \t]+[({][^(){}]*[)}])*)", t, re.M):
        for b in re.finditer(r"[({]([^:]*):", m[1]):
            found.update(b[1].split())
    return {n for n in found if wants(n)}


def source_names():
    """Names of the source with an underscore, by crate."""
    found = {}
    for p in files(".rt"):
        t = open(p, encoding="utf-8").read()
        t = re.sub(r"//.*", "", t)
        names = set(re.findall(r"\b([A-Za-z]\w*_\w*)\b", "\n".join(line for line in t.split("\n") if not re.match(r"\s*(ghost|requires|ensures)\b", line))))
        found.setdefault(crate(p), set()).update(names)
    return found


TOKEN = re.compile(r"[^\s(){}\[\];,.:|\"⌜⌝]+")


def retoken(text, change, strings):
    """The text with each token outside comments (and strings) changed."""
    out, i = [], 0
    skip = re.compile(r'//[^\n]*|b?"(?:\\.|[^"\\])*"|b?\'(?:\\.[^\']*|[^\'\\\n])\'' if strings else r"--(?![\w'])[^\n]*|\"(?:\\.|[^\"\\])*\"")
    while i < len(text):
        m = skip.search(text, i)
        j = m.start() if m else len(text)
        out.append(TOKEN.sub(lambda k: change(k[0]), text[i:j]))
        if not m:
            break
        out.append(m[0])
        i = m.end()
    return "".join(out)


def restore(token, names):
    """A made name in which each name of the source has its underscores again."""
    if "-" not in token:
        return token
    parts = token.split("-")
    out, i = [], 0
    while i < len(parts):
        for j in range(len(parts), i + 1, -1):
            if "_".join(parts[i:j]) in names:
                out.append("_".join(parts[i:j]))
                i = j
                break
        else:
            out.append(parts[i])
            i += 1
    return "-".join(out)


def main():
    crates = own_crates()
    own, text, local, foreign = {}, {}, {}, {}
    for p in list(files(".antt")) + list(files(".rt")):
        t = open(p, encoding="utf-8").read()
        text[p] = t
        foreign[p] = {a for path, names in imports(t) if not is_own(path, crates) for n, a in names for a in (n, a)}
        if p.endswith(".antt"):
            local[p] = defined(t, is_answer(p)) - foreign[p]
        else:
            local[p] = {a for path, names in imports(t) for n, a in names if a != n and wants(a)}
            for m in re.finditer(r"λ((?:[ \t]+" + NAME + r")+)\.|[({]((?:" + NAME + r"[ \t]+)*" + NAME + r")[ \t]*:(?!:)", t):
                local[p] |= {n for n in (m[1] or m[2]).split() if wants(n)}
    everywhere = ALSO.union(*(local[p] for p in local if not is_answer(p)))
    sources = source_names()
    bad = []
    for p, t in text.items():
        names = (everywhere | local[p]) - foreign[p]
        answer = is_answer(p)
        made = set(re.findall(r"\b(?:goal|given|need)\.(" + NAME + ")", t)) if answer else set()
        here = sources.get(crate(p), set())

        def change(token):
            base = token.lstrip("@")
            if base in names and base not in made:
                return token[: len(token) - len(base)] + snake(base)
            if answer and "-" in base and base not in foreign[p]:
                return restore(token, here)
            return token

        new = retoken(t, change, p.endswith(".rt"))
        used = set(TOKEN.findall(code(t)))
        image = {}
        for n in used:
            if re.fullmatch(NAME, n):
                image.setdefault(change(n), set()).add(n)
        for n, olds in sorted(image.items()):
            if len(olds) > 1 and p.endswith(".antt") and not answer:
                bad.append(f"{p}: {', '.join(sorted(olds))} fall together as {n}")
        text[p] = new
    for line in bad:
        print(line)
    if bad:
        sys.exit(1)
    for p, t in text.items():
        with open(p, "w", encoding="utf-8") as f:
            f.write(t)


main()
