#!/usr/bin/env python3
"""Brings the repository's own definitions and lemmas to the spelling that today's Rattle uses everywhere:
types and facts in UpperCamel, all else in snake_case. Run once, at the top, right after port.py.

A name is changed only where a file of specs/ or proofs/ declares it (a definition, lemma, record, field,
constructor, or a local `let` with a type), and nothing but the spelling changes. Names that Rattle makes
(the goals of a function, steps such as `c.loop-x`) and names of libraries are not declared here, so they stay.
It prints every pair, and stops where two names would fall together.
"""
import os
import re
import sys

ROOT = os.getcwd()
WORD = r"[^\W\d][\w']*(?:-[\w']+)*"
TOKEN = re.compile(r"(?<![\w'·-])" + WORD + r"(?![\w'-])")
DECLARED = re.compile(r"^(?P<indent>\s*)(?P<marks>(?:(?:pub|abbrev|unfoldable|pattern)\s+)*)(?P<kind>(?:record|data)\s+)?(?P<name>" + WORD + r")\s*(?P<rest>.*)$")
LET = re.compile(r"\blet\s+(" + WORD + r")\s+:\s")

# Names whose spelling by rule would fall together with another, and what they are called instead.
CHOSEN = {
    # a function of the code has the name already
    "calls-of": "calls_of_lem",
    "costLineAt": "cost_line_of",
    "datesRight": "are_dates_right",
    "fileOf": "file_of_plan",
    "firstEarned": "earned_first",
    "firstKind": "kind_of_lot",
    "heldBefore": "holding_before",
    "jumpsAfter": "jumps_behind",
    "kindWord": "word_of_kind",
    "lotWords": "words_of_lot",
    "no-setup-without-demand": "no_setup_without_demand_lem",
    "refusalLine": "line_of_refusal",
    "risesAfter": "rises_behind",
    # another definition has it
    "goesOn": "goes_further",
    "line-at": "line_at_lem",
    "noLine": "empty_line",
    "wordNumber": "number_of_word",
    # a lemma beside the definition that it is about
    "closing-terms": "closing_terms_lem",
    "lot-of": "lot_of_lem",
    "none-proved": "none_proved_lem",
    "plan-told": "plan_told_lem",
    "price-told": "price_told_lem",
    "series-lines": "series_lines_lem",
    "setup-told": "setup_told_lem",
    "word-kind": "word_kind_lem",
}

# Two lemmas, or a lemma and a name of the code, that never meet in a scope.
APART = {"holding-fits", "setup-fits", "unit-fits", "is-lot"}

# Constructors of one word. By rule they would be `read` and the like, which many variables are called.
CONSTRUCTORS = {
    "Rattle.theory.specs.Series": {"Read": "read_call", "Take": "take_call", "Given": "given_lot", "Accepted": "accepted_read", "Refused": "refused_call"},
    "Rattle.theory.specs.Endings": {"Finished": "finished_feed", "Faulty": "faulty_feed"},
}


def files(*ends):
    for folder, dirs, names in os.walk(os.path.join(ROOT, "crates")):
        dirs[:] = sorted(d for d in dirs if d != "out")
        for n in sorted(names):
            if n.endswith(ends):
                yield os.path.join(folder, n)


def read(p):
    with open(p, encoding="utf-8") as f:
        return f.read()


def answers_a_function(path):
    """Whether a file answers the goals of a function: its top-level names are Rattle's."""
    rel = os.path.relpath(path, ROOT).split(os.sep)
    return "proofs" in rel and len(rel) > 4


def signature(lines, i):
    """The text of a declaration's signature: its line, and the lines that are indented more."""
    base = len(lines[i]) - len(lines[i].lstrip())
    text = lines[i]
    for l in lines[i + 1:]:
        if l.strip() and len(l) - len(l.lstrip()) <= base:
            break
        text += "\n" + l
    return text


def made_by_rattle(lines, i, name):
    return re.search(r":\s*(goal|need|given)\." + re.escape(name) + r"\b", lines[i]) is not None


def declared():
    """Each declared name, with its sort: 'type' or 'term'."""
    found = {}
    for p in files(".antt"):
        lines = read(p).split("\n")
        data_at = None
        for i, l in enumerate(lines):
            for m in LET.finditer(l):
                found.setdefault(m.group(1), set()).add("term")
            m = DECLARED.match(l)
            if not m or l.lstrip().startswith("--"):
                if l.strip() and not l.startswith(" "):
                    data_at = None
                continue
            name, rest = m.group("name"), m.group("rest")
            if name in ("use", "module", "mod", "where", "unfolding", "infix", "let", "in", "elim"):
                continue
            if data_at is not None and len(m.group("indent")) > data_at and rest.startswith(":"):
                found.setdefault(name, set()).add("constructor")
                continue
            if m.group("kind"):
                found.setdefault(name, set()).add("type")
                data_at = len(m.group("indent")) if m.group("kind").strip() == "data" else None
                continue
            data_at = None
            if not (rest.startswith(": ") or rest == ":" or re.match(r"(\{[^}]*\}\s*)+: ", rest)):
                continue
            if answers_a_function(p) and made_by_rattle(lines, i, name):
                continue
            sort = "type" if re.search(r"(→|:)\s*Type\s+(0|ℓ)\s*$", signature(lines, i).split("\n")[0].rstrip()) or re.search(r"Type 0\s*$", l) else "term"
            found.setdefault(name, set()).add(sort)
    return found


def snake(name):
    prime = re.search(r"'*$", name).group(0)
    body = name[: len(name) - len(prime)]
    body = re.sub(r"(?<=[a-z0-9])([A-Z])", lambda m: "_" + m.group(1).lower(), body)
    return body.replace("-", "_") + prime


def lower_first(name):
    return snake(name[0].lower() + name[1:]) if len(name) > 1 else name


def camel(name):
    return "".join(w[:1].upper() + w[1:] for w in name.split("-"))


def spelled(name, sorts):
    if name in CHOSEN:
        return CHOSEN[name]
    if not ("-" in name or re.search(r"[a-z][A-Z]", name)):
        return name
    if name[0].isupper():
        if "constructor" in sorts:
            return lower_first(name)
        return camel(name)
    if "type" in sorts and "term" not in sorts:
        return camel(snake(name).replace("_", "-"))
    return snake(name)


IMPORT = re.compile(r"^(?:ghost )?(?:pub )?use (Rattle\.[\w.+-]+)\.\{([^}]*)\}", re.M)


def constructors(path, text):
    """The constructors of one word that this file has from theory, each with its new name, also behind `series.`."""
    here, dotted = {}, {}
    for module, names in CONSTRUCTORS.items():
        own = path.endswith(module.replace("Rattle.", "").replace(".", os.sep) + ".antt")
        for old, new in names.items():
            if own or re.search(re.escape(module) + r"\.\{[^}]*(?<![\w-])" + old + r"(?![\w-])(?! as)", text):
                here[old] = new
            for alias in re.findall(re.escape(module) + r" as (\w+)", text):
                dotted[alias + "." + old] = alias + "." + new
    return here, dotted


def with_constructors(path, text):
    here, dotted = constructors(path, text)
    for old, new in list(dotted.items()) + list(here.items()):
        one = re.compile(r"(?<![\w'.·-])" + re.escape(old) + r"(?![\w'-])")
        if path.endswith(".rt"):
            text = "\n".join(one.sub(new, l) if re.match(r"\s*(ghost|requires|ensures)\b", l) else l for l in text.split("\n"))
        else:
            text = "\n".join(l if l.lstrip().startswith("--") else one.sub(new, l) for l in text.split("\n"))
    return text


def library_names():
    """Names that some file imports from a crate that is not of this repository."""
    own = set(os.listdir(os.path.join(ROOT, "crates")))
    names = set()
    for p in files(".antt", ".rt"):
        for m in IMPORT.finditer(read(p)):
            if m.group(1).split(".")[1] not in own:
                for part in m.group(2).split(","):
                    words = part.split(" as ")
                    names.add(words[-1].strip())
    return names


def main():
    found = declared()
    library = library_names()
    pairs = {}
    for name, sorts in sorted(found.items()):
        new = spelled(name, sorts)
        if new != name:
            if name in library:
                print(f"kept: {name} is also a library's")
                continue
            pairs[name] = new
    taken = {}
    for p in files(".antt", ".rt"):
        for m in TOKEN.finditer(read(p)):
            taken.setdefault(m.group(0), set()).add(os.path.relpath(p, ROOT))
    bad = 0
    for old, new in sorted(pairs.items()):
        if new in taken and new not in pairs and old not in APART:
            where = sorted(taken[new])
            print(f"falls together: {old} and {new} in {len(where)} files, as {where[:3]}")
            bad += 1
    backs = {}
    for old, new in pairs.items():
        backs.setdefault(new, []).append(old)
    for new, olds in sorted(backs.items()):
        if len(olds) > 1:
            print(f"falls together: {' and '.join(olds)} are both {new}")
            bad += 1
    for old, new in sorted(pairs.items()):
        print(f"{old} -> {new}" + ("" if "-" in old or found[old] != {"type"} else "  (type)"))
    print(f"{len(pairs)} names, {bad} to look at")
    if "--write" not in sys.argv:
        return 1 if bad else 0
    docs = [os.path.join(ROOT, "README.md")]
    docs += [os.path.join(ROOT, "docs", n) for n in sorted(os.listdir(os.path.join(ROOT, "docs"))) if n.endswith(".md")]
    docs += [os.path.join(ROOT, "docs", "landings", n) for n in sorted(os.listdir(os.path.join(ROOT, "docs", "landings"))) if n.endswith(".md")]
    for p in list(files(".antt", ".rt")) + docs:
        old = read(p)
        text = old if p.endswith(".md") else with_constructors(p, old)
        code = lambda text: TOKEN.sub(lambda m: pairs.get(m.group(0), m.group(0)), text)
        if p.endswith(".md"):
            new = re.sub(r"`[^`\n]+`", lambda m: code(m.group(0)), text)
        elif p.endswith(".rt"):
            new = "".join(part if k % 2 else code(part) for k, part in enumerate(re.split(r'("(?:[^"\\\n]|\\.)*"|//[^\n]*)', text)))
        else:
            new = code(text)
        if new != old:
            with open(p, "w", encoding="utf-8") as f:
                f.write(new)
    return 0


if __name__ == "__main__":
    raise SystemExit(main())
