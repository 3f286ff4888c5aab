#!/usr/bin/env python3
"""Brings the repository's own definitions and lemmas to the spelling of today's Rattle: words in snake case, a dash only between two names, and a plain word joined by '_'.

    python3 tools/port-names.py            rewrites crates/, edits/, README.md, CHANGELOG.md and docs/ in place, and prints the names and their new spelling

It was run once, behind the kit's own script for older repositories and in the same commit, over what that script had made. Names of the code, types, modules,
and what a proof file is asked for under a given name keep their spelling.
"""
import pathlib
import re

TOP = pathlib.Path(__file__).resolve().parent.parent
# What stands between two names; everything else is part of one.
APART = re.compile(r"([\s(){}\[\];,.\"`«»]+)")
SIGNED = re.compile(r"^\s*(?P<marks>(?:(?:abbrev|unfoldable|pub|data|record|ruleset|axiom)\s+)*)(?P<names>[^\s:(){};,.=→λ]+(?: [^\s:(){};,.=→λ]+)*?) (?::|\(|\{|=) ?")
IMPORT = re.compile(r"use ([^\s{;]+)\.\{([^}]*)\}")
CAMEL = re.compile(r"(?<=[a-z0-9])(?=[A-Z])")
DEFINED = {"abbrev", "unfoldable", "data", "ruleset"}
WORDS = {"abbrev", "unfoldable", "pub", "data", "record", "ruleset", "axiom", "use", "mod", "module", "let", "in", "where", "unfolding", "open", "λ", "rw", "mutual", "simp"}
# Words that are no names, though something in the library is called so.
PLAIN = {"is", "at", "of", "no", "ok", "all", "one", "same", "lt", "le", "eq", "in", "by", "to", "back", "first", "last", "next", "other", "long", "true", "false", "none", "some", "here",
         "there", "right", "left", "end", "start", "step", "when", "above", "below", "over", "under", "high", "low", "more", "most", "less", "least", "stops", "fits", "only", "and", "or", "not", "as"}


def antt(folder):
    return sorted(p for p in folder.glob("crates/*/*/**/*.antt") if "out" not in p.parts) + sorted(p for p in folder.glob("crates/*/*/*.antt") if "out" not in p.parts)


def files():
    found = set(antt(TOP)) | set(TOP.glob("crates/*/src/**/*.rt")) | set(TOP.glob("crates/*/must-fail/*.edit")) | set(TOP.glob("edits/*/*.edit"))
    return sorted(found), sorted(set(TOP.glob("docs/**/*.md")) | {TOP / "README.md", TOP / "CHANGELOG.md"})


def of_a_function(path):
    """Whether a file is the proof of a function, where the check asks for names."""
    return "proofs" in path.parts and path.name in ("Proof.antt", "Answers.antt", "Invariants.antt")


def signed(text):
    """The names that a text declares, each with its marks."""
    for line in text.split("\n"):
        if line.lstrip().startswith("--"):
            continue
        found = SIGNED.match(line)
        if not found:
            continue
        names = found["names"].split(" ")
        if names[0] in WORDS:
            continue
        if not found["marks"] and (len(names) > 1 or not re.match(r"^\s*\S+ :", line)):
            continue
        for name in names[:1] if found["marks"] else names:
            yield name, found["marks"].split()


def snake(part):
    if not part or part[0].isupper() or not CAMEL.search(part):
        return part
    return "_".join(word.lower() for word in CAMEL.split(part.replace("getD", "getOr")))


def respelled(name, defined, known, functions):
    olds = name.split("-")
    for first in range(1, len(olds) - 1):
        if "_".join(olds[first:]) in functions:
            olds = [*olds[:first], "_".join(olds[first:])]
            break
    parts = [snake(part) for part in olds]
    made = parts[0]
    for part, old in zip(parts[1:], olds[1:]):
        joins = not defined and old and old not in PLAIN and (old in known or part in known)
        made += ("-" if joins else "_") + part
    return made


def renames():
    own, local, marks, tokens, foreign = set(), set(), {}, set(), set()
    code, _ = files()
    for path in code:
        text = path.read_text(encoding="utf-8")
        tokens.update(APART.split(re.sub(r"(?m)(--|//|^#) .*$|\"[^\"\n]*\"", "", text))[::2])
        for line in text.split("\n"):
            for module, names in IMPORT.findall(line):
                if not any(module == f"Rattle.{crate.name}" or module.startswith(f"Rattle.{crate.name}.") for crate in (TOP / "crates").iterdir()):
                    foreign.update(n.split(" as ")[0].strip() for n in names.split(","))
        if path.suffix == ".antt":
            for name, words in signed(text):
                (local if of_a_function(path) else own).add(name)
                marks.setdefault(name, set()).update(words)
    library = set()
    for path in pathlib.Path("/opt/rattle/rattle").glob("**/*.antt"):
        library.update(name for name, _ in signed(path.read_text(encoding="utf-8", errors="replace")))
    code_names = {n for path in code if path.suffix == ".rt" for n in re.findall(r"\b(?:fn|struct|enum|const|mod) (\w+)", path.read_text(encoding="utf-8"))}
    known = own | library | code_names
    made, taken = {}, {}
    for name in sorted(own | local):
        if name in foreign or re.fullmatch(r"[\W_]+", name) or "◌" in name:
            continue
        if name in own:
            new = respelled(name, bool(marks[name] & DEFINED), known, code_names)
        else:
            new = "-".join(snake(part) for part in name.split("-")) if not re.match(r"(invariant|decreases|ghost|μ)-", name) else name
        if new != name:
            made[name] = new
    for name, new in sorted(made.items()):
        taken.setdefault(new, []).append(name)
    # What a step of a definition reads has the standard's name, which is in snake case.
    bound = {n for path in code if path.suffix == ".antt" and path.parent.name == "specs" for n in re.findall(r"(?m)^\s+([a-z][\w-]*-[\w-]*) ← ", path.read_text(encoding="utf-8"))}
    for name in sorted(bound - own - local - library - foreign):
        new = name.replace("-", "_")
        if new not in tokens and new not in taken:
            made[name] = new
    # A lemma keeps its dash where the name would fall together with another.
    clash = {n for new, names in taken.items() for n in names if "-" in n and not marks.get(n, set()) & DEFINED and (len(names) > 1 or (new in tokens and new not in made))}
    merged = {new: names for new, names in taken.items() if len([n for n in names if n not in clash and n not in BY_HAND]) > 1}
    if merged:
        raise SystemExit(f"these fall together: {merged}")
    return made, clash


# Where the rules above would give a name that already stands for something else: another name, for the definition or for what had the name.
BY_HAND = {
    "bedInstances": "instance_count",
    "sampleOffset": "offset_in_samples",
    "objectElement": "object_element_part",
    "trimElement": "trim_element_part",
    "aboveAt": "scenes_above",
    "cutShort": "shortened",
    "readAs": "payload_read",
    "count_bits": "count_bits_lem",
    "few_bytes": "few_bytes_lem",
    "go_on": "go_on_lem",
    "is_digit": "is_digit_lem",
    "least_at": "least_at_lem",
    "no_distance": "no_distance_lem",
    "object_of": "object_of_lem",
    "record_of": "record_of_lem",
    "row_is": "row_is_lem",
    "same_bytes": "same_bytes_lem",
    "wanted_by": "wanted_by_lem",
}


def main():
    made, clash = renames()
    for name in clash:
        made.pop(name)
    made.update(BY_HAND)
    code, pages = files()
    for path in code:
        text = path.read_text(encoding="utf-8")
        new = "".join(made.get(word, word) for word in APART.split(text))
        if new != text:
            path.write_text(new, encoding="utf-8")
    for path in pages:
        text = path.read_text(encoding="utf-8")
        new = re.sub(r"`[^`\n]+`", lambda m: "".join(made.get(word, word) for word in APART.split(m[0])), text)
        if new != text:
            path.write_text(new, encoding="utf-8")
    for name, new in sorted(made.items()):
        print(f"{name} -> {new}")
    for name in sorted(clash):
        print(f"left: {name}")
    return 0


raise SystemExit(main())
