#!/usr/bin/env python3
"""Spells the repository's own words of specs/ and proofs/ as Rattle's style has it: definitions, lemmas, fields and constructors in snake case,
with no dash: Rattle makes names with dashes itself, from those of src/.

usage: respell.py [--check] [ROOT]      (run once, after port.py; --check writes nothing and shows the table)

Names of Rattle's own making (goals and steps of a proof, names at `tie.Need-..`), names brought in from other libraries, types, modules, and
whatever stands in the code of src/ stay. Names of one file that fall together are shown; a lemma that would have
its function's name gets `_lem`. A word may have the name of the function of src/ that it describes.
"""
import glob, os, re, sys

WORD = r"[A-Za-zℕℤ_][\w'\-₀-₉]*"
QUIET = re.compile(r'"(?:[^"\\\n]|\\.)*"|--[^\n]*|//[^\n]*')
DECLARED = re.compile(rf"^[ \t]*(?:(?:unfoldable|abbrev|pub|private)\s+)*({WORD})\s+:\s+(\S*)", re.M)
BOUND = re.compile(rf"(?:\blet\s+|[({{,]\s*|λ\s+)({WORD})\s+:\s")
USED = re.compile(r"^[ \t]*(?:pub )?(?:ghost )?use ([^;{\n]*?)(?:\.\{([^}]*)\})?(?: as ([\w']+))?;?$", re.M)
CAMEL = re.compile(r"[a-z][\w']*[a-z0-9₀-₉]?[A-Z]")


def files(root):
    for end in ("antt", "rt"):
        for p in sorted(glob.glob(os.path.join(root, "crates", "**", "*." + end), recursive=True)):
            if "/out/" not in p:
                yield p


def bare(text):
    return QUIET.sub(lambda m: " " * len(m.group(0)), text)


def snake(word):
    if not CAMEL.match(word):
        return word
    return re.sub(r"(?<=[a-z0-9'₀-₉])([A-Z])", lambda m: "_" + m.group(1).lower(), word)


def read(root):
    texts = {}
    for p in files(root):
        with open(p, encoding="utf-8") as f:
            texts[p] = f.read()
    return texts


def gather(root, texts):
    own, words, foreign, made, alias, fields = {}, set(), set(), {}, {}, set()
    crates = set(os.listdir(os.path.join(root, "crates")))
    for p, t in texts.items():
        b = bare(t)
        made[p], alias[p] = set(), set()
        for path, items, name in USED.findall(b):
            parts = path.split(".")
            mine = parts[0] == "Rattle" and len(parts) > 1 and parts[1] in crates
            machine = parts[-1] in ("Tie", "Statement", "Given", "Goals", "Answers", "Lts")
            if name and mine and not machine:
                alias[p].add(name)
            for it in filter(None, (i.strip() for i in items.split(","))):
                if not mine or machine:
                    (foreign if not machine else made[p]).add(it.split(" as ")[0].strip())
        if not p.endswith(".antt"):
            continue
        for name, kind in DECLARED.findall(b):
            need = re.search(rf"^[ \t]*{re.escape(name)}\s+:[^\n]*\.Need-", b, re.M)
            if need or re.match(r"tie\.|goal\.", kind) or kind == "{M" or name.endswith("-spec"):
                made[p].add(name)
            else:
                own.setdefault(name, set()).add(p)
                if "/proofs/" not in p:
                    words.add(name)
        for block in re.findall(rf"^[ \t]*(?:pub )?(?:record|data) .*?\bwhere\n(.*?)(?=^\S|\Z)", b, re.M | re.S):
            fields.update(re.findall(rf"^[ \t]+(?:pub )?({WORD})\s+:", block, re.M))
        for name in BOUND.findall(b):
            own.setdefault(name, set()).add(p)
        for name in re.findall(rf"^[ \t]*(?:pub )?(?:record|data)\s+({WORD})", b, re.M):
            words.add(name)
    return own, words, foreign, made, alias, fields


def spell(name, words):
    parts = name.split("-")
    if "" in parts or not all(re.match(r"[\w'₀-₉]+$", x) for x in parts):
        return name
    return "_".join(snake(x) for x in parts)


def main(argv):
    check = "--check" in argv
    argv = [a for a in argv if a != "--check"]
    root = argv[0] if argv else "."
    texts = read(root)
    own, words, foreign, made, alias, fields = gather(root, texts)
    std = {w for w in foreign if re.match(WORD + "$", w)}
    table = {}
    seen = set()
    for t in texts.values():
        seen |= set(re.findall(WORD, bare(t)))
    for name in seen:
        camel = bool(CAMEL.match(name)) and "-" not in name
        if name in std or not (camel or ("-" in name and name in own)):
            continue
        new = spell(name, words | std)
        if new != name and not re.match(r"[A-Z]", name[0]):
            table[name] = new
    taken = {n for n in own if n not in table} | {table[n] for n in table if "-" not in n}
    for name in table:
        if "-" in name and table[name] in taken:
            table[name] += "_lem"  # a lemma that would have its function's name
    heads = "|".join(sorted({a for s in alias.values() for a in s} | {"x"}, key=len, reverse=True))
    token = re.compile(rf"(?P<dot>(?<=\.))?(?<![\w'\-₀-₉·])(?P<name>{WORD})")
    clash = []
    for p, t in texts.items():
        b = bare(t)
        here = {m.group("name") for m in token.finditer(b) if not m.group("dot")}
        back = {}
        for n in here:
            back.setdefault(table.get(n, n) if n not in made[p] else n, set()).add(n)
        for new, olds in back.items():
            if len(olds) > 1:
                clash.append((p, new, sorted(olds)))
    if check:
        for old in sorted(table):
            print(f"{old}\t{table[old]}")
    for c in clash:
        print("falls together:", *c, file=sys.stderr)
    if check:
        return 0
    for p, t in texts.items():
        b = bare(t)

        def turn(m):
            n = m.group("name")
            if n not in table or n in made[p]:
                return n
            at = m.start("name")
            quiet = b[at] == " "
            if quiet and "-" in n and not (t[at - 1] in "`#" or re.match(r"[`}]", t[m.end():m.end() + 1])):
                return n
            if m.group("dot") and "-" in n and n not in fields:
                head = re.search(r"[\w'.]*$", t[: at - 1]).group(0)
                if not (head in alias[p] or head.startswith("Rattle.")):
                    return n
            return table[n]

        new = token.sub(turn, t)
        if new != t:
            with open(p, "w", encoding="utf-8") as f:
                f.write(new)
    print(f"{len(table)} names respelled")
    return 0


if __name__ == "__main__":
    raise SystemExit(main(sys.argv[1:]))
