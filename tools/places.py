#!/usr/bin/env python3
"""places.py [POINT..] [--list]: counts the places in crates/*/src (and, for point 8, crates/*/proofs) that docs/DESIGN-PASS.md speaks of, by the
text alone. With --list it names them. The points:

1  own enums; structs that hold a flag (`bool`); functions that answer with a number of a kind, a status or a refusal (`u64`, `u32`, `u16`)
2  twins: functions of four lines or more that are the same but for names, numbers, types and constants (each group after its first counts)
3  loops that are no `for`: `while` and `loop`
4  functions named same_.. or written by fields; `let mut next = x;` copies that set fields; functions that only cast
5  a fact that stands in the `requires` of three functions or more (one place a function), and groups of three parameters or more that stand
   together in three functions or more (one place a function)
6  structs that hold an array beside a length, and functions that take rows or heads beside a count
7  `match` on a stage, a step or a phase, and chains of `if NAME ==` of four tests or more
8  answers that say no more than `search rules`, `refl` or `simp`
"""
import collections, pathlib, re, sys

listing = "--list" in sys.argv
wanted = [a for a in sys.argv[1:] if a.isdigit()] or list("12345678")
sources = sorted(pathlib.Path("crates").glob("*/src/**/*.rt"))


def uncommented(text):
    return re.sub(r"//[^\n]*", lambda m: " " * len(m[0]), text)


class Fn:
    def __init__(self, path, line, name, head, body):
        self.path, self.line, self.name, self.head, self.body = path, line, name, head, body
        self.where = f"{path}:{line} {name}"
        self.params = []
        m = re.search(r"fn \w+\s*(?:<[^>]*>+)?\(", head)
        if m:
            depth, start, i = 1, m.end(), m.end()
            while i < len(head) and depth:
                depth += {"(": 1, ")": -1}.get(head[i], 0)
                i += 1
            for part in re.split(r",(?![^<\[(]*[>\])])", head[start:i - 1]):
                if ":" in part:
                    self.params.append(re.sub(r"\s+", " ", part.strip()))
        self.result = (re.search(r"\)\s*->\s*([^{]+?)\s*(?:requires|ensures|where|$)", head) or [None, ""])[1].strip()
        self.requires = re.findall(r"requires(?: \w+)? \{(.*?)\}\s*(?=requires|ensures|$)", head, re.S)


def functions(path):
    text = uncommented(path.read_text())
    for m in re.finditer(r"^( *)(?:pub )?(?:extern \"C\" )?fn (\w+)", text, re.M):
        # the body is the block that stands alone on its line at the function's indent
        b = re.compile(r"^%s\{\n(.*?)^%s\}" % (m[1], m[1]), re.M | re.S).search(text, m.end())
        same = text.find("{\n", m.end())
        nl = text.find("\n", m.end())
        if same != -1 and same < nl + 1 and "requires" not in text[m.end():nl] and "ensures" not in text[m.end():nl]:
            b2 = re.compile(r"\{\n(.*?)^%s\}" % m[1], re.M | re.S).search(text, m.end())
            if b2:
                yield Fn(path, text.count("\n", 0, m.start()) + 1, m[2], text[m.start():b2.start()], b2[1])
                continue
        if b:
            yield Fn(path, text.count("\n", 0, m.start()) + 1, m[2], text[m.start():b.start()], b[1])


fns = [f for p in sources for f in functions(p)]
structs = []
for p in sources:
    text = uncommented(p.read_text())
    for m in re.finditer(r"struct (\w+)[^{;]*\{(.*?)\n\}", text, re.S):
        structs.append((f"{p}:{text.count(chr(10), 0, m.start()) + 1} {m[1]}", m[2]))


def enums():
    return [f"{p}:{i} {m[1]}" for p in sources for i, l in enumerate(p.read_text().split("\n"), 1) if (m := re.match(r"\s*(?:pub )?enum (\w+)", l))]


def flags():
    return [w for w, b in structs if re.search(r":\s*bool\b", b)]


def numbers():
    return [f.where for f in fns if re.fullmatch(r"u(16|32|64)", f.result) and re.search(r"answer|refus|kind|command|user|status|code", f.name + f.head.split("ensures")[0])]


def shape(body):
    body = re.sub(r"b?\"[^\"]*\"", "S", body)
    body = re.sub(r"\b\d\w*", "N", body)
    body = re.sub(r"\b(?!if\b|else\b|while\b|loop\b|for\b|in\b|let\b|mut\b|match\b|return\b|as\b|break\b)[A-Za-z_]\w*", "x", body)
    body = re.sub(r"(x::)+x", "x", body)
    return re.sub(r"\s+", " ", body).strip()


def twins():
    groups = collections.defaultdict(list)
    for f in fns:
        if f.body.strip().count("\n") >= 3:
            groups[shape(f.body)].append(f.where)
    return [f"{w} (as {g[0]})" for g in groups.values() if len(g) > 1 for w in g[1:]]


def loops():
    return [f"{p}:{i} {l.strip()}" for p in sources for i, l in enumerate(uncommented(p.read_text()).split("\n"), 1) if re.match(r"\s*(while|loop)\b", l)]


def by_hand():
    found = [f.where for f in fns if f.name.startswith("same_") and f.name != "same_rank"]
    found += [f.where for f in fns if re.search(r"let mut (next|q) = \w+;\s*(?:\1\.)", f.body) ]
    found += [f.where for f in fns if re.fullmatch(r"\s*(\(?\w+( % \w+)?\)? as \w+|if \w+ \{ 1 \} else \{ 0 \})\s*", f.body)]
    return sorted(set(found))


def facts():
    atoms = collections.defaultdict(list)
    for f in fns:
        for r in f.requires:
            for a in re.split(r"×", r):
                a = re.sub(r"\s+", " ", a).strip(" ()")
                atoms[a].append(f.where)
    return [f"{w}: {a}" for a, ws in sorted(atoms.items()) if len(ws) >= 3 for w in ws]


def together():
    groups = collections.defaultdict(set)
    for f in fns:
        ps = [re.sub(r"&('\w+ )?(mut )?", "&", p) for p in f.params]
        for i in range(len(ps) - 2):
            groups[tuple(ps[i:i + 3])].add(f.where)
    return sorted({w for g, ws in groups.items() if len(ws) >= 3 for w in ws})


def lengths():
    found = [w for w, b in structs if re.search(r":\s*\[", b) and re.search(r"\b(used|count|n|len|start|got|live)\s*:\s*(usize|u8)", b)]
    found += [f.where for f in fns if any(re.search(r"FlowRows|GroupHeads|FlowOrder", p) for p in f.params) and any(re.match(r"(\w*count|n|live)\s*:\s*usize", p) for p in f.params)]
    return found


def switches():
    found = [f.where for f in fns if re.search(r"match (\w*stage|step|opening|phase)\b", f.body)]
    found += [f.where for f in fns if len(re.findall(r"\bif (\w+) ==", f.body)) >= 4]
    return sorted(set(found))


def answers():
    found = []
    for p in sorted(pathlib.Path("crates").glob("*/proofs/**/Answers.antt")):
        for m in re.finditer(r"^(\S+) c =\s*(search rules|refl|simp)\s*$", p.read_text(), re.M):
            found.append(f"{p} {m[1]}")
    return found


points = {
    "1": [("own enums", enums), ("structs with a flag", flags), ("numbers for kinds", numbers)],
    "2": [("twins", twins)],
    "3": [("while and loop", loops)],
    "4": [("by hand", by_hand)],
    "5": [("repeated facts", facts), ("parameters together", together)],
    "6": [("lengths beside", lengths)],
    "7": [("switches", switches)],
    "8": [("plain answers", answers)],
}
for point in wanted:
    for name, count in points[point]:
        found = count()
        print(f"{point}  {name}: {len(found)}")
        if listing:
            for w in found:
                print(f"     {w}")
