#!/usr/bin/env python3
"""Spells the names that this repository declares as Rattle's library spells its own: snake case for definitions, lemmas, fields, local
names and arguments ('memoryAfter', 'bytes-of' -> 'memory_after', 'bytes_of'), upper camel case for a type with a dash ('Fed-to' -> 'FedTo').
It was run once, when the repository was brought to a newer Rattle (docs/PORT.md).

usage: respell.py [--check] [--dots] [--docs] [TOP]       at the top of the repository, after port.py, with everything committed
       respell.py --names [TOP]                           prints the table old, tab, new, and writes nothing

--check   writes nothing: prints what would change and what falls together. Exit 1 if anything would be written or falls together
--dots    also drops aliases with a middle dot: `distance as Ring·distance` -> `distance`, where nothing in the file hides that name
          (a rule and a Rust function of one name may stand in one .rt file; a parameter or a local of that name hides the rule)
--docs    also renames in backticks in README.md, CONTRIBUTING.md, docs/, and below tests/, bench/ in comments; without it the places are printed

What turns: every .antt file of crates/*/specs and crates/*/proofs; in .rt files the clauses, `ghost` items and `ghost use` lines, and comments.
What stays: anything a file imports from elsewhere than a file of this repository (Rattle's library, and what Rattle makes: `declared`, `contracts`,
Goals, Tie, Reads ..); names with `·` or `#`; a name declared as `x : tie.Need-..` or `x : goal.x` (a goal's answer); in Answers.antt and
Invariants.antt names as Rattle makes them; what stands behind `c.`, `tie.`, `goal.`; strings; functions, fields, constants and types of src/.
Run `rt fmt` in each crate afterwards. A second run changes nothing.
"""

import collections
import os
import re
import sys

# Names that would fall together with another one in some file: module:old -> new. The rest goes by rule.
# A lemma that would have its function's name ends in _lem, as in Rattle's library; an argument that would hide a definition has another.
TABLE = {
    "carrying.proofs.Ordering:same_rank": "same_rank_lem",
    "deciding.proofs.Tables:with-vlan": "with_vlan_lem",
    "encoded.proofs.Flows:flow-del": "flow_del_lem",
    "encoded.proofs.Flows:flow-value": "flow_value_lem",
    "encoded.proofs.Flows:pair-alone": "pair_alone_lem",
    "encoded.proofs.Groups:group-del": "group_del_lem",
    "encoded.proofs.Groups:group-in": "group_in_lem",
    "encoded.proofs.Groups:group-key-in": "group_key_in_lem",
    "encoded.proofs.Groups:lower-fits": "lower_fits_lem",
    "encoded.proofs.Groups:number-bytes": "number_bytes_lem",
    "encoded.proofs.Members:member-width": "member_width_lem",
    "encoded.proofs.Region:fields-right": "fields_right_lem",
    "encoding.proofs.FieldLists:group-fields": "group_fields_lem",
    "engines.proofs.Follows:same_rank": "same_rank_lem",
    "engines.proofs.Sorted:is-before": "is_before_lem",
    "engines.proofs.Sorted:own-slot": "own_slot_lem",
    "engines.proofs.Step:command-status": "command_status_lem",
    "engines.proofs.Step:decoded-status": "decoded_status_lem",
    "history.proofs.Slots:next-slot": "next_slot_lem",
    "input.proofs.Draining:is-stopped": "stops",
    "input.proofs.Turning:is-stopped": "stops",
    "registers.proofs.Outcomes:in-ring": "in_ring_lem",
    "replaying.proofs.Reading:header_read": "header_read_lem",
    "replaying.proofs.Replaying:ends-in": "ends_in_lem",
    "rules.proofs.Keyed:insert-at": "insert_at_lem",
    "rules.proofs.Region:is-tlv": "is_tlv_lem",
    "runs.proofs.Runs:fresh-switch": "fresh_switch_lem",
    "undone.proofs.Alike:same-group": "same_group_lem",
    "undone.proofs.Alike:same-list": "same_list_lem",
    "undone.proofs.Alike:same_bit": "same_bit_lem",
    "undone.proofs.Alike:same_flow": "same_flow_lem",
    "undone.proofs.Prefix:header_read": "header_read_lem",
    "undone.proofs.Prefix:record-size": "record_size_lem",
}

WORD = r'[^\s(){}.;,@"«»]+'
TOKEN = re.compile(r'--[^\n]*|\{-.*?-\}|"(?:[^"\\\n]|\\.)*"|«[^»\n]*»|' + WORD + r'|\s+|.', re.S)
RTOKEN = re.compile(r"""//[^\n]*|/\*.*?\*/|[bc]?r(#*)".*?"\1|[bc]?"(?:\\.|[^"\\])*"|b?'(?:\\u\{[0-9a-fA-F_]+\}|\\x..|\\.|[^'\\\n])'|'?\w+|\s+|.""", re.S)
MARKS = r"(?:(?:pattern|unfoldable|abbrev|axiom|pub) )*"
SIGN = re.compile(rf"^( *)({MARKS})((?:{WORD} )+?)(?:\{{[^{{}}]*\}} )?:(?= |$)(.*)$")
HEAD = re.compile(rf"^( *){MARKS}(data|record) ({WORD})")
CLAUSE = re.compile(r"(?<![\w.])(?:requires|ensures|invariant|decreases|variant|also_owns|also_shares|ghost)\b[ *]*(?:\w+[ *]*)?(?::\s*(?:(?:owns|lends)\s*)?|=\s*)?\{")
MADE = re.compile(r"(returns|loop|invariant|invariant_of|decreases|measure|overflow|index|cast|add|sub|mul|div|rem|shl|shr|neg|step|close|pass|the|goal)-")
RESERVED = set("data record deriving module where use mod pub package open as unfoldable abbrev axiom unfold unfolding ruleset mutual infix infixl infixr elim let in do λ ∀ Type coe fcoe tcoe hcom com result syntax pattern".split())


def snake(name):
    """`memoryAfter`, `bytes-of`, `be16At` in snake case; `Fed-to` in upper camel case is the caller's (a type)."""
    name = re.sub(r"(?<=[a-z0-9'])([A-Z])", lambda m: "_" + m[1].lower(), name)
    return name.replace("-", "_")


def camel(name):
    return "".join(w[:1].upper() + w[1:] for w in name.split("-"))


def turns(name):
    """Whether a name is one that the rule spells anew: lower case first, with a hump or a dash between letters or digits."""
    if "·" in name or "#" in name or "◌" in name or not re.match(r"[a-z]", name):
        return False
    return bool(re.search(r"[a-z0-9'][A-Z]", name)) or bool(re.search(r"[\w'₀-₉]-[\w]", name))


class Antt:
    def __init__(self, top, path):
        self.path, self.full = path, os.path.join(top, path)
        with open(self.full, encoding="utf-8") as f:
            self.text = f.read()
        p = path.split(os.sep)
        self.crate, self.place = p[1], p[2]
        self.module = ".".join(["Rattle", p[1], p[2], *p[3:-1], p[-1][:-5]])
        self.walk = self.place == "proofs" and p[-1] in ("Proof.antt", "Answers.antt", "Invariants.antt")
        self.made_names = p[-1] in ("Answers.antt", "Invariants.antt")
        self.tokens = TOKEN.findall(self.text)
        self.declared, self.fields, self.types, self.answers = set(), set(), set(), set()
        self.read()

    def read(self):
        where = None
        for line in self.text.split("\n"):
            h = HEAD.match(line)
            if h:
                self.types.add(h[3])
                where = (len(h[1]), h[2])
                continue
            m = SIGN.match(line)
            if line.strip() and where and len(line) - len(line.lstrip()) <= where[0]:
                where = None
            if not m or line.lstrip().startswith("--"):
                continue
            names = m[3].split()
            if names[0] in RESERVED or "=" in names:
                continue
            if self.walk and re.match(r" (?:tie|goal|Goals?)\.", m[4]):
                self.answers.update(names)
            elif self.made_names and not m[1] and MADE.match(names[0]):
                self.answers.update(names)
            elif where and where[1] == "record":
                self.fields.update(names)
            elif not where:
                self.declared.update(names)


def braces(text, at):
    """The index behind the brace that closes the one at text[at], past strings and comments."""
    depth = 0
    for m in RTOKEN.finditer(text, at):
        if m[0] == "{":
            depth += 1
        elif m[0] == "}":
            depth -= 1
            if not depth:
                return m.end()
    return len(text)


USE = re.compile(rf"(?<![^\s(){{}};,])(?:use|open) ((?:{WORD}\.)*{WORD})(?:\.\{{([^{{}}]*(?:\{{[^{{}}]*\}}[^{{}}]*)*)\}})?(?: as ({WORD}))?")


class Repo:
    def __init__(self, top):
        self.top = top
        self.antts, self.rts = [], []
        for folder, dirs, files in os.walk(os.path.join(top, "crates")):
            dirs[:] = sorted(d for d in dirs if d not in ("out", "must-fail", "data") and not os.path.islink(os.path.join(folder, d)))
            for f in sorted(files):
                path = os.path.relpath(os.path.join(folder, f), top)
                part = path.split(os.sep)[2] if path.count(os.sep) > 2 else ""
                if f.endswith(".antt") and part in ("specs", "proofs"):
                    self.antts.append(Antt(top, path))
                elif f.endswith(".rt") and part == "src":
                    self.rts.append(path)
        self.modules = {a.module: a for a in self.antts}
        self.names, self.fields, self.types = set(), set(), set()
        for a in self.antts:
            self.names |= a.declared
            self.fields |= a.fields
            self.types |= a.types
        self.notes = []
        self.clash = []
        self.typenames = {t: camel(t) for t in self.types if "-" in t}
        self.before = set()

    def new(self, name, special=None):
        if special and name in special:
            return special[name]
        if name in self.typenames:
            return self.typenames[name]
        return snake(name) if turns(name) else name

    def ours(self, module):
        """The file of this repository that a path names, itself or by a module declared in it (`Rattle.c.specs.M`, `..M.inner`), or None."""
        while module.count(".") >= 3:
            if module in self.modules:
                return module
            module = module.rsplit(".", 1)[0]
        return None

    def special(self, own, module=""):
        """What the table says of the names of a file: those that it declares, and those that it imports from a file of the table."""
        got = {}
        for key, to in TABLE.items():
            where, old = key.split(":")
            if "-" not in old and old not in getattr(self.modules.get("Rattle." + where), "declared", ()):
                continue  # turned already
            if module == "Rattle." + where or own.get(old) == "Rattle." + where:
                got[old] = to
        return got

    def imports(self, text):
        """Names that a text imports: (from files of the repository, from elsewhere, aliases of modules)."""
        own, other, alias = {}, set(), set()
        for m in USE.finditer(text):
            path, items, name = m[1], m[2], m[3]
            if not re.match(r"[A-Za-z]", path):
                continue
            if name:
                alias.add(name)
            if items is None:
                continue
            flat = re.sub(rf"({WORD})\.\{{([^{{}}]*)\}}", r"\2", items)
            for it in flat.split(","):
                w = it.split()
                if not w:
                    continue
                if self.ours(path):
                    own[w[0]] = self.ours(path)
                else:
                    other.add(w[0])
                if len(w) == 3 and w[1] == "as":
                    alias.add(w[2])
        return own, other, alias


def spell_antt(repo, a, dots=False):
    own, other, alias = repo.imports(a.text)
    keep = (other - a.declared) | a.answers
    out, seen, renamed, every = [], collections.Counter(), {}, {}
    toks = a.tokens
    local = a.declared | a.fields | set(own) | alias
    special = repo.special(own, a.module)
    if dots and "·" in a.text:
        undot(repo, a.path, "\n".join(m[0] for m in USE.finditer(a.text)), own, other, special, {repo.new(x) for x in a.tokens})
    chain = []     # heads of the dotted name that we stand in
    unknown = set()
    for i, t in enumerate(toks):
        if t.isspace() or t[:2] == "--" or t[:2] == "{-" or t[:1] in '"«' or len(t) == 1 and t in "(){}.;,@":
            if t != ".":
                chain = [] if t not in (")",) else [")"]
            out.append(t)
            if t[:2] == "--":
                out[-1] = comment(repo, t, a.path, local, keep, special)
            continue
        dotted = i > 0 and toks[i - 1] == "." and i > 1 and not toks[i - 2].isspace() and toks[i - 2] not in "({;,"
        if not dotted:
            chain = []
        head = chain[0] if chain else None
        chain.append(t)
        word = repo.new(t, special)
        if word == t:
            out.append(t)
            seen[t] += 0 if dotted or label(toks, i) else 1
            continue
        if dotted:
            if head in ("tie", "goal", "Goals", "Goal") or a.walk and head is not None and re.fullmatch(r"c[0-9']*", head) and len(chain) == 2:
                word = t
            elif head == "Rattle":
                path = ".".join(chain[:-1])
                if not repo.ours(path):
                    word = t
            elif head and head[:1].isupper() and len(chain) == 2 and t in repo.names:
                pass
            elif t not in repo.fields or a.walk and toks[i + 1 : i + 2] == ["."]:
                word = t  # a step of a walk
                if t in repo.names:
                    repo.notes.append(f"left behind a dot, as a step: {a.path}: {'.'.join(chain)}")
        elif t in keep:
            word = t
        elif t not in repo.names and t not in repo.fields and t not in local and t not in repo.typenames:
            # bound in this file: a pattern, a λ, a let, a binder
            if t in use_items(a):
                word = t
            else:
                unknown.add(t)
        if word != t:
            every[t] = word
            if not dotted and not label(toks, i) and t not in a.fields - a.declared:
                renamed.setdefault(t, word)
        elif not dotted:
            seen[t] += 1
        out.append(word)
    text = tidy_items("".join(out))
    by = collections.defaultdict(set)
    for old, new in renamed.items():
        if "·" in old:
            continue  # undot has looked
        by[new].add(old)
        if seen[new]:
            by[new].add(new)
        if new in RESERVED:
            repo.clash.append((a.path, new, {old}, "reserved"))
    for new, olds in by.items():
        if len(olds) > 1:
            repo.clash.append((a.path, new, olds, kinds(repo, a, olds, own, other)))
    return text, every, unknown


ITEM = re.compile(rf"(?<![^\s{{,])({WORD}) as ({WORD})(?=[,}}])")


def tidy_items(text):
    """An item `a as a` is `a`."""
    return re.sub(rf"(?<![^\s{{,])({WORD}) as \1(?=[,}}])", r"\1", text)


def undot(repo, path, uses, own, other, special, hides):
    """Aliases with a middle dot get the rule's own name, or that with its module's before it where something in the file has the name."""
    items = [(m[1], m[2]) for m in ITEM.finditer(uses) if "·" in m[2] and m[2][:1] != "#"]
    aliased = {m[1] for m in ITEM.finditer(uses)}
    plain = collections.Counter(repo.new(n, special) for n in own if n not in aliased)
    plain.update(other - aliased)
    for name, alias in items:
        plain[repo.new(name, special)] += 1
    for name, alias in items:
        to = repo.new(name, special)
        if to in hides or plain[to] > 1:
            first, last = alias.rsplit("·", 1)
            to = snake(first[:1].lower() + first[1:]).replace("·", "_").lower() + "_" + repo.new(last)
            if to in hides or to in plain:
                repo.notes.append(f"left: {path}: {alias}")
                continue
        special[alias] = to


def label(toks, i):
    """Whether the token at i is a field's name in a record literal, which hides nothing."""
    after = next((x for x in toks[i + 1 : i + 3] if not x.isspace()), "")
    before = next((x for x in reversed(toks[max(0, i - 4) : i]) if not x.isspace() and x[:2] != "--"), "")
    return after == "=" and before in ("{", ";")


def kinds(repo, a, olds, own, other):
    said = []
    for o in sorted(olds):
        k = "declared here" if o in a.declared else "field here" if o in a.fields else "imported" if o in own else "the library's" if o in other else "argument or local"
        said.append(f"{o}: {k}")
    return ", ".join(said)


def use_items(a):
    if not hasattr(a, "_items"):
        a._items = set()
        for m in USE.finditer(a.text):
            if m[2]:
                a._items.update(re.findall(WORD, m[2]))
    return a._items


PROSE = re.compile(r"[\w'-]+")


def comment(repo, text, path, local, keep, special):
    """A comment: in code spans every name; outside them names with a hump, and names with a dash that the file itself declares or imports."""
    parts = re.split(r"(`[^`\n]*`)", text)
    for i, p in enumerate(parts):
        span = p[:1] == "`"

        def one(m):
            w = m[0]
            bare = w.strip("'-") if not span else w
            if bare in keep or repo.new(bare, special) == bare:
                return w
            known = bare in repo.names or bare in repo.fields or bare in repo.typenames
            if not known:
                return w
            if span or "-" not in bare and bare not in special:
                return w.replace(bare, repo.new(bare, special))
            if bare in local:
                repo.notes.append(f"a comment's bare word stays: {path}: {bare}")
            return w

        parts[i] = PROSE.sub(one, p)
    return "".join(parts)


def spell_rt(repo, path, dots):
    with open(os.path.join(repo.top, path), encoding="utf-8") as f:
        text = f.read()
    ghost = [m.span() for m in re.finditer(r"(?m)^[ \t]*ghost use\b[^;]*;", text)]
    uses = "\n".join(text[s:e].rstrip(";") for s, e in ghost)
    own, other, alias = repo.imports(uses)
    local = set(own) | alias
    special = repo.special(own)
    # regions: where antt stands
    regions = list(ghost)
    quiet = [m.span() for m in RTOKEN.finditer(text) if m[0][:2] in ("//", "/*") or m[0][-1:] == '"' and len(m[0]) > 1]
    qi = 0
    for m in CLAUSE.finditer(text):
        if any(s <= m.start() < e for s, e in quiet):
            continue
        regions.append((m.end() - 1, braces(text, m.end() - 1)))
    for m in re.finditer(r"#!?\[tactic\([^\]]*\]", text):
        regions.append(m.span())
    regions.sort()
    merged = []
    for s, e in regions:
        if merged and s < merged[-1][1]:
            merged[-1] = (merged[-1][0], max(e, merged[-1][1]))
        else:
            merged.append((s, e))
    renamed, seen, unknown = {}, collections.Counter(), set()

    def region(t):
        out, toks, chain = [], re.findall(r'//[^\n]*|"(?:[^"\\\n]|\\.)*"|' + WORD + r"|\s+|.", t, re.S), []
        for i, w in enumerate(toks):
            if w[:2] == "//":
                out.append(comment(repo, w, path, local, other, special))
                continue
            if w.isspace() or w[:1] == '"' or len(w) == 1 and w in "(){}.;,@«»":
                out.append(w)
                if w != ".":
                    chain = []
                continue
            dotted = i > 1 and toks[i - 1] == "." and not toks[i - 2].isspace()
            if not dotted:
                chain = []
            chain.append(w)
            new = repo.new(w, special)
            if dotted:
                if chain[0] == "Rattle":
                    if not repo.ours(".".join(chain[:-1])):
                        new = w
                elif w not in repo.fields and not (chain[0][:1].isupper() and w in repo.names):
                    new = w
            elif new != w and (w in other or w not in local and w not in repo.names and w not in repo.fields):
                if w not in other:
                    unknown.add(w)
                new = w
            if new != w and not dotted:
                renamed.setdefault(w, new)
            elif not dotted:
                seen[w] += 1
            out.append(new)
        return "".join(out)

    # what hides a rule in a clause: this file's parameters and locals. A function, a field or a type of that name is no harm
    plain = set()
    for m in re.finditer(r"(?:\blet (?:mut )?|[(,|&] *(?:mut )?|\bfor )(\w+)(?=\s*(?::[^:]|=[^=]| in\b|[,|)]))", text):
        plain.add(m[1])
    if dots:
        undot(repo, path, uses, own, other, special, plain)
    out, at = [], 0
    for s, e in merged + [(len(text), len(text))]:
        for m in RTOKEN.finditer(text[at:s]):
            out.append(comment(repo, m[0], path, local, other, special) if m[0][:2] == "//" else m[0])
        if s < e:
            out.append(region(text[s:e]))
        at = e
    new = tidy_items("".join(out))
    by = collections.defaultdict(set)
    for old, n in renamed.items():
        if "·" in old:
            continue  # undot has looked
        by[n].add(old)
        if n in plain:
            by[n].add(n + " (argument or local)")
        if seen[n] and n not in plain:
            by[n].add(n)
    for n, olds in by.items():
        if len(olds) > 1:
            repo.clash.append((path, n, olds, ", ".join(sorted(olds))))
    return text, new, renamed, unknown


PAGES = (".md", ".rs", ".py", ".c", ".cpp", ".h", ".txt", ".toml", ".sh", "")


def pages(repo, turn):
    """README, docs/, tests/ and the like: a name in a code span turns (`turn`) or is printed; a name with a hump outside one is printed."""
    table = collections.defaultdict(set)
    for key, to in TABLE.items():
        table[key.split(":")[1]].add(to)

    def new(w):
        if w not in repo.before:
            return w
        if "-" in w and len(table.get(w, ())) == 1:
            return next(iter(table[w]))
        return repo.new(w)

    write, found, bare = [], 0, 0
    for folder, dirs, files in os.walk(repo.top):
        dirs[:] = sorted(d for d in dirs if d not in ("out", ".git", "crates", "target", "tools", "node_modules") and not os.path.islink(os.path.join(folder, d)))
        for f in sorted(files):
            full = os.path.join(folder, f)
            if os.path.splitext(f)[1] not in PAGES or os.path.islink(full) or os.path.getsize(full) > 400_000:
                continue
            try:
                with open(full, encoding="utf-8") as it:
                    text = it.read()
            except UnicodeDecodeError:
                continue
            out = []
            for n, line in enumerate(text.split("\n"), 1):
                parts = re.split(r"(`[^`\n]*`)", line)
                for i, p in enumerate(parts):
                    if p[:1] == "`":
                        parts[i] = PROSE.sub(lambda m: new(m[0]), p)
                        if parts[i] != p:
                            found += 1
                            if not turn:
                                print(f"page: {os.path.relpath(full, repo.top)}:{n}: {p} -> {parts[i]}")
                    else:
                        for m in PROSE.finditer(p):
                            if turns(m[0]) and "-" not in m[0] and new(m[0]) != m[0]:
                                bare += 1
                                print(f"page, outside a code span: {os.path.relpath(full, repo.top)}:{n}: {m[0]} -> {new(m[0])}")
                out.append("".join(parts))
            if turn and "\n".join(out) != text:
                write.append((full, "\n".join(out)))
    print(f"respell: pages: {found} code spans {'turned' if turn else 'to turn (--docs)'}, {bare} words outside code spans left")
    return write


def main(argv):
    flags = {a for a in argv if a.startswith("--")}
    rest = [a for a in argv if not a.startswith("--")]
    if flags - {"--check", "--dots", "--docs", "--names"}:
        print(__doc__)
        return 2
    top = rest[0] if rest else "."
    repo = Repo(top)
    if "--names" in flags:
        for n in sorted(repo.names | repo.fields | set(repo.typenames)):
            if repo.new(n) != n:
                print(f"{n}\t{repo.new(n)}")
        return 0
    write = []
    count = collections.Counter()
    every = {}
    for a in repo.antts:
        text, renamed, unknown = spell_antt(repo, a, "--dots" in flags)
        every.update(renamed)
        for u in unknown:
            count["bound here alone"] += 1
            if os.environ.get("RESPELL_LOCALS"):
                print("local:", a.path, u)
        if text != a.text:
            write.append((a.full, text))
            count[".antt files"] += 1
    for p in repo.rts:
        old, new, renamed, unknown = spell_rt(repo, p, "--dots" in flags)
        every.update(renamed)
        for u in sorted(unknown):
            repo.notes.append(f"left: {p}: {u} is neither imported nor declared")
        if old != new:
            write.append((os.path.join(top, p), new))
            count[".rt files"] += 1
    for path, new, olds, why in sorted(repo.clash, key=lambda c: (c[1], c[0])):
        print(f"falls together: {new}: {why}: {path}")
    for n in sorted(set(repo.notes)):
        print(n)
    repo.before = set(every) | {n for n in repo.names | repo.fields if repo.new(n) != n}
    write += pages(repo, "--docs" in flags)
    print(f"respell: {len(every)} names; {count['.antt files']} .antt files, {count['.rt files']} .rt files; {len(repo.clash)} fall together")
    if "--check" in flags:
        return 1 if write or repo.clash else 0
    for path, text in write:
        with open(path, "w", encoding="utf-8") as f:
            f.write(text)
    return 0


if __name__ == "__main__":
    raise SystemExit(main(sys.argv[1:]))
