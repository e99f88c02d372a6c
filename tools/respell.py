#!/usr/bin/env python3
"""Brings the names that the specs and the proofs declare to today's spelling (primer-language.md of antt, 4.1b).

Run it with no arguments at the repository's top. It goes by spelling over whole words: crates/**/*.antt, the clauses, `ghost use` items and
code spans of crates/**/*.rt, and crates/**/must-fail/*.edit. A second run changes nothing. What it renames it writes to docs/RENAMED.tsv,
with a third column where a name is of that file alone.
With --look it writes nothing and shows the table, and the new names that meet another name.
"""

import collections
import glob
import os
import re
import sys

SIGNS = r'\s(){}.;,@"«»'
WORD = re.compile(rf"[^{SIGNS}]+")
QUIET = re.compile(rf'"(?:[^"\\\n]|\\.)*"|(?<![^{SIGNS}])--[^\n]*|\{{-.*?-\}}', re.S)
SPAN = re.compile(r"`[^`\n]*`")
BLOCK = re.compile(r"(?<![^\s(){};,])(?:where|do|let|mutual) +(?=\S)")
RUST = re.compile(
    r"""//[^\n]*|/\*.*?\*/|[bc]?r(#*)".*?"\1|[bc]?"(?:\\.|[^"\\])*"|b?'(?:\\u\{[0-9a-fA-F_]+\}|\\x..|\\.|[^'\\])'|'?\w+|\s+|.""",
    re.S,
)
CLAUSE = re.compile(
    r"(?:requires|ensures|invariant|decreases|assert)\s*\*?\s*(?:\w+\s*)?\{|ghost\s*(?:\w+\s*(?::\s*(?:(?:owns|lends)\s*)?|=\s*))?\{"
)
GHOST_USE = re.compile(r"ghost\s+use\b[^;]*;")
MARKS = {"abbrev", "pub", "unfoldable", "pattern", "axiom"}
DECLARED = re.compile(
    rf"^( *)((?:(?:abbrev|pub|unfoldable|pattern|axiom) )*)((?:[^{SIGNS}:=]+ )+)(?:\{{[^}}\n]*\}} )?:(?= |$)(.*)"
)
TYPE = re.compile(rf"^ *(?:pub )?(?:record|data) ([^{SIGNS}]+)")
HEADS = {"record", "data", "module", "mod", "let", "in", "use", "unfolding", "ruleset", "where", "open", "import"}

# Bound by a pattern alone, of which the reader of declarations sees nothing
BOUND = ("sourceTrackers", "endTrackers", "endAdds", "second-read", "false-one", "none-there", "not-applying", "solving-x", "no-e", "no-n", "of-b",
         "of-domain", "of-problem", "no-goal", "next-at", "i-fits", "d-enough", "p-enough", "in-first", "in-second")


def into_type(signature):
    """Whether a signature that is written on one line ends in Type."""
    end = signature.rsplit("→", 1)[-1].strip()
    return bool(re.match(r"Type(?: |$)", end)) and end.count("(") == end.count(")") and signature.count("(") == signature.count(")")


# Words that name a function, a type or an operator of std, the logic or mathlib, besides those that a file imports
KNOWN = set(
    "length take drop append set map get get_or add mul sub div mod le lt eq ne ge gt zero suc nil cons mem subset sublist perm "
    "not and or true false all any filter concat concat_map zip sum fold head tail last reverse replicate some none ok err".split()
)
# Words that are names in some file but that are read as plain English in a lemma's name
PLAIN = set(
    "is in on at of to by as so no none left right first second rest before after until below above from with within over out up "
    "here there then now own next last one two few more most least kept found read done ended end start back again also only "
    "other others twice once same side sides goes go held far true_step paid open closed lost met broken age time start text "
    "line lines plan word words kind action actions some numbered ok "
    "are be has full are both each for when where while if".split()
)

# A new name that would meet another name gets another spelling
EXCEPTIONS = {
    # of losses/specs/Following.antt: by_source, by_end and by_closing are constructors of losses/proofs/Moves.antt
    "bySource": "led_by_source",
    "byEnd": "led_by_end",
    "byClosing": "led_by_closing",
    # nodes/proofs/fill/Proof.antt has the contract of the Rattle function node_of under its name
    "nodeOf": "node_read",
}


def whole(path):
    with open(path, encoding="utf-8", newline="") as f:
        return f.read()


def blank(text):
    return QUIET.sub(lambda m: re.sub(r"[^\n]", " ", m[0]), text)


def snake(part):
    if re.fullmatch(r"[A-Z][A-Z0-9_]+", part):
        return part
    part = re.sub(r"(?<=[a-z0-9'])(?=[A-Zφψ])", "_", part)
    return re.sub(r"[A-Z]", lambda m: m[0].lower(), part)


def uncap(word):
    return word[:1].lower() + word[1:]


class Names:
    """What the files declare and import."""

    def __init__(self, files, texts, crates):
        self.kinds = collections.defaultdict(set)  # name: the kinds of its declarations
        self.foreign = set()
        self.types = set()
        self.kept = collections.defaultdict(set)  # file: the names of goals that it gives to tie.spec
        self.local = collections.defaultdict(set)  # Proof.antt: names of its own
        self.signed = collections.defaultdict(set)  # a lemma: the words of its signature
        self.spec = {}  # Proof.antt: its last definition
        for f in files:
            self.read(f, blank(texts[f]), crates)
        there = {w for f in files for w in WORD.findall(blank(texts[f]))}
        for w in BOUND:
            if w in there and self.bound_in(w, files, texts):
                self.kinds[w].add("local")

    def bound_in(self, word, files, texts):
        """Whether the word stands somewhere without a dot before it."""
        at = re.compile(rf"(?<![^{SIGNS}])(?<!\.){re.escape(word)}(?![^{SIGNS}])")
        return any(at.search(blank(texts[f])) for f in files if word in texts[f])

    def aliases(self, items):
        for m in re.finditer(rf"(?:[^{SIGNS}]+) as ([^{SIGNS}]+)", items):
            if not m[1].startswith("#"):
                self.kinds[m[1]].add("local")

    def read(self, f, code, crates):
        proof = f.endswith("/Proof.antt")
        specs = "/specs/" in f
        block, last, depth = None, [], 0
        for line in code.split("\n"):
            m = re.match(r"(?:pub )?use (\S+?)\.\{(.*)\}", line)
            if m:
                p = m[1].split(".")
                if not (p[0] == "Rattle" and p[1] in crates and p[2] in ("specs", "proofs")):
                    self.foreign |= {item.split()[0] for item in m[2].split(",") if item.strip()}
                self.aliases(m[2])
                continue
            t = TYPE.match(line)
            if t:
                block = "record" if "record " in line[: t.start(1)] else "data"
                self.types.add(t[1])
                self.kinds[t[1]].add("type")
                continue
            if line.strip() and line[0] != " ":
                block = None
            m = DECLARED.match(line)
            if not m and last and line.strip():
                if len(line) - len(line.lstrip()) > depth and re.match(r" *→", line):
                    for w in last:
                        self.signed[w] |= set(WORD.findall(line))
                else:
                    last = []
            if m:
                words = m[3].split()
                last = words
                depth = len(m[1])
                for w in words:
                    self.signed[w] |= set(WORD.findall(m[4]))
                if words[0] in HEADS or words[0] == "λ":
                    words = []
                top = not m[1] or (block is None and (len(m[1]) == 2 or "pub" in m[2]))
                for w in words:
                    if block:
                        kind = "field" if block == "record" else "constructor"
                    elif top and into_type(m[4]):
                        kind = "type"
                        self.types.add(w)
                    elif top and specs:
                        kind = "function"
                    elif top:
                        kind = "lemma" if "abbrev" not in m[2] and "unfoldable" not in m[2] else "definition"
                    else:
                        kind = "local"
                    if proof and top:
                        if re.match(r" *(?:tie|goal)\.", m[4]):
                            self.kept[f].add(w)
                        elif re.search(r"\bstatement\b", m[4]) and re.search("[-_]spec$", w):
                            self.spec[f] = w
                        else:
                            self.local[f].add(w)
                    else:
                        self.kinds[w].add(kind)
            # names that are bound inside
            for m in re.finditer(rf"(?:[({{]|\blet )((?:[^{SIGNS}:=]+ )+):(?= )", line):
                for w in m[1].split():
                    self.kinds[w].add("local")
            for m in re.finditer(rf"\blet ([^{SIGNS}:=]+) =", line):
                self.kinds[m[1]].add("local")
            for m in re.finditer(rf"λ ((?:[^{SIGNS}:=]+ ?)+)\.", line):
                for w in m[1].split():
                    self.kinds[w].add("local")
        if proof:
            at = code.find("tie.spec")
            if at >= 0:
                self.kept[f] |= set(WORD.findall(code[at:]))
            self.kept[f] -= {self.spec.get(f)}
            self.local[f] -= self.kept[f]


class Speller:
    def __init__(self, names):
        self.names = names
        flat = {"function", "field", "constructor", "type", "definition"}
        self.known = set(KNOWN)
        for w, kinds in names.kinds.items():
            if kinds & (flat - {"definition"}) and (kinds & {"type"} or len(w) > 1):
                self.known.add(self.flat(w))
        self.known |= {w for w in names.foreign if "-" not in w and len(w) > 1}
        self.known -= PLAIN
        self.fields = {w for w, k in names.kinds.items() if "field" in k}

    def word(self, part):
        return part if part in self.names.types else snake(part)

    def flat(self, name):
        if name in self.names.types:
            return name
        return "_".join(snake(p) for p in name.split("-")) if "-" in name.strip("-") else snake(name)

    def lemma(self, name):
        parts = [self.word(p) for p in name.split("-")]
        if not all(parts):
            return name
        used = KNOWN | ({self.flat(w) for w in self.names.signed[name]} & self.known)
        out = parts[0]
        for i in range(1, len(parts)):
            before = re.split("[-_]", out)
            behind = "_".join(parts[i:]).split("_")
            left = any("_".join(before[k:]) in used for k in range(len(before)))
            right = any("_".join(behind[: k + 1]) in used for k in range(len(behind)))
            out += ("-" if left and right else "_") + parts[i]
        return out

    def new(self, name, kinds):
        if name in EXCEPTIONS:
            return EXCEPTIONS[name]
        if name in self.names.types:
            if "-" in name and name[0].isupper() or name == "stepsRead":
                return "".join(p[:1].upper() + p[1:] for p in name.split("-"))
            return name
        if re.fullmatch(r"[A-Z][A-Z0-9]*(?:[-_][A-Z0-9]+)+", name):
            return name.replace("-", "_")
        if re.match(r"[A-Z][a-z]", name) and name.split("-")[0] in self.names.types and "-" in name:
            head, rest = name.split("-", 1)
            return head + "-" + self.lemma(rest)
        if not re.match(r"[A-Za-zφψ]", name) or not re.search("[A-Zφψ-]", name):
            return name
        if len(name) == 1 or re.fullmatch(r"[A-Zφψ][0-9₀-₉'a-z]?[0-9₀-₉']*", name) or re.fullmatch("[A-Z]+'*", name):
            return name
        if re.match(r"[A-Z][a-z]+[A-Z]?", name) and "-" not in name:
            return name
        if "lemma" in kinds and not kinds & {"function", "field", "constructor", "definition"}:
            return self.lemma(name)
        return self.flat(name)

    def table(self, words):
        """Old to new. 'words' has each file's words, of which two may not get one spelling."""
        kinds = self.names.kinds
        table = self.simple()
        sharp = {"function", "type", "definition"}
        back = collections.defaultdict(set)
        for a, b in table.items():
            back[b].add(a)
        for b, olds in sorted(back.items()):
            heads = {a for a in olds if kinds[a] & sharp}
            everyone = olds | ({b} if b in kinds and b not in table else set())
            if not heads and b in kinds and kinds[b] & sharp:
                heads = {b}
            for a in sorted(everyone - heads if heads else ()):
                together = any(a in ws and ws & heads for ws in words)
                if kinds[a] <= {"lemma", "local"} and (together or "lemma" in kinds[a] and a != b):
                    table[a] = b + "_lem"
        return table

    def simple(self):
        return {w: n for w, k in self.names.kinds.items() if w not in self.names.foreign for n in [self.new(w, k)] if n != w}


def head_of(text, at):
    """The beginning of the dotted name in which the word at 'at' stands, or '' if no name stands there."""
    start = at
    while start and re.match(rf"[^{SIGNS}]|\.", text[start - 1]):
        start -= 1
    return text[start:at]


def turned(text, table, kept, fields):
    def one(m):
        new = table.get(m[0])
        if new is None:
            return m[0]
        if text[m.start() - 1 : m.start()] == "." and text[m.start() - 2 : m.start()] != "..":
            head = head_of(text, m.start())
            if re.match(r"(?:tie|goal|Rattle)\.", head):
                return m[0]
            if not re.match(r"[A-Z][A-Za-z]", head) and m[0] not in fields:
                return m[0]
            return new
        return m[0] if m[0] in kept else new

    return WORD.sub(one, text)


def between(pattern, text, inside, outside):
    out, at = [], 0
    for m in pattern.finditer(text):
        out += [outside(text[at : m.start()]), inside(m)]
        at = m.end()
    return "".join([*out, outside(text[at:])])


def comment(text, table):
    """Code spans turn whole; outside of them a word with a capital inside."""
    word = re.compile(r"[^\s(){}.;,@\"«»`:/]+")
    bare = lambda t: word.sub(lambda m: table.get(m[0], m[0]) if re.search("[a-z][A-Z]", m[0]) or re.fullmatch("[A-Z]+(-[A-Z]+)+", m[0]) else m[0], t)
    span = lambda m: word.sub(lambda n: table.get(n[0], n[0]), m[0])
    return between(SPAN, text, span, bare)


def antt(text, table, kept, fields):
    quiet = lambda m: m[0] if m[0][0] == '"' else comment(m[0], table)
    new = between(QUIET, text, quiet, lambda t: turned(t, table, kept, fields))
    return realigned(text, new)


def realigned(old, new):
    """The new text, in which the later lines of a block stand under its first item again."""
    was, now, lines = blank(old).split("\n"), blank(new).split("\n"), new.split("\n")
    by = [0] * len(lines)
    for row, (a, b) in enumerate(zip(was, now)):
        for x, y in zip(BLOCK.finditer(a), BLOCK.finditer(b)) if a != b else ():
            below = row + 1
            while x.end() != y.end() and below < len(was):
                if was[below].strip() and was[below][: x.end()].strip():
                    break
                by[below] += (y.end() - x.end()) * bool(was[below].strip())
                below += 1
    return "\n".join(" " * n + line if n >= 0 else line[-n:] for n, line in zip(by, lines))


def closing(text, at):
    depth = 0
    for m in re.compile(QUIET.pattern + r"|[{}]", re.S).finditer(text, at):
        depth += (m[0] == "{") - (m[0] == "}")
        if depth < 0:
            return m.start()
    return None


def rt_parts(text):
    parts, at = [], 0
    while at < len(text):
        m = RUST.match(text, at)
        word, end = m[0], m.end()
        clause = CLAUSE.match(text, at) if word in ("requires", "ensures", "invariant", "decreases", "assert", "ghost") else None
        use = GHOST_USE.match(text, at) if word == "ghost" else None
        if clause and closing(text, clause.end()):
            end = closing(text, clause.end())
            parts += [("rust", clause[0]), ("antt", text[clause.end() : end])]
        elif use:
            end = use.end()
            parts.append(("antt", use[0]))
        else:
            parts.append(("comment" if word[:2] in ("//", "/*") else "rust", word))
        at = end
    return parts


def rt(text, table, fields):
    how = {
        "antt": lambda t: antt(t, table, (), fields),
        "comment": lambda t: comment(t, table),
        "rust": lambda t: t,
    }
    return "".join(how[k](t) for k, t in rt_parts(text))


def edit(text, table_of, fields):
    out, table, kept = [], table_of(""), ()
    for line in text.split("\n"):
        if line.startswith("file:"):
            table, kept = table_of(line[5:].strip())
            out.append(line)
        elif line.startswith("#"):
            out.append(comment(line, table_of("")[0]))
        elif line.startswith(("old:", "new:", " ")):
            code = line.split("//")[0] if "//" in line else line
            quoted = re.compile(r'"(?:[^"\\\n]|\\.)*"')
            new = between(quoted, code, lambda m: m[0], lambda t: turned(t, table, kept, fields))
            out.append(new + comment(line[len(code) :], table))
        else:
            out.append(line)
    return "\n".join(out)


def main(args):
    look = "--look" in args
    crates = {line.split(":")[0] for line in whole("crates.txt").split("\n") if line.strip() and line[0] != "#"}
    found = lambda pattern: sorted(f for f in glob.glob("crates/" + pattern, recursive=True) if not re.match(r"crates/\w+/(?:out|target)/", f))
    files = found("*/specs/**/*.antt") + found("*/proofs/**/*.antt")
    texts = {f: whole(f) for f in files + found("*/src/**/*.rt") + found("*/must-fail/*.edit")}
    names = Names(files, texts, crates)
    speller = Speller(names)
    for f, text in texts.items():
        if f.endswith(".rt"):
            names.aliases(" ".join(t for k, t in rt_parts(text) if k == "antt" and GHOST_USE.match(t)))
    table = speller.table([{m[0] for m in WORD.finditer(blank(texts[f])) if texts[f][m.start() - 1 : m.start()] != "."} for f in files])
    tables = {}
    for f in files:
        own = dict(table)
        for w in names.local[f]:
            n = speller.new(w, {"lemma"})
            if n != w and w not in names.foreign and w not in own:
                met = {own.get(x, x) for x in WORD.findall(blank(texts[f])) if x != w}
                own[w] = n + "_lem" if n in met else n
        if f in names.spec:
            own[names.spec[f]] = f.split("/")[-2] + "_spec"
            if own[names.spec[f]] == names.spec[f]:
                del own[names.spec[f]]
        tables[f] = own
    fields = speller.fields
    if look:
        return shown(table, tables, texts, names, speller)
    new = {}
    for f, text in texts.items():
        crate = "/".join(f.split("/")[:2])
        if f.endswith(".antt"):
            new[f] = antt(text, tables[f], names.kept[f], fields)
        elif f.endswith(".rt"):
            new[f] = rt(text, table, fields)
        else:
            at = lambda name, crate=crate: (tables.get(f"{crate}/{name}", table), names.kept.get(f"{crate}/{name}", ()))
            new[f] = edit(text, at, fields)
    count = 0
    for f, text in new.items():
        if text != texts[f]:
            count += 1
            with open(f, "w", encoding="utf-8", newline="") as out:
                out.write(text)
    if table:
        with open("docs/RENAMED.tsv", "w", encoding="utf-8") as out:
            out.writelines(f"{a}\t{b}\n" for a, b in sorted(table.items()))
            # of one Proof.antt alone
            out.writelines(f"{a}\t{b}\t{f}\n" for f in files for a, b in sorted(tables[f].items()) if table.get(a) != b)
    print(f"{count} files, {len(table)} names")
    return 0


RESERVED = set(
    "open where data use in as record let do mutual ruleset module mod abbrev unfoldable pattern axiom pub if then else case of with by "
    "search grind simp omega cc rw ground assumption induction cases exact apply ring linarith decide unfold unfolding tie goal statement".split()
)


def shown(table, tables, texts, names, speller):
    for a, b in sorted(table.items()):
        print("turn", a, b, ",".join(sorted(names.kinds[a])))
    back = collections.defaultdict(set)
    for a, b in table.items():
        back[b].add(a)
    for b, olds in sorted(back.items()):
        if len(olds) > 1:
            print("FALL", b, sorted(olds))
        if b in names.kinds:
            print("MEETS-OWN", sorted(olds), b, sorted(names.kinds[b]))
        if b in names.foreign:
            print("MEETS-FOREIGN", sorted(olds), b)
        if b in RESERVED:
            print("RESERVED", sorted(olds), b)
    for f, text in texts.items():
        if f.endswith(".antt"):
            code = blank(text)
            words = {m[0] for m in WORD.finditer(code) if code[m.start() - 1 : m.start()] != "."}
            for w in sorted(words & set(tables[f])):
                if tables[f][w] in words:
                    print("IN-FILE", f, w, tables[f][w])
            seen = collections.defaultdict(set)
            for w in words & set(tables[f]):
                seen[tables[f][w]].add(w)
            for b, ws in seen.items():
                if len(ws) > 1:
                    print("IN-FILE-FALL", f, ws, b)
        elif f.endswith(".rt"):
            parts = rt_parts(text)
            clause = " ".join(blank(t) for k, t in parts if k == "antt")
            rust = "".join(t for k, t in parts if k == "rust")
            words = set(WORD.findall(clause))
            bound = set(re.findall(r"(?:let(?: mut)?|for) (\w+)", rust)) | set(re.findall(r"\b(\w+): ", rust)) | set(re.findall(r"\|(\w+)\|", rust))
            for w in sorted(words & set(table)):
                n = table[w]
                if n in words:
                    print("RT-CLAUSE", f, w, n)
                if n in bound:
                    print("RT-BOUND", f, w, n)
            for w in words:
                if re.search("[a-z][A-Z]", w) and w[0].islower() and w not in table:
                    print("RT-LEFT", f, w)
    return 0


if __name__ == "__main__":
    sys.exit(main(sys.argv[1:]))
