#!/usr/bin/env python3
"""Places of the sources that may be written in a plainer form, by kind.

    python3 tools/places.py [FOLDER] [KIND ..] [--list]

FOLDER is a checkout (the current one if none is named); KIND is one of the words below (all if none is
named). Prints how many places there are of each kind, and with --list each of them. It finds candidates
by their text: whether a place should change is for a reader to say. A line `// Stays:` at or above a
place, within the function, says why it stays.

    own-option     enums, flags and numbers that may be an Option, a Result or an enum with derives;
                   refusals that are passed on by a match or a let-else in place of `?`
    twins          functions whose bodies have one shape, names and numbers aside
    index-loops    loops that count an index or a cursor by hand
    by-hand        comparisons, numbers and printing by hand; public types with no Debug, or that are Copy with
                   no PartialEq
    repeated       clauses that stand in three or more functions, parameters that travel together
    buffers        arrays with a length beside them, searches that halve by hand
    switches       a match with three or more arms that only picks a call
    proofs         answers of the same text in two files, lemmas that nothing names
"""
import collections
import pathlib
import re
import sys

KINDS = ["own-option", "twins", "index-loops", "by-hand", "repeated", "buffers", "switches", "proofs"]


def sources(root):
    for path in sorted(root.glob("crates/*/src/**/*.rt")):
        if not re.search(r"crates/\w+_tests/", str(path)):
            yield path


def functions(path):
    """Each function with a body: its name, its first line, its head and its body."""
    lines = path.read_text().split("\n")
    at = 0
    while at < len(lines):
        m = re.match(r"(\s*)(?:pub(?:\(crate\))? )?fn (\w+)", lines[at])
        if not m:
            at += 1
            continue
        indent, name, start = m.group(1), m.group(2), at
        head = []
        while at < len(lines) and not re.match(indent + r"\{|" + indent + r"\{\}", lines[at]) and not lines[at].rstrip().endswith("{") and not lines[at].endswith(";"):
            head.append(lines[at])
            at += 1
        if at >= len(lines) or (lines[at].endswith(";") and not lines[at].strip() == "{"):
            at += 1
            continue
        head.append(lines[at])
        body = []
        if lines[at].rstrip().endswith("{"):
            at += 1
            while at < len(lines) and lines[at] != indent + "}":
                body.append((at + 1, lines[at]))
                at += 1
        at += 1
        yield name, start + 1, head, body


def shape(body):
    """The text of a body with each name and number replaced by the order of its first use."""
    text = " ".join(line.split("//")[0].strip() for _, line in body)
    seen = {}
    keep = {"let", "mut", "if", "else", "match", "while", "for", "in", "loop", "return", "Some", "None", "Ok", "Err",
            "self", "as", "break", "true", "false", "ref", "move", "const"}
    out = []
    for token in re.findall(r"\w+|[^\w\s]", text):
        if re.match(r"\w", token) and token not in keep:
            token = "n%d" % seen.setdefault(token, len(seen))
        out.append(token)
    return " ".join(out)


def stays(path, line):
    """Whether a line `// Stays:` stands in the item that holds the line, in the comment above it, or above its impl."""
    lines = path.read_text().split("\n")
    if path.suffix == ".antt":
        return any("-- Stays:" in l for l in lines)
    item = re.compile(r"(    )?(pub(\(crate\))? )?(fn|struct|enum|trait) ")
    start = line - 1
    while start > 0 and not item.match(lines[start]):
        start -= 1
    end = start
    while end + 1 < len(lines) and not re.match(r"(    )?\}$", lines[end + 1]):
        end += 1
    block = start
    while block > 0 and not re.match(r"(pub )?(impl|fn|struct|enum|trait)\b", lines[block]):
        block -= 1

    def above(at):
        while at > 0 and re.match(r"\s*(//|#\[)", lines[at - 1]):
            at -= 1
        return at

    near = lines[above(start):max(end, line)]
    if lines[block].startswith("impl"):
        near += lines[above(block):block]
    return any("// Stays:" in l for l in near)


def own_option(root):
    for path in sources(root):
        text = path.read_text()
        for i, line in enumerate(text.split("\n"), 1):
            if re.match(r"\s*(pub(\(crate\))? )?enum \w+", line):
                body = text.split("\n")[i:i + 30]
                body = "\n".join(body[:next(k for k, l in enumerate(body) if l == "}")])
                if re.search(r"^\s+(Refused|Other|Nothing|Nowhere|NotFound|None|Missing)\b", body, re.M):
                    yield path, i, line.strip()
            if re.match(r"\s+(pub(\(crate\))? )?\w+: bool,", line):
                yield path, i, "a flag: " + line.strip()
            if re.match(r"\s+(pub(\(crate\))? )?(number|code|kind): u\d+,", line):
                yield path, i, "a number for a kind: " + line.strip()
            if re.search(r"let (Ok|Some)\(.*else \{", line) or (re.search(r"\} else \{$|\) else \{$", line) and "let " not in line and line.strip().startswith((")", "}")) and re.match(r"\s+\) else \{", line)):
                rest = "\n".join(text.split("\n")[i:i + 6])
                if re.match(r"\s*return (Err|None|Found|Ok\(Listing)|\s*return \w+;", rest):
                    yield path, i, line.strip()
            if re.search(r"Err\(\w*\) => (return )?Err\(|None => (return )?None\b|Err\(_\w*\) => None", line):
                yield path, i, line.strip()
            if re.search(r"extent: None,", line) and "=>" not in line:
                yield path, i, "an answer of nothing, built by hand"
            if re.match(r"\s*let number = \w+(\.\w+)?\.number\(\);", line):
                yield path, i, line.strip()


def twins(root):
    groups = collections.defaultdict(list)
    for path in sources(root):
        for name, line, head, body in functions(path):
            form = shape(body)
            if len(form.split()) >= 12:
                groups[form].append((path, line, name))
    for form, places in sorted(groups.items(), key=lambda g: str(g[1][0])):
        if len(places) > 1:
            for path, line, name in places:
                yield path, line, "%s, one of %d of this shape" % (name, len(places))


def index_loops(root):
    for path in sources(root):
        for name, start, head, body in functions(path):
            for k, (i, line) in enumerate(body):
                if re.search(r"for \w+ in \(?0\.\.|for \w+ in \(?\w+\.\.\w", line) and not re.search(r"for _ in", line):
                    yield path, i, name + ": " + line.strip()
                elif re.match(r"\s+(while|loop)\b", line):
                    yield path, i, name + ": " + line.strip()
                elif re.search(r"for \w+ in &?\w+", line) and any(re.search(r"\b(at|i|n|made|k) \+= ", l) for _, l in body[k:k + 8]):
                    yield path, i, name + ": " + line.strip()
                elif re.search(r"for .* in .*enumerate\(\)", line):
                    yield path, i, name + ": " + line.strip()
                elif re.search(r"for \w+ in \w+(\.iter_mut\(\))? \{", line):
                    rest = [l.strip() for _, l in body[k + 1:k + 5]]
                    if any(l.startswith(("return", "*")) for l in rest[:2]):
                        yield path, i, name + ": " + line.strip()


def by_hand(root):
    for path in sources(root):
        lines = path.read_text().split("\n")
        for i, line in enumerate(lines, 1):
            m = re.match(r"pub (struct|enum) (\w+)", line)
            if m:
                derives = " ".join(lines[max(0, i - 4):i - 1])
                lacks = [] if "Debug" in derives else ["Debug"]
                if "Copy" in derives and "PartialEq" not in derives:
                    lacks.append("PartialEq")
                if lacks:
                    yield path, i, "%s has no %s" % (m.group(2), ", no ".join(lacks))
            if re.search(r'println?!\(rt; "refused', line):
                yield path, i, "printed by hand: " + line.strip()
            m = re.match(r"\s*(pub(\(crate\))? )?fn (is_\w+|compare|earlier|later|number)\b", line)
            if m:
                body = "\n".join(lines[i:i + 18]).split("\n    }\n" if line.startswith("    ") else "\n}\n")[0]
                if m.group(3) == "compare" or "match self {" in body or "else if" in body:
                    yield path, i, line.strip()


def clauses(head):
    """The clauses of a function's head, each on one line, without the braces round it."""
    text = "\n".join(head)
    for m in re.finditer(r"(?:requires|ensures)\*?(?: \w+)? \{", text):
        depth, at = 1, m.end()
        while depth and at < len(text):
            depth += {"{": 1, "}": -1}.get(text[at], 0)
            at += 1
        yield re.sub(r"\s+", " ", text[m.end():at - 1]).strip()


def repeated(root):
    facts = collections.defaultdict(set)
    together = collections.defaultdict(set)
    counts = collections.Counter()
    for path in sources(root):
        for name, line, head, body in functions(path):
            where = (path, line, name)
            for clause in clauses(head):
                for part in re.split(r" × ", clause):
                    part = re.sub(r"^\(+|\)+$", "", part.strip())
                    part = re.sub(r"\.(old|new|now|entry|exit)\b", "", part)
                    if len(part) > 6 and not re.match(r"result ≡", part):
                        facts[part].add(where)
                for record in re.findall(r"record \{[^{}]*(?:\{[^{}]*\}[^{}]*)*\}", clause):
                    facts[re.sub(r"\.(old|new|now|entry|exit)\b", "", record)].add(where)
            params = re.findall(r"(\w+): (&(?:'\w+ )?(?:mut )?[^,()]+|u32|usize|\w+(?:<'_>)?)", re.sub(r"\s+", " ", " ".join(head)).split("->")[0])
            crate = path.parts[path.parts.index("crates") + 1]
            params = [(crate, n) for n, t in params if not n[0].isupper() and n not in ("rt", "self")]
            counts.update(params)
            for a in range(len(params)):
                for b in range(a + 1, len(params)):
                    together[(params[a], params[b])].add(where)
    for fact, places in sorted(facts.items()):
        if len(places) >= 3:
            path, line, name = min(places)
            yield path, line, "the fact `%s`, in %d functions" % (fact[:90], len(places))
    for pair, places in sorted(together.items()):
        alone = min(counts[pair[0]], counts[pair[1]])
        if len(places) >= 3 and len(places) >= 0.75 * alone:
            path, line, name = min(places)
            yield path, line, "the parameters %s and %s, in %d functions of %s" % (pair[0][1], pair[1][1], len(places), pair[0][0])


def buffers(root):
    for path in sources(root):
        text = path.read_text()
        for m in re.finditer(r"struct (\w+)[^{;]*\{(.*?)\n\}", text, re.S):
            fields = m.group(2)
            if re.search(r": \[[^\]]+; [^\]]+\]", fields) and re.search(r"\b(len|depth|count|used): (usize|u8|u32)", fields):
                yield path, text[:m.start()].count("\n") + 1, m.group(1)
        for m in re.finditer(r"let mid = ", text):
            yield path, text[:m.start()].count("\n") + 1, "a search by halving"


def switches(root):
    for path in sources(root):
        for name, line, head, body in functions(path):
            text = [l for _, l in body]
            for k, l in enumerate(text):
                if re.search(r"match .* \{$", l):
                    indent = len(l) - len(l.lstrip())
                    arms = [a for a in text[k + 1:] if re.match(r" {%d}\S.*=>" % (indent + 4), a)]
                    end = next((j for j, a in enumerate(text[k + 1:]) if a == " " * indent + "}"), None)
                    arms = [a for a in text[k + 1:k + 1 + (end or 0)] if re.match(r" {%d}\S.*=>" % (indent + 4), a)]
                    calls = [a for a in arms if re.search(r"=> (&?[\w.:]+\(|\{$|[\w:]+\($)", a)]
                    if len(arms) >= 3 and len(calls) >= 3:
                        yield path, body[k][0], "%s: %s, %d arms" % (name, l.strip(), len(arms))


def proofs(root):
    texts = collections.defaultdict(list)
    everything = ""
    names = []
    for path in sorted(root.glob("crates/*/**/*.antt")):
        if "/out/" in str(path):
            continue
        text = path.read_text()
        everything += text
        for m in re.finditer(r"^pub (\w+[\w'-]*) :", text, re.M):
            if "/proofs/" in str(path) and path.name not in ("Answers.antt", "Invariants.antt", "Proof.antt"):
                names.append((path, text[:m.start()].count("\n") + 1, m.group(1)))
        if path.name == "Answers.antt":
            for block in re.split(r"\n\n", text):
                block = "\n".join(l for l in block.split("\n") if not l.startswith("use "))
                body = re.sub(r"^(?:abbrev )?pub [\w-]+ : \S+\n[\w-]+", "", block.strip())
                if len(body) > 80:
                    texts[re.sub(r"\s+", " ", body)].append((path, 1))
    everything += "".join(p.read_text() for p in root.glob("crates/*/src/**/*.rt"))
    for body, places in sorted(texts.items()):
        if len(places) > 1:
            for path, line in places:
                yield path, line, "an answer that stands in %d files" % len(places)
    for path, line, name in names:
        if len(re.findall(r"(?<![\w'-])%s(?![\w'-])" % re.escape(name), everything)) <= 2:
            yield path, line, name + " is named nowhere else"


FIND = dict(zip(KINDS, [own_option, twins, index_loops, by_hand, repeated, buffers, switches, proofs]))


def main():
    words = [w for w in sys.argv[1:] if w != "--list"]
    root = pathlib.Path(words.pop(0)) if words and words[0] not in KINDS else pathlib.Path(".")
    for kind in words or KINDS:
        places = list(FIND[kind](root))
        kept = sum(stays(path, line) for path, line, _ in places)
        print("%-12s %4d places, %d of them beside a line `// Stays:`" % (kind, len(places), kept))
        if "--list" in sys.argv:
            for path, line, what in places:
                mark = "stays " if stays(path, line) else "      "
                print("    %s%s:%d  %s" % (mark, path.relative_to(root), line, what))


main()
