#!/usr/bin/env python3
"""Lists the places in crates/*/src that have one of the older forms, by the points of docs/DESIGN-PASS.md.

    python3 tools/forms.py            counts
    python3 tools/forms.py --list     counts and places
    python3 tools/forms.py --at DIR   of another checkout
"""
import collections
import os
import re
import sys


def sources(root):
    crates = os.path.join(root, "crates")
    for crate in sorted(os.listdir(crates)):
        src = os.path.join(crates, crate, "src")
        for folder, _, files in sorted(os.walk(src)):
            for name in sorted(files):
                if name.endswith(".rt"):
                    path = os.path.join(folder, name)
                    yield os.path.relpath(path, crates), open(path, encoding="utf-8").read()


def bare(text):
    """The text without comments."""
    return re.sub(r"//[^\n]*", "", text)


def line_of(text, at):
    return text.count("\n", 0, at) + 1


def block(text, at):
    """The text between the brace at `at` and the one that closes it."""
    depth = 0
    for i in range(at, len(text)):
        if text[i] == "{":
            depth += 1
        elif text[i] == "}":
            depth -= 1
            if depth == 0:
                return text[at + 1:i]
    return text[at + 1:]


def top(text):
    """The parts of a list between commas that stand in no bracket."""
    parts, depth, part = [], 0, ""
    for c in text:
        if c in "([{<":
            depth += 1
        elif c in ")]}>":
            depth -= 1
        if c == "," and depth == 0:
            parts.append(part.strip())
            part = ""
        else:
            part += c
    parts.append(part.strip())
    return [p for p in parts if p]


def functions(text):
    """Name, place, comment above, parameters, clauses and body of each function."""
    for m in re.finditer(r"^[ ]*(?:pub(?:\([a-z]+\))? )?(?:extern \"C\" )?fn (\w+)(<[^(]*>)?\(", text, re.M):
        at = m.end() - 1
        depth, i = 0, at
        while i < len(text):
            depth += {"(": 1, ")": -1}.get(text[i], 0)
            if depth == 0:
                break
            i += 1
        params = text[at + 1:i]
        j = i + 1
        clauses = ""
        while True:
            k = text.find("{", j)
            if k < 0:
                break
            head = text[j:k]
            if re.search(r"(requires|ensures)(\s+\w+)?\s*$", head):
                inner = block(text, k)
                clauses += head + "{" + inner + "}"
                j = k + len(inner) + 2
            else:
                body = block(text, k)
                sign = text[i + 1:k]
                above = re.search(r"((?:^[ ]*//[^\n]*\n)*)(?:^[ ]*#\[[^\n]*\n)*\Z", text[:m.start()], re.M)
                yield m.group(1), line_of(text, m.start()), above.group(1) if above else "", params, clauses, sign, body
                break


def enums(text):
    for m in re.finditer(r"^(?:pub )?enum (\w+)(?:<[^{]*>)? \{", text, re.M):
        yield m.group(1), line_of(text, m.start()), top(bare(block(text, m.end() - 1)))


def shape(variants):
    """Whether variants are a value or none, or a value or a number of a refusal."""
    plain = [v for v in variants if re.fullmatch(r"\w+", v)]
    number = [v for v in variants if re.fullmatch(r"(Refused|Wrong)\(u32\)", v)]
    full = [v for v in variants if v not in plain and v not in number]
    if len(variants) == 2 and len(plain) == 1:
        return True
    if number and full:
        return True
    words = {"Bad", "Malformed", "Unknown", "Nothing", "Wrong", "Missing"}
    return len(variants) > 2 and any(v in words for v in plain) and bool(full)


def point1(files):
    for path, text in files:
        for name, line, variants in enums(text):
            if shape(variants):
                yield path, line, "enum " + name
        for m in re.finditer(r"^(?:pub )?struct (\w+)[^{;]*\{", text, re.M):
            fields = top(bare(block(text, m.end() - 1)))
            flags = [f for f in fields if re.search(r"\b(given|there|ok|has_\w+|is_\w+|wrote|known): bool|\bnumber: u32", f) and "ghost" not in f]
            if flags and len(fields) > 1:
                yield path, line_of(text, m.start()), "struct " + m.group(1) + " " + flags[0]
        for name, line, above, params, clauses, sign, body in functions(text):
            if re.search(r"-> (u\d+|usize)", sign) and re.search(r"\b(0|10|16) (where|if) |or 0\b|, and 0\b|; 0 where|0 for none", above):
                yield path, line, "fn " + name + " gives a number for none"
            if re.search(r": &mut bool", params):
                yield path, line, "fn " + name + " gives a flag by a parameter"


def normal(body):
    body = bare(body)
    body = re.sub(r"\b(\w+)::(?=\w)", "", body)
    body = re.sub(r"b?\"[^\"]*\"|b'[^']*'|\b(0x)?[0-9A-Fa-f]*\d[0-9A-Fa-f_]*\b", "#", body)
    body = re.sub(r"\b[A-Z][A-Z_0-9]+\b", "#", body)
    body = re.sub(r"\b(u8|u16|u32|u64|usize|i64)\b", "T", body)
    names = {}

    def name(m):
        w = m.group(0)
        if w in ("if", "else", "let", "mut", "while", "return", "match", "for", "in", "as", "T", "true", "false"):
            return w
        return names.setdefault(w, "n%d" % len(names))

    return " ".join(re.findall(r"\w+|#|[^\s\w]", re.sub(r"\b[A-Za-z_]\w*\b", name, body)))


def point2(files):
    groups = collections.defaultdict(list)
    for path, text in files:
        for name, line, above, params, clauses, sign, body in functions(text):
            n = normal(body)
            if len(n.split()) >= 16:
                groups[n, len(top(params))].append((path, line, name))
    for (n, _), places in groups.items():
        if len(places) > 1:
            for path, line, name in places:
                yield path, line, "fn " + name + " as " + ", ".join(p[2] + " (" + p[0].split("/")[0] + ")" for p in places if p != (path, line, name))


def point3(files):
    for path, text in files:
        for m in re.finditer(r"^\s*(while|loop)\b[^\n]*", text, re.M):
            yield path, line_of(text, m.start(1)), m.group(0).strip()


HAND = r"same|compare|max|min|lower|copy|clear|fill|move_up|get4|get8|put4|put8|wide|word|is_zero|find|join|print\w*|complain\w*|decimal|magnitude|\w+_of_padded|put_in"


def point4(files):
    for path, text in files:
        for name, line, above, params, clauses, sign, body in functions(text):
            if re.fullmatch(HAND, name):
                yield path, line, "fn " + name
        for name, line, variants in enums(text):
            if set(variants) in ({"Earlier", "Equal", "Later"}, {"Under", "Over"}):
                yield path, line, "enum " + name


def conjuncts(clause):
    parts, depth, part = [], 0, ""
    for c in clause:
        depth += {"(": 1, "{": 1, ")": -1, "}": -1}.get(c, 0)
        if c == "×" and depth == 0:
            parts.append(part)
            part = ""
        else:
            part += c
    parts.append(part)
    done = []
    for p in parts:
        p = p.strip()
        while p.startswith("(") and p.endswith(")"):
            p = p[1:-1].strip()
        done.append(re.sub(r"\s+", " ", p))
    return done


def point5(files):
    facts, groups = collections.defaultdict(set), collections.defaultdict(set)
    for path, text in files:
        for name, line, above, params, clauses, sign, body in functions(text):
            at = (path, line, name)
            for m in re.finditer(r"requires(?:\s+\w+)?\s*\{", clauses):
                for fact in conjuncts(block(clauses, m.end() - 1)):
                    facts[re.sub(r"\.(now|old|entry)\b", "", fact)].add(at)
            ps = [re.sub(r"\s+", " ", re.sub(r"'\w+ |mut ", "", p)) for p in top(params)]
            ps = [p for p in ps if re.match(r"\w+:", p) and p.split(":")[0] not in ("rt", "alloc")]
            for p in ps:
                groups[p].add(at)
    for fact, at in sorted(facts.items()):
        if len(at) >= 3 and fact:
            yield "", 0, "fact in %d contracts: %s" % (len(at), fact)
    for group, at in sorted(companions(groups).items()):
        yield "", 0, "parameters of %d functions: %s" % (at, ", ".join(group))


def companions(takes):
    """Parameters of which one stands in three functions or more, and in four of five beside the others."""
    groups = {}
    for p in takes:
        group = tuple(sorted(q for q in takes if len(takes[p] & takes[q]) * 5 >= len(takes[p]) * 4))
        if len(takes[p]) >= 3 and len(group) > 1:
            groups[group] = max(groups.get(group, 0), len(takes[p]))
    return {g: n for g, n in groups.items() if not any(set(g) < set(h) and n <= m for h, m in groups.items())}


def point6(files):
    for path, text in files:
        for m in re.finditer(r"^(?:pub )?struct (\w+)[^{;]*\{", text, re.M):
            fields = bare(block(text, m.end() - 1))
            if re.search(r"\[\w+; ", fields) and re.search(r"\b(count|len|end|n|filled)\b\s*:", fields):
                yield path, line_of(text, m.start()), "struct " + m.group(1)
            if re.search(r"\bfirst\b.*\bsecond\b.*\bthird\b", fields, re.S):
                yield path, line_of(text, m.start()), "struct " + m.group(1) + " has numbered fields"
        for name, line, above, params, clauses, sign, body in functions(text):
            if re.search(r"&mut \[u8(; \w+)?\]", params) and re.search(r"\b(at|n|len|held|from|filled): usize", params):
                yield path, line, "fn " + name + " takes a buffer and a length"
            if len(re.findall(r": &(?:mut )?\[u(?:8|16)\]", params)) > 1 and re.search(r"heads|places", params):
                yield path, line, "fn " + name + " takes parallel arrays"


def point7(files):
    for path, text in files:
        for m in re.finditer(r"\bfn\([^)]*\)|\[fn|match (step|next|kind|which)\b", bare(text)):
            yield path, line_of(bare(text), m.start()), m.group(0)


POINTS = [point1, point2, point3, point4, point5, point6, point7]


def main():
    root = sys.argv[sys.argv.index("--at") + 1] if "--at" in sys.argv else "."
    files = list(sources(root))
    for i, point in enumerate(POINTS, 1):
        places = list(point(files))
        print("point %d: %d" % (i, len(places)))
        if "--list" in sys.argv:
            for path, line, what in places:
                print("    %s%s" % ("%s:%d " % (path, line) if path else "", what))
    proofs = [os.path.join(d, f) for d, _, fs in os.walk(os.path.join(root, "crates")) if "/proofs" in d and "/out/" not in d for f in fs]
    old = [p for p in proofs if p.endswith("/Proof.antt")]
    lines = sum(len(open(p, encoding="utf-8").read().split("\n")) for p in proofs if "/model/" not in p and "/stream/" not in p and "/separation/" not in p)
    print("point 8: %d Proof.antt, %d Answers.antt, %d lines of proof beside the model's" % (len(old), sum(p.endswith("/Answers.antt") for p in proofs), lines))


main()
