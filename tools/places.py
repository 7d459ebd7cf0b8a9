#!/usr/bin/env python3
"""Counts the places in src/ that an older design leaves: python3 tools/places.py [COMMIT] [-v]

Each line is one kind of place with its number; -v lists the places. Without a commit the work tree is read.
"""
import collections, re, subprocess, sys

VERBOSE = "-v" in sys.argv
COMMIT = next((a for a in sys.argv[1:] if a != "-v"), None)


def git(*words):
    return subprocess.run(("git",) + words, capture_output=True, text=True, check=True).stdout


def files(ending):
    listed = git("ls-tree", "-r", "--name-only", COMMIT) if COMMIT else git("ls-files")
    for path in listed.split():
        if path.startswith("crates/") and path.endswith(ending):
            try:
                yield path, git("show", f"{COMMIT}:{path}") if COMMIT else open(path).read()
            except FileNotFoundError:
                pass


SOURCE = [(p, t) for p, t in files(".rt") if "/src/" in p]
FUNCTION = re.compile(r"^( *)(?:pub(?:\(crate\))? )?fn (\w+)(.*?)\n\1\{\n(.*?)\n\1\}$|^( *)(?:pub(?:\(crate\))? )?fn (\w+)([^\n]*) \{\n(.*?)\n\5\}$", re.M | re.S)


def functions():
    for path, text in SOURCE:
        for m in FUNCTION.finditer(text):
            name, head, body = (m[2], m[3], m[4]) if m[2] else (m[6], m[7], m[8])
            yield path, name, head, body


FUNCTIONS = list(functions())


def told(point, kind, places):
    places = list(places)
    print(f"{point}  {len(places):3}  {kind}")
    if VERBOSE:
        for place in places:
            print("         ", place)


def lines(pattern, only=lambda path: True):
    for path, text in SOURCE:
        for n, line in enumerate(text.split("\n"), 1):
            if only(path) and re.search(pattern, line) and not line.lstrip().startswith("//"):
                yield f"{path}:{n}: {line.strip()}"


def shape(body):
    """The body with names and numbers numbered in the order in which they first stand."""
    seen = {}
    return re.sub(r"\b(?!let|if|else|match|return|for|in|fn|mut|Some|None|Ok|Err)\w+\b", lambda m: seen.setdefault(m[0], f"n{len(seen)}"), re.sub(r"//.*", "", body)).split()


def twins():
    groups = collections.defaultdict(list)
    for path, name, head, body in FUNCTIONS:
        if body.count("\n") >= 2 and "tests" not in path:
            groups[" ".join(shape(body))].append(f"{path}: {name}")
    return [f for g in groups.values() if len(g) > 1 for f in sorted(g)]


def unrolled():
    """Calls of one function by three numbers or more with one step between them; tests name cases, and are passed over."""
    for path, name, head, body in FUNCTIONS:
        calls = collections.defaultdict(set)
        for m in re.finditer(r"(\w+)\((?:[^()]*, ?)?(\d+)\)", body):
            calls[m[1]].add(int(m[2]))
        for callee, numbers in calls.items():
            at = sorted(numbers)
            steps = {b - a for a, b in zip(at, at[1:])}
            if len(at) >= 3 and len(steps) == 1 and "tests" not in path:
                yield f"{path}: {name} calls {callee} at {at[0]} to {at[-1]} by number"


def tables():
    """Functions that are a match alone, from literals to variants or back."""
    for path, name, head, body in FUNCTIONS:
        text = body.strip()
        arms = re.findall(r"^\s+(.+?) => (.+?),?$", text, re.M)
        literal = r'(b?"[^"]*"|\d\w*|Some\(\w+::\w+\)|Ok\(\w+::\w+\)|\w+::\w+(\(\w+\))?|_|None|other|number|Err\(\w+(::\w+)?(\(\w+\))?\)|\(\d+, \d\))'
        if text.startswith("match ") and len(arms) > 2 and all(re.fullmatch(literal, b) for a, b in arms) and name not in ("from", "try_from", "from_str", "fmt"):
            yield f"{path}: {name}"


def repeated(word):
    groups = collections.defaultdict(list)
    for path, name, head, body in FUNCTIONS:
        for clause in re.findall(word + r"(?: \w+)? \{ (.*?) \}$", head, re.M):
            clause = re.sub(r"\d+", "N", clause)
            groups[clause].append(f"{path}: {name}: {clause}")
    return [f for g in groups.values() if len(g) > 2 for f in g]


def travelling():
    groups = collections.defaultdict(list)
    for path, name, head, body in FUNCTIONS:
        held = re.findall(r"(\w+): ([^,()]+(?:\([^()]*\))?)", head.split("ensures")[0].split("requires")[0])
        held = [(n, t) for n, t in held if n not in ("f", "heap", "rt", "alloc")]
        for i in range(len(held)):
            for j in range(i + 1, len(held)):
                groups[(held[i], held[j])].append(f"{path}: {name}: {held[i][0]}, {held[j][0]}")
    return [f for g in groups.values() if len(g) > 2 for f in g]


told(1, "Result or Option in a Result, or an Option that holds a fault", lines(r"-> .*Result<(Result|Option)<|Option<Bad\w+>"))
told(1, "numbers for kinds, causes, statuses and refusals", lines(r"\b(number|status|kind|cause|key|res|result): u8\b"))
told(1, "flags beside a value", lines(r"let mut \w+ = (true|false)"))
told(2, "functions that another has the shape of", twins())
told(3, "loops and counts by hand", lines(r"^\s*for \w+ in [\w.()]*\.\.|\b(\w+) = \1 \+ |\w \+= |= \w+\.saturating_add\(1\)|\bwhile\b"))
told(3, "calls unrolled by number", unrolled())
told(4, "equality or order by hand", lines(r"impl (Partial)?(Eq|Ord) for"))
told(4, "conversions that are a table alone", tables())
told(4, "refusals by a method, and printing by functions", lines(r"fn (refusal|show_\w+)\b", lambda p: not p.startswith("crates/edges") and not p.endswith("cards/src/main.rt")))
told(5, "requires that three functions or more have", repeated("requires"))
told(5, "two parameters that three functions or more have", travelling())
told(6, "arrays with a length beside", lines(r"^\s*(pub |pub\(crate\) )?(len|count): usize,"))
told(7, "function pointers, dyn, and steps by an enum", lines(r"\bdyn \w|: fn\(|enum (Step|Verb)\b"))
answers = [(p, t) for p, t in files(".antt") if "/proofs/" in p and p.endswith(("Answers.antt", "Invariants.antt"))]
lemmas = [(p, t) for p, t in files(".antt") if "/proofs/" in p and not p.endswith(("Answers.antt", "Invariants.antt"))]
print(f"8  {len(answers):3}  files of answers and invariants, {sum(t.count(chr(10)) for p, t in answers)} lines")
print(f"8  {len(lemmas):3}  files of lemmas, {sum(t.count(chr(10)) for p, t in lemmas)} lines")
