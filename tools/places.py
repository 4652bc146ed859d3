"""Counts in src/ the places that docs/DESIGN-PASS.md speaks of, point by point and crate by crate: python3 tools/places.py [COMMIT] [-v].
Without a commit it reads the files as they lie; with -v it names each place. Programs of tests stand apart from the rest."""
import collections
import pathlib
import re
import subprocess
import sys

ARGS = [a for a in sys.argv[1:] if a != "-v"]
NAMED = "-v" in sys.argv
COMMIT = ARGS[0] if ARGS else None
TESTS = re.compile(r"crates/(check_|report/)")


def git(*words):
    return subprocess.run(["git", *words], capture_output=True, text=True, check=True).stdout


def files():
    if COMMIT:
        for name in git("ls-tree", "-r", "--name-only", COMMIT, "crates").split():
            if re.match(r"crates/[^/]+/(src|proofs)/.*\.(rt|antt)$", name):
                yield name, git("show", f"{COMMIT}:{name}")
    else:
        for path in sorted(pathlib.Path("crates").glob("*/*/**/*")):
            if re.match(r"crates/[^/]+/(src|proofs)/.*\.(rt|antt)$", str(path)):
                yield str(path), path.read_text()


FILES = list(files())
SOURCES = [(n, t) for n, t in FILES if n.endswith(".rt")]
PROOFS = [(n, t) for n, t in FILES if n.endswith(".antt")]
FUNCTION = re.compile(r"^ *(?:#\[unsafe\(no_mangle\)\] *)?(?:pub )?(?:extern \"C\" )?(?:unsafe )?fn (\w+)", re.M)


def lines(pattern):
    """Each line of src/ that the pattern fits, comments aside."""
    seek = re.compile(pattern)
    for name, text in SOURCES:
        for number, line in enumerate(text.split("\n"), 1):
            if seek.search(line) and not line.lstrip().startswith("//"):
                yield name, number, line.strip()


def functions():
    """Each function: its file, line, name, and its text up to the next one's name."""
    for name, text in SOURCES:
        found = list(FUNCTION.finditer(text))
        for i, f in enumerate(found):
            end = found[i + 1].start() if i + 1 < len(found) else len(text)
            yield name, text.count("\n", 0, f.start(1)) + 1, f.group(1), text[f.start() : end]


def head(body):
    """A function's parameters and result, on one line."""
    return " ".join(re.split(r"\n *(?:requires|ensures|\{)|\{ *\n|\{\}", body, 1)[0].split())


def say(point, places):
    places = list(places)
    tests = [p for p in places if TESTS.match(p[0])]
    rest = [p for p in places if not TESTS.match(p[0])]
    by = collections.Counter(re.match(r"crates/(\w+)", p[0]).group(1) for p in rest)
    print(f"{point}: {len(rest)}, and {len(tests)} in tests.  " + ", ".join(f"{c} {n}" for c, n in by.items()))
    if NAMED:
        for name, number, what in places:
            print(f"    {name}:{number}: {what[:140]}")


ALL = list(functions())

say("1a flags and codes beside a value (fields code, ok, any)", lines(r"^\s*pub (code|ok|any): "))
ANSWER = r"-> (u32|Verdict|Share|Ends|Coarsest|Told|Made|Stepped|TableRead|Brought)\b"
PROMISE = r"ensures [^\n]*(code|ends_of|told |share|coarsest_answer|erdict|refused|_fault|fresh n|step s|IsRead|IsBrought|tell_number)"
say("1b functions that answer a refusal by its number", ((n, l, head(b)) for n, l, f, b in ALL if re.search(ANSWER, head(b)) and re.search(PROMISE, b)))
say("1c kinds by number (parameters and fields left, right, shape, order; a route's number)", ((n, l, w) for n, l, w in lines(r"\b(left|right|shape|order): u32\b|fn (tell|dapplescree_told_distance)\(number: u32")))


def twins():
    by = collections.defaultdict(list)
    for n, l, f, b in ALL:
        if re.search(r"\d", f):
            by[re.match(r"crates/(\w+)", n).group(1), re.sub(r"\d+", "#", f)].append((n, l, f))
    for group in by.values():
        if len(group) > 1:
            yield from group


say("2a functions whose names differ by digits alone", twins())


def shapes(text):
    return re.sub(r"\d+", "#", re.sub(r"\b\w+\b", lambda w: w.group(0), " ".join(text.split())))


def alike():
    """Bodies that are the same but for digits and the function's own name."""
    by = collections.defaultdict(list)
    for n, l, f, b in ALL:
        parts = re.split(r"\n *\{\n|\{ *\n", b, 1)
        if len(parts) == 2 and len(parts[1].split()) > 12:
            inner = parts[1].split("\n}")[0]
            by[shapes(inner)].append((n, l, f))
    for group in by.values():
        if len(group) > 1:
            yield from group


say("2b functions whose bodies are the same but for digits", alike())
say("3a loops by while and loop", lines(r"^\s*(while|loop)\b"))
say("3b loops over a range of numbers", lines(r"^\s*for \w+ in [^ \[]*[^.\[]\.\.[^.]"))
say("3c other loops by for", ((n, l, w) for n, l, w in lines(r"^\s*for ") if not re.search(r"for \w+ in [^ \[]*[^.\[]\.\.[^.]", w)))
say("4 copying, comparing, clamping, flags and conversion by hand", ((n, l, f) for n, l, f, b in ALL if re.fullmatch(r"larger|smaller|larger_of_two|apart|copy|clear|shift|fill|flag|numbered|magnitude|limited|clipped|size|mark|put_blanks|put_text|put_byte|shape_in|number_in|at_most_a_tile|one_less|is_digit|all_digits|find|abs|show_\w+", f)))
say("5a functions that take left and right", ((n, l, f) for n, l, f, b in ALL if "left: u32" in head(b) and "right: u32" in head(b)))
say("5b functions that take four slices of two blocks", ((n, l, f) for n, l, f, b in ALL if "first_changed:" in head(b)))
say("5c functions that take eight parameters or more", ((n, l, f) for n, l, f, b in ALL if head(b).count(":") - head(b).count("::") * 2 >= 8))


def facts():
    """Facts of requires that three functions of a crate or more state, once for each fact."""
    by = collections.defaultdict(set)
    for n, l, f, b in ALL:
        for clause in re.findall(r"^ *requires (?:\w+ )?\{ (.*) \}$", b, re.M):
            for fact in re.split(r" × ", clause):
                by[re.match(r"crates/(\w+)", n).group(1), fact.strip("() ")].add((n, l, f))
    for (crate, fact), places in sorted(by.items(), key=lambda p: -len(p[1])):
        if len(places) >= 3:
            n, l, f = min(places)
            yield n, l, f"{len(places)} x {fact}"


say("5d facts that three functions of a crate require", facts())
say("6a functions that take a buffer and a place in it", ((n, l, f) for n, l, f, b in ALL if re.search(r"(out|buf): &mut \[u8\], (at|from): usize", head(b))))
say("6b rooms: functions that make a buffer of zeros", ((n, l, f) for n, l, f, b in ALL if re.search(r"\{\n *\[0(\.0)?\w*; [^\]]*\]\n\}", b)))
say("7 chains of tests of a number that picks what to do", lines(r"^\s*(\} else )?if (number|n|route|order|kind|m|shape|N) == \d+ \{"))
libraries = [(n, t) for n, t in PROOFS if not TESTS.match(n)]
print("8 proofs: " + ", ".join(f"{sum(n.endswith('/' + k) for n, _ in PROOFS)} {k}" for k in ("Proof.antt", "Answers.antt", "Invariants.antt"))
      + f"; {sum(t.count(chr(10)) for n, t in PROOFS)} lines, of which {sum(t.count(chr(10)) for n, t in PROOFS if n.endswith('/Proof.antt'))} in Proof.antt")
print(f"src: {sum(t.count(chr(10)) for n, t in SOURCES if not TESTS.match(n))} lines, and {sum(t.count(chr(10)) for n, t in SOURCES if TESTS.match(n))} in tests")
