#!/usr/bin/env python3
"""Brings the repository's own antt names to today's spelling. Run once, at the top of the repository, after port.py.

    python3 tools/rename.py           rewrites crates/*/specs, crates/*/proofs, the clauses and ghost lines of src/*.rt, and must-fail/*.edit,
                                      and writes tools/renamed.tsv: the old names beside the new ones
    python3 tools/rename.py --check   says what it would do, and writes nothing

firstQuarter, half-turn, leZ-is, sum-of  ->  first_quarter, half_turn, le_z_is, sum_of. A dash stays in a lemma's name between two names that exist (length-table).
A token is turned only if this repository declares it, and not in a file that imports the same word from the kit. Types, modules, inputs, outputs, src's functions,
strings and comments keep their spelling (a comment's name in backquotes is turned). Names that would fall together, or differ by a dash alone, in one crate get
those of GIVEN; in one file none falls together. Clauses that port.py named by a letter or numbered are named by what they say (`labels`).
"""
import collections, glob, os, re, sys

W = r"[^\s(){}.;,@\"«»\[\]\\`]+"
TOKEN = re.compile(r"--[^\n]*|\"(?:[^\"\\]|\\.)*\"|«[^»]*»|(?<=\buse )[^\s{;]+|" + W)  # a comment, a string, an escaped word, a path, a word
RT_SKIP = re.compile(r"//[^\n]*|\"(?:[^\"\\]|\\.)*\"|b?'(?:[^'\\\n]|\\.)'")
SPAN = re.compile(r"ghost use [^;]*;|\b(?:requires|ensures|decreases|ghost)\b\*?(?:[ \n]+[a-z_]\w*)?:?\s*\{")
USE = re.compile(r"^\s*(?:pub |ghost )*use\s+([^\s{;]+?)\.?\{([^}]*)\}", re.M)
DECL = re.compile(r"^( *)((?:pub |abbrev |unfoldable |private |ruleset |syntax |data |record )*)(" + W + r")( .*|)$", re.M)
KEYWORDS = set("use pub mod module record data where let in elim abbrev unfoldable unfolding infix infixl infixr ruleset open if then else case forall".split())
MADE = re.compile(r"(Need|After|Then|Else|Loop|Live|Entry|Args)(-|\d|$)|invariant-|decreases-|loop-|type-inv$")  # names that Rattle makes
PLAIN = set("ℕ ℤ Bool List Option Type Unit String".split())
KITS = {"natAbs": "nat_abs", "negℤ": "neg_ℤ", "toZ": "to_z", "ofZ": "of_z", "ltZ": "lt_z", "leZ": "le_z", "getD": "get_or", "_≡_": "◌≡◌", "_≢_": "◌≢◌"}

# old name -> new name, where the spelling alone would make two names one
GIVEN = {
    "base-numbers": "base_numbers_are", "digits-by": "digits_by_are", "fall-numbers": "fall_numbers_are", "hop-at": "hop_entry", "in-range": "lies_in_range",
    "length-of": "tabled_length", "lift-numbers": "lift_numbers_are", "load-calls": "load_calls_are", "load-held": "load_held_is",
    "name-code": "name_code_same", "named-of": "named_of_is", "noCut": "uncut", "page-code": "page_code_same", "part-sums": "part_sums_are",
    "played-code": "played_code_same", "rise-numbers": "rise_numbers_are", "share-code": "share_code_same", "short-tabled": "short_is_tabled",
    "side-numbers": "side_numbers_are", "sound-tail": "tail_is_sound", "state-code": "state_code_is", "state-next": "state_goes_on", "stepBy": "step_by_load",
    "table-number": "is_table_number", "taken-loads": "taken_loads_are", "thereAndBack": "stepped_there_and_back",
}


def read(p):
    with open(p, encoding="utf-8") as f:
        return f.read()


def spans(path, text):
    """The parts of a file that are antt."""
    if path.endswith(".antt"):
        return [(0, len(text))]
    hidden = RT_SKIP.sub(lambda m: " " * len(m[0]), text)
    out, at = [], 0
    while m := SPAN.search(hidden, at):
        end, depth = m.end(), 1
        while m[0].endswith("{") and depth and end < len(text):
            depth += {"{": 1, "}": -1}.get(hidden[end], 0)
            end += 1
        out.append((m.end() - 1 if m[0].endswith("{") else m.start(), end))  # a clause's label is no word of it
        at = end
    return out


def kept(t):
    """Whether a token is no word: a comment, a string, an escaped word, a path."""
    return t[0].startswith("--") or t[0][0] in '"«' or bool(re.search(r"\buse $", t.string[max(0, t.start() - 5) : t.start()]))


def tokens(path, text):
    """The words of a file's antt that name something by themselves: no fields, which are looked up by their type."""
    return {t[0] for a, b in spans(path, text) for t in TOKEN.finditer(text[a:b]) if not kept(t) and text[a:b][t.start() - 1] != "."}


def declared(text):
    """name -> kind ('type', 'def', 'field', 'local', 'lemma') of the names that an antt file declares."""
    out, inside = {}, []  # inside: the indents of the records and blocks that are open
    for m in DECL.finditer(text):
        indent, how, name, rest = len(m[1]), m[2], m[3], m[4]
        inside = [i for i in inside if i[0] < indent]
        if name in KEYWORDS or name.startswith("--"):
            if name == "module":
                inside.append((indent, "module"))
            if name == "where":
                inside.append((indent, "where"))
        sig = re.match(r"(?: \{[^}]*\}| \([^)]*\))* : (.*)$", rest)
        if name not in KEYWORDS and not name.startswith("--") and (sig or "ruleset" in how):
            last = re.split(r" → ", sig[1])[-1] if sig else ""
            field = [k for _, k in inside if k in ("record", "where")]
            if "record" in how or "data" in how or last.startswith("Type"):
                kind = "type"
            elif field or "ruleset" in how:
                kind = "field" if field and field[-1] == "record" else "local"
            elif "abbrev" in how or "unfoldable" in how or (last.split(" ")[0] in PLAIN and not re.search(r"[≡≤<↔≢]", last)):
                kind = "def"
            else:
                kind = "lemma"
            out.setdefault(name, kind)
        if "record" in how or "data" in how or name in ("record", "data"):
            inside.append((indent, "record"))
    for m in re.finditer(r"\blet (" + W + r") (?:: [^=\n]*)?=|λ ([^.\n]*?)\.|[({]((?:" + W + r" )+): |^ *(?:pub )?(" + W + r"(?: [^=\n:]*)?) =$|^ *(?:pub )?(" + W + r"(?: [^=\n:]*)?) = ", text, re.M):
        for w in re.findall(W, " ".join(g for g in m.groups() if g)):
            out.setdefault(w, "local")
    return out


def parts(name):
    """The words of a name, with what joins them: ['sum', '-', 'of']."""
    name = re.sub(r"(?<=[a-zα-ω0-9₀-₉'])(?=[A-Zℕℤ])", "_", name)
    name = re.sub(r"(?<=[A-Z])(?=[A-Z][a-z])", "_", name)
    return re.split(r"([-_])", name)


def new_name(name, kind, exist):
    if kind == "type" and re.match(r"[A-Z]\w", name):
        return "".join(p[:1].upper() + p[1:] for p in re.split("[-_]", name))
    if re.fullmatch(r"[A-Z][a-z]\w*", name):  # a type, a constructor, a variant
        return name
    if not re.search(r"[\wℕℤ'₀-₉≤≡][-]|[-]\w|[a-zα-ω0-9₀-₉][A-Zℕℤ]", name):
        return name
    ps = parts(name)
    for i in range(0, len(ps), 2):
        if i or not re.match(r"[A-Z]('|[₀-₉]|\d|$)|[A-Z][a-z]", ps[i]):
            if re.match(r"[A-Z]", ps[i]) and not (len(ps[i].strip("'₀₁₂₃₄₅₆₇₈₉0123456789")) == 1 and i and ps[i - 1] == "-"):
                ps[i] = ps[i].lower()
    words = [p if p != "-" else "_" for p in ps]
    for i in range(1, len(ps), 2):  # a lemma's dash between two whole names
        if kind == "lemma" and ps[i] == "-" and {"".join(words[:i]), "".join(words[i + 1 :])} <= exist:
            return "".join(words[:i] + ["-"] + words[i + 1 :])
    return "".join(words)


def turn(text, path, names, skip, plain_names):
    def one(t):
        s = t[0]
        if s.startswith("--"):
            return re.sub(r"`(" + W + r")`", lambda m: "`" + names.get(m[1], m[1]) + "`", s)
        if kept(t) or s in skip:
            return s
        if s in plain_names and re.search(r"(^|[^\w'-])[a-z][^\s(){}.;,]*\.([^\s(){};,]*\.)?$|\)\.$", t.string[max(0, t.start() - 80) : t.start()]):  # a step or a field that Rattle makes: never the name given at a clash
            return plain_names[s]
        return names.get(s, s)

    out, at = [], 0
    for a, b in spans(path, text):
        out += [text[at:a], TOKEN.sub(one, text[a:b])]
        at = b
    return "".join(out) + text[at:]


def plain(name):
    return re.sub(r"(?<=[a-z0-9])(?=[A-Zℕℤ])", "_", name).replace("-", "_").lower()


def tight(text):
    """`f x .p .q` -> `(f x).p.q`, the spelling of a projection."""
    while m := re.search(r"((?:(?:\([^()]*\)|[^\s()]*[^\W\d_][^\s()]*|\d+) )+)((?:\.[a-z0-9]\S*?)(?: \.[a-z0-9]\w*)*)(?=[\s);,]|$)", text):
        atoms, fields = m[1].strip(), m[2].replace(" ", "")
        a, b = m.span()
        inner = a and text[a - 1] == "(" and text[b : b + 1] == ")"
        one = re.fullmatch(r"[^\s()]+|\([^()]*\)", atoms)
        if inner:
            text = text[: a - 1] + (atoms if one else f"({atoms})") + fields + text[b + 1 :]
        else:
            text = text[:a] + (atoms if one else f"({atoms})") + fields + text[b:]
    return text


def edits(names, write):
    """The must-fail edits: a text of antt that no longer stands is turned as its file was, by port.py and here."""
    for p in sorted(glob.glob("crates/*/must-fail/*.edit")):
        lines, now = read(p).split("\n"), None
        for i, l in enumerate(lines):
            m = re.match(r"(file|old|new): (.*)$", l)
            if m and m[1] == "file":
                now = os.path.join(os.path.dirname(os.path.dirname(p)), m[2].strip())
                text = read(now)
                alike = {plain(w): w for w in tokens(now, text)} | {plain(w[0]): w[0] for w in re.finditer(W, text) if now.endswith(".antt")}
            elif m:
                if m[1] == "old":
                    stands = text.count(m[2]) == 1
                if stands and not now.endswith(".antt"):
                    old, text = (m[2], text) if m[1] == "old" else (old, text.replace(old, m[2], 1))
                    continue
                new = tight(m[2].replace("′", "'").replace("·", ".").replace(".specs.specs.", ".specs."))
                new = re.sub(W, lambda w: w[0] if w[0] in text else alike.get(plain(w[0]), names.get(w[0], KITS.get(w[0], w[0]))), new)
                lines[i] = m[1] + ": " + new
                if m[1] == "old" and text.count(new) != 1 and write:
                    print("edit LEFT, by hand:", p, "|", new)
                if m[1] == "old":
                    old = new
                else:
                    text = text.replace(old, new, 1)
        if "\n".join(lines) != read(p) and write:
            with open(p, "w", encoding="utf-8") as f:
                f.write("\n".join(lines))
            print("edit turned:", p)


def labels(text):
    """Clauses named by what they say: `t` by the test that it asks for, and those that are numbered by what they are about."""
    lines, at = text.split("\n"), 0
    clause = re.compile(r"(\s*)(requires|ensures) (\w+) (\{ (.*))$")
    while at < len(lines):
        end = at
        while end < len(lines) and re.match(r"\s*(requires|ensures)\b", lines[end]):
            end += 1
        found = [(i, m) for i in range(at, end) if (m := clause.match(lines[i]))]
        many = {m[3][:-2] for _, m in found if re.search(r"_\d$", m[3])}
        for i, m in found:
            base = re.sub(r"_\d$", "", m[3])
            if base == "t" and (test := re.match(r"T \((?:every is_)?(\w+)", m[5])):
                name = {"digit": "digits"}.get(test[1], test[1])
            elif base in many:
                about = re.search(r"\b([a-z]\w*)\.(?:now|old)\b", m[5]) or re.search(r"\((?:pos )?([a-z]) ", m[5]) or re.search(r" ([a-z]) \}", m[5])
                what = {"window_half": "half", "pos_bound": "bound", "m_in_bounds": "room"}.get(base, base)
                name = f"{about[1]}_{'not_negative' if m[5].startswith('pos 0 ≤ℤ') else what}"
            else:
                continue
            lines[i] = f"{m[1]}{m[2]} {name} {m[4]}"
        at = max(end, at + 1)
    return "\n".join(lines)


def main():
    write = "--check" not in sys.argv
    own = set(os.listdir("crates"))
    files = sorted(f for g in ("specs/**/*.antt", "proofs/**/*.antt", "src/**/*.rt") for f in glob.glob("crates/*/" + g, recursive=True))
    texts = {f: read(f) for f in files}
    kinds, kit, seen = {}, {}, {}
    order = {"type": 0, "def": 1, "field": 2, "local": 3, "lemma": 4}
    for f, t in texts.items():
        seen[f] = tokens(f, t)
        kit[f] = set()
        for m in USE.finditer(t):
            ws = re.split(r"[.]", m[1])
            if not (ws[0] == "Rattle" and ws[1] in own):
                kit[f] |= {w.split(" as ")[-1].strip() for w in m[2].split(",")}
        if f.endswith(".antt"):
            for n, k in declared(t).items():
                if n not in kinds or order[k] < order[kinds[n]]:
                    kinds[n] = k
    exist = {n for n, k in kinds.items() if k in ("type", "def") and "-" not in n} | {re.sub("-", "_", n) for n, k in kinds.items() if k == "def"}
    exist |= {w for s in kit.values() for w in s if re.fullmatch(r"[a-z]+(_[a-zℕℤ]+)?", w)} | {"append"}
    names = {n: new_name(n, k, exist) for n, k in sorted(kinds.items()) if not MADE.match(n) and not re.search(r"^[^\w]*-[ℕℤ]|◌", n)}
    words = set().union(*seen.values()) | set(names.values())
    for n, x in GIVEN.items():
        if n not in names or x in words:
            sys.exit(f"{n}: not here, or {x} is")
    first = dict(names)
    names.update(GIVEN)
    params = {f: set(re.findall(r"\b([a-z_]\w*)\s*:", texts[f])) for f in files if f.endswith(".rt")}
    for turn_no in range(4):  # names that would fall together in some file
        clash = {}
        for f in files:
            by = collections.defaultdict(set)
            for n in seen[f]:
                by[n if n in kit[f] else names.get(n, n)].add(n)
            for x in params.get(f, ()):
                if x in by and by[x] != {x}:
                    by[x].add("parameter " + x)
            for x, ns in by.items():
                if len(ns) > 1:
                    for n in sorted(ns, key=lambda n: (names.get(n, n) != n, order.get(kinds.get(n), 9), n))[1:]:
                        if names.get(n, n) != n and n not in kit[f]:
                            clash.setdefault(n, (x, f, sorted(ns)))
        for n, (x, f, ns) in sorted(clash.items()):
            names[n] = x + ("_lem" if turn_no == 0 and kinds[n] == "lemma" else f"_{turn_no + 2}")
            print(f"falls together: {' '.join(ns)} -> {x} in {f}: {n} becomes {names[n]}")
        if not clash:
            break
    plain_names = {n: x for n, x in first.items() if names[n] != x and kinds[n] != "field"}
    names = {n: x for n, x in names.items() if n != x}
    for n in sorted(names):
        if any(n in kit[f] for f in files):
            print("also a word of the kit, left where a file imports it from there:", n)
    count = 0
    for f in files:
        t = turn(texts[f], f, names, kit[f], plain_names)
        t = labels(t) if f.endswith(".rt") else t
        if t != texts[f]:
            count += 1
            if write:
                with open(f, "w", encoding="utf-8") as out:
                    out.write(t)
    edits(names, write)
    os.makedirs("tools", exist_ok=True)
    with open("tools/renamed.tsv", "w") if write else open(os.devnull, "w") as out:
        out.write("".join(f"{n}\t{x}\n" for n, x in sorted(names.items())))
    print(f"{len(names)} names, {count} files")


main()
