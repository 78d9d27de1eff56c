#!/usr/bin/env python3
"""Counts the places in crates/*/src that read like an older Rattle, for the pass over the design.

usage: python3 tools/places.py [--short] [FOLDER]      FOLDER: the top of a checkout, else this folder

For each of eight points it prints how many places there are, and under each pattern, which stands in words at the head of
its list, every place as `crate/file:line: text`. With --short the places of a crate stand in one line, without their text.
A place is one to look at, which need not be one to change. It reads text, by tools/rattle_text.py: comments, strings and
ghost text do not count as code, and specs/ is not read, nor is proofs/ but for point 8.
"""
import re
import sys
from collections import defaultdict
from difflib import SequenceMatcher
from pathlib import Path
from textwrap import fill
sys.dont_write_bytecode = True
from rattle_text import Source, counted, flat, found, functions, group, grouped, matching, structs, until

LENGTH = r"(?:len|long|length|count|width|entries|used|size|end|capacity|containers)"
WORDS = set("let mut for in if else match return true false as while loop break self Some None Ok Err".split())
PLAIN = r"(return )?([\w:]+|Err\([^!]*\)|Ok\(([\w:]*|\(\))\)|unreachable\(\))"
HAND = r"same|same_bytes|eq|ne|lt|le|cmp|partial_cmp|is_before|is_earlier|clone|copy|default|from|of|to_\w+|into_\w+|numbered|number|meaning|fmt|difference"


def passes_on(arms):
    """A match over an Option or a Result with an arm that only wraps its value again, or one that answers None or Err plainly."""
    if not all(re.match(r"(Some|None|Ok|Err|_)\b", p) for p, _ in arms) or all(v in ("true", "false") for _, v in arms):
        return False
    inner = lambda p: re.escape(p[p.find("(") + 1:-1])
    again = any(re.fullmatch(r"(return )?(Some|Ok|Err)\(" + inner(p) + r"\)", v) for p, v in arms if "(" in p)
    return again or any(re.fullmatch(PLAIN, v) for p, v in arms if re.match("None|Err|_", p))


def let_else(s, m):
    stop = until(s.code, m.end(), ";{")
    return s.code[stop] == "{" and s.code[:stop].rstrip().endswith("else")


def answers_bool(f):
    changes = f.changes_self or any(t.startswith("&mut") for _, t in f.params)
    return f.answer == "bool" and (changes or "refus" in f.above + " ".join(f.clauses))


def shape(f):
    names = {}
    one = lambda m: m[0] if m[0] in WORDS else "0" if m[0][0].isdigit() else names.setdefault(m[0], f"n{len(names)}")
    return [re.sub(r"\w+", one, flat(f.body))] if len([x for x in f.body.split("\n") if len(x.strip()) > 1]) > 1 else []


def two_crates(fs):
    rows = defaultdict(list)
    for f in fs:
        if not f.in_trait and f.name != "main":
            rows[f.name].append(f)
    return [group(g) for g in rows.values() if len({f.source.crate for f in g}) > 1]


def thrice(sources):
    rows = defaultdict(list)
    for s in sources:
        for at, _, _, trait in s.blocks:
            rows[trait].append((s, at))
    return [g[0][0].place(g[0][1], f"impl {t} ~ {', '.join(s.name for s, _ in g[1:])}") for t, g in rows.items() if t and len(g) > 2]


def by_hand(s, m):
    """A `for` over numbers or places, or one over values whose body is only a search, a count, a sum or a fold."""
    head, body = s.code[m.start():until(s.code, m.end(), "{")], s.block(m.end())
    search = re.fullmatch(r"if [^{}]*(\{[^{};]*\}[^{}]*)?\{ return [^{}]*;? \}", body)
    count = re.fullmatch(r"(if [^{}]*\{ )?\w+ (\+=|\|=) [^;]*;( \})?", body)
    return ".." in head or "enumerate()" in head or search or count or re.fullmatch(r"(\w+) = [^;]*\b\1\b[^;]*;", body)


def clauses(f):
    """A function's clauses, without `.old`, `.now`, `.new` and `.entry`, each parameter and the result replaced by its type."""
    texts = {re.sub(r"\.(old|now|new|entry)\b", "", c) for c in f.clauses}
    kind = lambda m: f"<{f.kinds[m[0]]}>" if m[0] in f.kinds else m[0]
    return {(f.source.crate, re.sub(r"(?<![\w.])[a-z]\w*", kind, c)) for c in texts}


def views(f):
    """The repository's own words that a function's clauses apply to a value at a time: what is said of it, or how it is seen."""
    text = "({ " + " } { ".join(f.clauses)
    heads = re.findall(r"[({,×→≡¬&|=] ?(?<![\w.])([A-Za-z_]\w*)(?: [\w.]+)* (?:[a-z]\w*(?:\.\w+)*\.(?:old|now|new|entry)\b|result\b)", text)
    return {(f.source.crate, h) for h in heads if h not in f.source.library}


def travelling(fs):
    """Sets of parameters that stand together in three or more functions: again and again the set that saves most, until none is left."""
    left = {f: {(n, k) for n, k in f.kinds.items() if n != "result"} for f in fs if not f.in_trait}
    places = []
    while True:
        sets = [frozenset(p) for p in left.values() if len(p) > 1]
        rows = [(c, [f for f in left if c <= left[f]]) for c in {a & b for a in sets for b in sets if len(a & b) > 1}]
        rows = [(len(g) * (len(c) - 1), sorted(c), g) for c, g in rows if len(g) > 2]
        if not rows:
            return places
        _, most, members = max(rows, key=lambda r: (r[0], r[1]))
        places.append(group(members, f"{len(members)} functions take {', '.join(': '.join(p) for p in most)}"))
        for f in members:
            left[f] -= set(most)


def nearly(fs):
    """Functions whose bodies of three lines or more have nearly one shape (85 tokens of 100 in order); of one shape the first alone."""
    shapes = {x: f for f in reversed(fs) for x in shape(f) if f.body.count("\n") > 3}
    rows = [(f, re.findall(r"\w+|[^\w\s]", x)) for x, f in reversed(shapes.items())]
    for i, (f, a) in enumerate(rows):
        near = [g for g, b in rows[i + 1:] if (m := SequenceMatcher(None, a, b, False)).quick_ratio() > .85 and m.ratio() > .85]
        if near:
            yield group([f] + near)


def with_length(f):
    return any("[" in t or "Vec<" in t for _, t in f.params) and any(re.fullmatch(LENGTH, n) and t == "usize" for n, t in f.params)


def dispatches(arms):
    """A match over an own enum or words with two or more arms that are a call each."""
    calls = [v for p, v in arms if not re.match(r"(Some|None|Ok|Err)\b", p) and re.fullmatch(r"[\w.:&<>]*\b[a-z]\w*\(.*\)", v)]
    return len(calls) > 1 and not any(v.startswith("Err(") for v in calls)


def points(all_):
    fs = [f for s in all_ for f in s.functions]
    return {
        "1 Own enums, flags, numbers for kinds, matches that a method does": {
            "own enums: `enum NAME`": found(all_, r"\benum \w+"),
            "structs with a bool field beside others": structs(all_, lambda fs: len(fs) > 1 and any(f.endswith(": bool") for f in fs)),
            "matches over an Option or a Result with an arm that passes on its value, or gives a plain one for None or Err": matching(all_, passes_on),
            "`let Some/Ok(..) = .. else`": found(all_, r"\blet (?=Some\(|Ok\(|Err\(|\()", let_else),
            "`if let Ok/Err/Some(..)`": found(all_, r"\bif let (Ok|Err|Some)\("),
            "`if .. { .. } else { None }` and the other way round": found(all_, r"\bif [^{};]*\{ *(\s[^{};]*\} else \{\s*None\s*\}|\s*None\s*\} else \{)"),
            "matches that give true or false for some variants": matching(all_, lambda arms: any(v in ("true", "false") for _, v in arms) and not passes_on(arms)),
            "functions that change something, or refuse, and answer a bool": functions(all_, answers_bool),
            "answers dropped by `let _ =`": found(all_, r"\blet _ ="),
            "comments that tell of a number that stands for none": [s.place(m.start()) for s in all_ for m in re.finditer(r"(?m)//.*\b0\b.*\b(if|where|for|when)\b.*\b(no|none|not|nothing)\b", s.text)],
        },
        "2 Twins": {
            "functions whose bodies of two lines or more have one shape (a group is a place)": grouped(fs, shape, 2),
            "functions whose bodies of three lines or more have nearly one shape (a function and those behind it are a place)": list(nearly(fs)),
            "functions outside traits with one name in two crates (a group is a place)": two_crates(fs),
            "traits that are implemented three times or more": thrice(all_),
        },
        "3 Loops by hand": {
            "`for` over a..b or with enumerate, or whose body is only a search, a count, a sum or a fold": found(all_, r"\bfor [^{;]*? in ", by_hand),
            "`while` and `loop`": found(all_, r"\bwhile\b|\bloop \{"),
        },
        "4 Equality, order, copying, conversion and printing by hand": {
            "functions named " + HAND.replace("|", ", "): functions(all_, lambda f: re.fullmatch(HAND, f.name)),
            "impls of From, Display and the like": found(all_, r"\bimpl\b[^{;]*\b(From|TryFrom|Into|Display|Debug|PartialEq|PartialOrd|Ord|Clone|Default)\b[^{;]* for "),
            "calls of Refusal::of (a crate is a place)": counted(all_, r"\bRefusal::of\(", "Refusal::of"),
            "matches that give a number or a text for each variant": matching(all_, lambda arms: all(re.fullmatch(r"\d\w*|\".*\"", v) for _, v in arms)),
            "comparison field by field": found(all_, r"\b\w+\.(\w+) == \w+\.\1 &&"),
            "a value built again field by field": found(all_, r"\b(\w+): (\w+)\.\1,\s+(\w+): \2\.\3\b"),
            "`as` casts between numbers (a line is a place)": sorted(set(found(all_, r"\bas (u8|u16|u32|u64|usize)\b"))),
        },
        "5 Facts in many contracts, parameters that travel together": {
            "clauses that stand in three or more functions of a crate (a clause is a place)": grouped(fs, clauses, 3, lambda k: "{ " + k[1] + " }"),
            "own words that contracts of three or more functions of a crate apply to a value (a word is a place)": grouped(fs, views, 3, lambda k: k[1]),
            "two or more parameters of equal names and types, but for &, in three or more functions outside traits (a set is a place)": travelling(fs),
        },
        "6 Buffers with a length, fixed arrays": {
            "arrays `[x; N]` and `[T; N]` (a line is a place)": sorted(set(found(all_, r"\[(?!in )[^\[\]();]+; \w+\]"))),
            f"structs with a field that is a length ({LENGTH[3:-1].replace('|', ', ')})": structs(all_, lambda fs: any(re.search(rf"\b{LENGTH}: usize$", f) for f in fs)),
            "functions with a slice or Vec and a length beside it": functions(all_, with_length),
        },
        "7 A switch on which step to run": {
            "matches over an own enum or words, two or more of whose arms are a call": matching(all_, dispatches),
            "`fn(` types, dyn, and comparison with a word": found(all_, r"\bfn\(|\bdyn |== \""),
        },
    }


def proofs(top):
    rows = [(c.name, [p.read_text().count("\n") for p in sorted((c / "proofs").rglob("*.antt"))]) for c in sorted(top.glob("crates/*"))]
    print(f"\n### 8 Proofs: {sum(len(r) for _, r in rows)} files, {sum(sum(r) for _, r in rows)} lines\n")
    print("\n".join(f"- {name}: {len(r)} files, {sum(r)} lines" for name, r in rows if r))


def main(words):
    short, folders = "--short" in words, [w for w in words if w != "--short"]
    top = Path(folders[0] if folders else ".")
    sources = [Source(p.relative_to(top / "crates").parts[0], p) for p in sorted(top.glob("crates/*/src/**/*.rt"))]
    for title, patterns in points(sources).items():
        print(f"\n### {title}: {sum(len(ps) for ps in patterns.values())} places")
        for pattern, places in patterns.items():
            print("\n" + fill(f"{pattern}: {len(places)}", 125, break_on_hyphens=False) + "\n" * bool(places))
            crates = defaultdict(list)
            for name, line, text in sorted(places):
                crates[name.split("/")[0]].append(f"{name.split('/')[1]}:{line}" + f" {text}" * (" ~ " in text))
                print("" if short else f"{name}:{line}: {text}\n", end="")
            for crate, at in crates.items() if short else ():
                print(fill(f"- {crate}: {len(at)} ({('; ' if '~' in str(at) else ', ').join(at)})", 125, subsequent_indent="  ", break_on_hyphens=False))
    proofs(top)


main(sys.argv[1:])
