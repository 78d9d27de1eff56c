"""Reads Rattle files as text, for tools/places.py: which parts are code, the clauses, functions, matches and blocks, and queries over them."""
import re
from collections import defaultdict

OPEN, CLOSE = "([{", ")]}"


def closing(text, at):
    """The place behind the bracket that closes the one at `at`."""
    depth = 0
    for i in range(at, len(text)):
        depth += (text[i] in OPEN) - (text[i] in CLOSE)
        if depth == 0:
            return i + 1
    return len(text)


def until(text, at, stops):
    """The first place of one of `stops` outside all brackets from `at` on, or where the bracket around it closes."""
    while at < len(text) and text[at] not in stops and text[at] not in CLOSE:
        at = closing(text, at) if text[at] in OPEN else at + 1
    return at


def split(text):
    """The parts between commas that stand outside all brackets, pointed ones too."""
    depth, parts = 0, [""]
    for i, c in enumerate(text):
        depth += (c in OPEN + "<") - (c in CLOSE or c == ">" and text[i - 1] not in "-=")
        if c == "," and depth == 0:
            parts.append("")
        else:
            parts[-1] += c
    return [flat(p) for p in parts if p.strip()]


def flat(text):
    return " ".join(text.split())


def blank(text):
    return re.sub(r"[^\n]", " ", text)


class Function:
    def __init__(self, source, match):
        code, self.source, self.at, self.name = source.code, source, match.start(), match[1]
        start = match.end()
        while code[start] != "(":  # past the type parameters
            depth = 0
            while True:
                depth += (code[start] == "<") - (code[start] == ">" and code[start - 1] != "-")
                start += 1
                if depth == 0:
                    break
        end = closing(code, start)
        stop = until(code, end, "{;")
        parts = split(code[start + 1:end - 1])
        self.changes_self = bool(parts) and parts[0] == "&mut self"
        self.params = [tuple(flat(x) for x in p.split(":", 1)) for p in parts if ":" in p]
        self.kinds = {name: re.sub(r"^&(mut )?", "", kind) for name, kind in self.params}
        self.answer = flat(code[end:stop]).removeprefix("-> ")
        self.end = closing(code, stop) if code[stop] == "{" else stop
        self.body = code[stop + 1:self.end - 1] if code[stop] == "{" else ""
        self.kinds["result"] = self.answer
        self.clauses = [text for at, text in source.clauses if end <= at < stop]
        self.in_trait = any(a < self.at < b and kind != "impl" for a, b, kind, _ in source.blocks)
        head = source.text[:source.text.rfind("\n", 0, self.at) + 1]
        self.above = re.search(r"(?:[ \t]*//[^\n]*\n)*\Z", head)[0]


class Source:
    """A file: its text, its code (equally long, blank where there is ghost text, a comment or the inside of a string)."""

    def __init__(self, crate, path):
        self.crate, self.name, self.text = crate, f"{crate}/{path.name}", path.read_text()
        self.code = re.sub(r"//[^\n]*|\"(?:\\.|[^\"\\])*\"|'(?:\\.|[^'\\])'",
                           lambda m: blank(m[0]) if m[0][0] == "/" else m[0][0] + blank(m[0][1:-1]) + m[0][-1], self.text)
        self.library = set(re.findall(r"[\w-]+", " ".join(re.findall(r"ghost use Rattle\.std\.[^;]*;", self.text))))
        self.clauses = []
        for m in re.finditer(r"\bghost use [^;]*;|\bghost\b[^{;]*\{|\b(requires|ensures|invariant|decreases)\*?(?: \w+)?\s*\{", self.code):
            end = m.end() if m[0].endswith(";") else closing(self.code, m.end() - 1)
            if m[1] in ("requires", "ensures"):
                self.clauses.append((m.start(), flat(self.text[m.end():end - 1])))
            self.code = self.code[:m.start()] + blank(self.code[m.start():end]) + self.code[end:]
        self.blocks = []  # start, end, kind (impl, trait, or impl of a trait), the trait that is implemented
        for m in re.finditer(r"^\s*(?:pub(?:\([^)]*\))? )?(impl|trait)\b([^{;]*)\{", self.code, re.M):
            trait = re.search(r"([\w:]+)(?:<[^{]*>)? for ", m[2]) if m[1] == "impl" else None
            kind = "impl of a trait" if trait else m[1]
            self.blocks.append((m.start(1), closing(self.code, m.end() - 1), kind, trait and trait[1]))
        self.functions = [Function(self, m) for m in re.finditer(r"\bfn (\w+)", self.code)]
        starts = [(m.start(), until(self.code, m.end(), "{")) for m in re.finditer(r"\bmatch ", self.code)]
        self.matches = [(at, list(self.arms(brace + 1, closing(self.code, brace) - 1))) for at, brace in starts]

    def arms(self, at, end):
        """The arms between two places: pattern and value."""
        while True:
            while at < end and self.code[at] in " \n,":
                at += 1
            arrow = self.code.find("=>", at, end)
            if arrow < 0:
                return
            start = arrow + 2
            while self.code[start] in " \n":
                start += 1
            stop = closing(self.code, start) if self.code[start] == "{" else until(self.code, start, ",")
            yield flat(self.code[at:arrow]), flat(self.text[start:stop])
            at = stop

    def block(self, at):
        """The inside of the next braces from `at` on."""
        start = until(self.code, at, "{")
        return flat(self.code[start + 1:closing(self.code, start) - 1])

    def place(self, at, note=""):
        """A place as it is printed: file, line, and the line's text or a note."""
        start = self.text.rfind("\n", 0, at) + 1
        return self.name, self.text.count("\n", 0, at) + 1, note or flat(self.text[start:].split("\n", 1)[0])


def found(sources, pattern, test=lambda s, m: True):
    return [s.place(m.start()) for s in sources for m in re.finditer(pattern, s.code) if test(s, m)]


def counted(sources, pattern, what):
    """How often a pattern stands in each crate, a crate as one place."""
    rows = defaultdict(list)
    for s in sources:
        rows[s.crate] += found([s], pattern)
    return [ps[0][:2] + (f"{what} ~ {len(ps)} times",) for ps in rows.values() if ps]


def structs(sources, test):
    return found(sources, r"\bstruct \w+[^{;(]*(?=\{)", lambda s, m: test(split(s.block(m.end()))))


def matching(sources, test):
    return [s.place(at) for s in sources for at, arms in s.matches if arms and test(arms)]


def functions(sources, test):
    return [f.source.place(f.at) for s in sources for f in s.functions if test(f)]


def group(fs, note=""):
    """Some functions as one place: the first of them, and where the others stand."""
    fs = sorted(fs, key=lambda f: (f.source.name, f.at))
    name, line, _ = fs[0].source.place(fs[0].at)
    return name, line, f"{note or fs[0].name} ~ " + ", ".join("%s:%d %s" % (f.source.place(f.at)[:2] + (f.name,)) for f in fs[1:])


def grouped(fs, key, few, note=lambda k: ""):
    rows = defaultdict(list)
    for f in fs:
        for k in key(f):
            rows[k].append(f)
    return [group(g, note(k)) for k, g in rows.items() if len(g) >= few]
