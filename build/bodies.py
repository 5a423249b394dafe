"""Wrong bodies of the crates, as must-fail/ has them: which function each changes, and what of a crate the crates above it see.

A body is a file of lines `file: src/a.rt`, `old: TEXT` (standing once in that file) and `new: TEXT`; further pairs apply to what the
earlier ones made. A line `alone: WHY` says that it can't be tried together with others."""
import functools
import hashlib
import os
import re
from typing import NamedTuple

from libraries import TOP, below, known_crates, logic_of, toolchain

PARTS = ("src", "specs", "proofs")


# A function of a source file: what it is called by there, the words of which rattle makes its name, where its text, its body and its end
# are, the cycle that it is of, and whether other crates can call it.
class Function(NamedTuple):
    key: str
    words: list[str]
    start: int
    body: int
    end: int
    cycle: str | None
    public: bool


# what is no code: comments, texts and characters
BLANKED = re.compile(r'//[^\n]*|/\*.*?\*/|b?r(#*)".*?"\1|b?"(?:\\.|[^"\\])*"|(?<![A-Za-z0-9_])b?\'(?:\\[^\n\']*|[^\\\'\n])\'', re.S)
# braces behind these words are a clause's, and no body
CLAUSE = re.compile(r"\b(requires|ensures|ghost)\b[^{};]*$")
TOKEN = re.compile(r"\bfn\s+(\w+)|\bimpl\b|\b(?:mod|trait)\s+(\w+)|[{}]")
CYCLE = re.compile(r"#\[cycle\((\w+)\)\]")
PUBLIC = re.compile(r"\bpub\b(?!\()")
# what no other crate sees: what names stand for, how a function is proved, and how a value is kept
INSIDE = re.compile(r"^ *use [^;]*;|#\[tactic\(.*?\)\]", re.M | re.S)
KEPT = re.compile(r"\bghost (?:view|coded|invariant) = (?=\{)")
NAMED = re.compile(r"\bghost use ([^;{]*)\{([^};]*)\};")
STRUCT = re.compile(r"(\bstruct \w+[^{};()]*\{\n)([^}]*)\}")
FIELD = re.compile(r"^(?=    (?:pub\b|\w+:))", re.M)
# the release that a program prints, on which no body depends
RELEASE = re.compile(r'^(const VERSION: &str = "\w+ )[\d.]+', re.M)


def read(path: str) -> str:
    with open(path, encoding="utf-8") as file:
        return file.read()


def files_below(folder: str) -> list[str]:
    return sorted(os.path.join(place, name) for place, _, names in os.walk(folder) for name in names)


def type_word(text: str) -> str:
    """A type as rattle names it in a function's name: its last word, without its arguments."""
    plain = re.sub(r"'\w+\s*,?\s*|&|\bmut\b", "", text).strip()
    return re.sub(r"<.*", "", plain, flags=re.S).split("::")[-1].strip()


def impl_word(head: str) -> str:
    """What stands for an impl in the names of its functions (a pattern): the type, and behind it the trait."""
    head = re.sub(r"\bwhere\b.*", "", head, flags=re.S).strip()
    if head.startswith("<"):
        depth = 0
        for place, char in enumerate(head):
            if char == "<":
                depth += 1
            elif char == ">" and head[place - 1] != "-":
                depth -= 1
            if depth == 0:
                head = head[place + 1:].strip()
                break
    trait, is_for, of = head.partition(" for ")
    if not is_for:
        return type_word(trait)
    return type_word(of) + type_word(trait) + ("\\w*" if "<" in trait else "")


def closing(text: str, brace: int) -> int:
    """The place behind the brace that closes the one at a place."""
    depth = 0
    for it in re.finditer(r"[{}]", text[brace:]):
        depth += 1 if it[0] == "{" else -1
        if depth == 0:
            return brace + it.end()
    return len(text)


def body_of(text: str, start: int) -> tuple[int, int]:
    """Where the body of a function begins and ends whose name ends at a place; a function without one is all before its semicolon."""
    depth, behind = 0, start
    for mark in re.finditer(r"[()\[\]{;]", text[start:]):
        place = start + mark.start()
        if place < behind:
            continue
        depth += {"(": 1, "[": 1, ")": -1, "]": -1}.get(mark[0], 0)
        if depth == 0 and mark[0] == ";":
            return place + 1, place + 1
        if depth == 0 and mark[0] == "{":
            if not CLAUSE.search(text[behind:place]):
                return place, closing(text, place)
            behind = closing(text, place)
    return len(text), len(text)


@functools.lru_cache(maxsize=2048)
def functions(path: str, text: str) -> list[Function]:
    """The functions of a source file that stand in no function, in their order."""
    text = BLANKED.sub(lambda it: re.sub(r"[^\n]", " ", it[0]), text)
    module = path.removeprefix("src/").removesuffix(".rt").removesuffix("/mod").split("/")
    # (for each brace around a place the words of the names around it, and whether it is a trait's or that of an impl of one)
    around: list[tuple[list[str], bool] | None] = [([] if module in (["lib"], ["main"]) else module, False)]
    opening: tuple[list[str], bool] | None = None
    found, at = [], 0
    while it := TOKEN.search(text, at):
        at = it.end()
        if it[0] == "{":
            around.append(opening)
            opening = None
            continue
        if it[0] == "}":
            around.pop()
            continue
        if around[-1] is None:
            continue
        words, of_trait = around[-1]
        if it[1]:
            body, end = body_of(text, at)
            # (rattle's notes name the line at which a function's attributes begin)
            head = text[max(text.rfind(mark, 0, it.start()) for mark in "{};") + 1:it.start()]
            start = it.start() - len(head.lstrip())
            cycle = CYCLE.search(head)
            words = [*words, it[1]]
            is_public = of_trait or bool(PUBLIC.search(head))
            found.append(Function("::".join(words), words, start, body, end, cycle[1] if cycle else None, is_public))
            at = end
        elif it[2]:
            opening = ([*words, it[2]], it[0].startswith("trait")) if text[at:].lstrip()[:1] != ";" else None
        else:
            brace = text.index("{", at)
            opening = ([*words, "@" + impl_word(text[at:brace])], " for " in text[at:brace])
            at = brace
    return found


def named(text: str) -> str:
    """A source's text in which each `ghost use` brings in those names alone that its block says."""
    made, at = [], 0
    for it in NAMED.finditer(text):
        depth, end = 1, it.end()
        while depth and end < len(text):
            depth += {"{": 1, "}": -1}.get(text[end], 0)
            end += 1
        block = NAMED.sub("", text[it.end():end])
        used = [name for name in it[2].split(", ")
                if re.search(r"(?<!\w)" + re.escape(name.split(" as ")[-1].strip("◌")) + r"(?!\w)", block)]
        made.append(text[at:it.start()] + (f"ghost use {it[1]}{{{', '.join(used)}}};" if used else ""))
        at = it.end()
    return "".join(made) + text[at:]


def stated(path: str, text: str) -> str:
    """What the crates above can see of a source file: without the bodies of its functions, without those that they can't call, and without
    the fields that they can't name, comments, and what names stand for."""
    kept, at = [], 0
    for function in functions(path, text):
        kept.append(text[at:function.body if function.public else function.start])
        at = function.end
    said = "".join([*kept, text[at:]])
    said = BLANKED.sub(lambda it: "" if it[0].startswith(("//", "/*")) else it[0], said)
    said = STRUCT.sub(lambda it: it[1] + "".join(field for field in FIELD.split(it[2]) if PUBLIC.match(field.lstrip())) + "}", said)
    while it := KEPT.search(said):
        said = said[:it.start()] + said[closing(said, it.end()):].removeprefix(";")
    return re.sub(r"\s+", " ", named(INSIDE.sub("", said)))


# What the crates above a crate can see of it: a source file's statement, or one declaration of a file of definitions, with the names by
# which they are called and how they are written there, in a text that brings in nothing.
class Part(NamedTuple):
    crate: str
    path: str
    text: str
    names: frozenset[str]


# From where a text takes a name: the crate, the place among its definitions, and the name there.
class Taken(NamedTuple):
    crate: str
    place: str
    name: str | None


# from where a text takes each of its names, and a part with those that it takes
Names = dict[str, set[Taken]]
Seen = tuple[Part, Names]

ITEM = re.compile(r"\bpub(?:\(\w+\))? (?:unsafe |const )*(?:struct|enum|trait|fn|const|static|type) (\w+)")
IMPL = re.compile(r"\bimpl\b([^{;]*)\{")
# in a crate's first file these say where its parts stand, which names tell themselves
LISTED = re.compile(r"\b(?:pub(?:\(\w+\))? )?mod \w+;|\bpub use (?![^;]* as )[^;]*;")
RENAMED = re.compile(r"\bpub use [^;]* as (\w+)")
# what is no definition: a comment (a text may have its dashes)
REMARK = re.compile(r'"(?:\\.|[^"\\])*"|--[^\n]*')
BROUGHT = re.compile(r"(?m)^ *(?:pub )?(?:ghost )?use Rattle\.(\w+)\.specs\.([\w.]+?)(?:\.\{([^}]*)\}| as (\w+))?;?$")
DECLARED = re.compile(r"(?:(?:abbrev|unfoldable|pub) )*(?:(?:record|data) ([^\s:]+)|([^\s:({]+)(?:(?! = ).)*?:|(?:module|infix[lr]?)\b)")
INNER = re.compile(r"^ +(?:(?:abbrev|unfoldable|pub) )*(?:record |data )?([^\s:({]+)(?: [^=]*)? : ")
WORD = re.compile(r"[^\s(){},;.]+")


def names_in(text: str) -> set[str]:
    """The names that a source's statement gives to what other crates call: of its items, and of the types that it has methods of."""
    types, items, at = set(), [], 0
    for it in IMPL.finditer(text):
        plain, is_for, of = re.sub(r"<[^<>]*(?:<[^<>]*>[^<>]*)*>", "", it[1]).partition(" for ")
        types.add(type_word(of if is_for else plain))
        # (methods are called by their types)
        items.append(text[at:it.start()])
        at = closing(text, it.end() - 1)
    return {*ITEM.findall(" ".join([*items, text[at:]])), *RENAMED.findall(text), *types}


def declarations(text: str) -> list[tuple[set[str], str]]:
    """The declarations of a file of definitions, each with the names by which it is called: a record's and a module's inner ones too."""
    found = []
    for line in text.splitlines():
        is_new = line and line[0] not in " })" and DECLARED.match(line)
        if is_new:
            found.append(({(is_new[1] or is_new[2] or "").strip("◌")}, [line]))
        elif line.strip() and not line.lstrip().startswith(("use ", "pub use ", "pub mod ")) and found:
            inner = INNER.match(line)
            found[-1][0].update({inner[1].strip("◌")} if inner else ())
            found[-1][1].append(line)
    return [(names, re.sub(r"\s+", " ", " ".join(lines)).strip()) for names, lines in found]


def taken_by(text: str) -> Names:
    """From where a text of sources or definitions takes which names of it."""
    found: Names = {}
    for it in BROUGHT.finditer(text):
        crate, place, names, other = it.groups()
        for name in (names or "").split(", ") if names else [None]:
            own, _, alias = (name or other or place.split(".")[-1]).partition(" as ")
            found.setdefault((alias or own).strip("◌"), set()).add(Taken(crate, place, own if name else None))
    return found


@functools.cache
def parts(crate: str) -> tuple[Seen, ...]:
    """What the crates above a crate can see of it, and of each part from where it takes which names."""
    folder, found = f"{TOP}/crates/{crate}", []
    for path in files_below(f"{folder}/src"):
        inside, whole = os.path.relpath(path, folder), read(path)
        text = LISTED.sub("", stated(inside, whole)).strip()
        if text:
            found.append((Part(crate, inside, BROUGHT_INLINE.sub("", text), frozenset(names_in(text))), taken_by(whole)))
    for path in files_below(f"{folder}/specs"):
        text = REMARK.sub(lambda it: "" if it[0].startswith("--") else it[0], read(path))
        taken = taken_by(text)
        found += [(Part(crate, os.path.relpath(path, folder), said, frozenset(names)), taken) for names, said in declarations(text)]
    return tuple(found)


# a statement's own lines that bring names in, which may name where these stood
BROUGHT_INLINE = re.compile(r"ghost use Rattle\.[^;]*; ?")


@functools.cache
def by_file(crate: str) -> dict[str, list[Seen]]:
    found: dict[str, list[Seen]] = {}
    for part, taken in parts(crate):
        found.setdefault(part.path, []).append((part, taken))
    return found


def parts_taken(taken: Taken, libraries_below: list[str]) -> list[Seen]:
    """The parts that a text takes by such a name; all that may be meant where the place doesn't tell it."""
    words, files = taken.place.split("."), by_file(taken.crate)
    is_source = words[0] == "declared"
    folder, words, ending = ("src", words[1:], "rt") if is_source else ("specs", words, "antt")
    for count in range(len(words), 0, -1):
        for end in (f".{ending}", f"/mod.{ending}"):
            mine = files.get(f"{folder}/{'/'.join(words[:count])}{end}")
            if mine:
                wanted = {*words[count:], (taken.name or "").strip("◌")}
                return mine if is_source else [it for it in mine if it[0].names & wanted] or mine
    if is_source:
        # (what stands in the first file is declared under no module)
        return [it for path in ("src/lib.rt", "src/main.rt") for it in files.get(path, ())] or list(parts(taken.crate))
    # (definitions of a lower crate that this one gives on)
    return [it for name in libraries_below for path, mine in by_file(name).items() if path == f"specs/{words[0]}.antt" for it in mine]


def seen_by(crate: str) -> list[Part]:
    """The parts of the crates below that a crate's sources and definitions name, and those that these name in turn."""
    folder, libraries_below = f"{TOP}/crates/{crate}", below(crate)
    called: dict[str, list[Seen]] = {}
    for it in (it for name in libraries_below for it in parts(name)):
        for name in it[0].names if it[0].path.startswith("src/") else ():
            called.setdefault(name, []).append(it)
    own = [(path, read(path)) for part in ("src", "specs") for path in files_below(f"{folder}/{part}")]
    texts: list[tuple[str, bool, Names, str, str | None]]
    texts = [(BLANKED.sub(" ", text) if path.endswith(".rt") else text, path.endswith(".rt"), taken_by(text), crate, None)
             for path, text in own]
    found: dict[Part, None] = {}
    while texts:
        text, is_source, taken, home, path = texts.pop()
        words = set(WORD.findall(text)) | set(re.findall(r"\w+", text))
        more = [it for word in words for one in taken.get(word.strip("◌"), ()) if one.crate in libraries_below
                for it in parts_taken(one, libraries_below)]
        # (operators stand between blanks, and a definition calls its neighbours by their names)
        more += [seen for seen in by_file(home).get(path, ()) if not is_source and seen[0].names & words] if path else []
        more += [it for word in words for it in called.get(word, ())] if is_source else []
        for part, its in more:
            if part not in found:
                found[part] = None
                texts.append((part.text, part.path.startswith("src/"), its, part.crate, part.path))
    return list(found)


def sum_of_trial(crate: str) -> str:
    """A sum of all that says whether a crate's bodies are wrong: its sources and definitions, the bodies, what it can see of the crates
    below, wherever that is there, and the logic. Proofs are none of it, nor what a toolchain is called: where a body breaks a contract no
    proof can help it. Nor is the number of the release."""
    folder, total = f"{TOP}/crates/{crate}", hashlib.sha256(f"{logic_of(toolchain())} {known_crates()[crate]}\n".encode())
    for part in ("src", "specs", "must-fail"):
        for path in files_below(f"{folder}/{part}"):
            text = RELEASE.sub(r"\1", read(path))
            total.update(f"{os.path.relpath(path, folder)}\n{text}".encode())
    for text in sorted(part.text for part in seen_by(crate)):
        total.update(f"{text}\n".encode())
    return total.hexdigest()


class Body:
    """A wrong body: its file of must-fail, the texts that it changes, the functions in which they stand, and why it stands alone, if it
    does."""

    def __init__(self, crate: str, file: str) -> None:
        self.crate, self.file = crate, file
        self.pairs: list[tuple[str, str, str]] = []
        self.places: list[tuple[str, str]] = []
        self.alone: str | None = None
        self.bad: str | None = None
        self.read_pairs(read(f"{TOP}/crates/{crate}/must-fail/{file}"))
        self.texts: dict[str, str] = {}
        self.taken: set[str | tuple[str, str]] = set()
        if not self.pairs:
            self.bad = "it has no old and new text"
        for pair in self.pairs:
            self.bad = self.bad or self.add(f"{TOP}/crates/{crate}", *pair)
        for path, key in self.places:
            self.taken |= {function.cycle or (path, key) for function in functions(path, self.texts[path]) if function.key == key}

    def read_pairs(self, text: str) -> None:
        """Notes the old and new texts that a file of must-fail has, and why the body stands alone."""
        path, old = "", None
        for line in text.split("\n"):
            word, _, rest = line.partition(": ")
            if word == "file":
                path = rest.strip()
            elif word == "old":
                old = rest
            elif line.startswith("new:") and path and old:
                self.pairs.append((path, old, line.removeprefix("new:").removeprefix(" ")))
                old = None
            elif word == "alone":
                self.alone = rest

    def add(self, folder: str, path: str, old: str, new: str) -> str | None:
        """Applies a pair and notes the function that it changes; why it can't be applied, else nothing."""
        if path not in self.texts:
            if not os.path.isfile(f"{folder}/{path}"):
                return f"there is no {path}"
            self.texts[path] = read(f"{folder}/{path}")
        text = self.texts[path]
        if text.count(old) != 1:
            return f"its old text stands {text.count(old)} times in {path}"
        same = len(os.path.commonprefix([old, new]))
        # (where a text is added, the last letter that stays tells the place)
        changed = text.index(old) + min(same, len(old) - 1)
        inside = [it for it in functions(path, text) if it.body <= changed < it.end]
        if not inside:
            line = text[:changed].count("\n") + 1
            self.alone = self.alone or f"it changes no function's body, but {path}:{line}"
        self.places += [(path, it.key) for it in inside if (path, it.key) not in self.places]
        self.texts[path] = text.replace(old, new)
        return None


def bodies_of(crate: str) -> list[Body]:
    folder = f"{TOP}/crates/{crate}/must-fail"
    names = sorted(os.listdir(folder)) if os.path.isdir(folder) else []
    return [Body(crate, name) for name in names if name.endswith((".edit", ".md"))]


def together(crate: str, bodies: list[Body]) -> list[list[Body]]:
    """The bodies in batches, of which each has at most one body a function; those that stand alone come last, each by itself."""
    made: list[list[Body]] = []
    for body in bodies:
        if body.alone:
            continue
        for batch in made:
            if not any(body.taken & other.taken for other in batch) and texts_with(crate, [*batch, body]):
                batch.append(body)
                break
        else:
            made.append([body])
    return made + [[body] for body in bodies if body.alone]


def texts_with(crate: str, bodies: list[Body]) -> dict[str, str] | None:
    """The texts of the files that bodies change, with all of them put in; nothing where an old text doesn't stand once there any more."""
    texts: dict[str, str] = {}
    for path, old, new in (pair for body in bodies for pair in body.pairs):
        text = texts.get(path) or read(f"{TOP}/crates/{crate}/{path}")
        if text.count(old) != 1:
            return None
        texts[path] = text.replace(old, new)
    return texts
