#!/usr/bin/env python3
"""house.py [--in FOLDER] [--list NAME | --behind CRATE::FUNCTION]: how hard the repository is to read, in numbers.

Prints a line with a name and a number for each thing that is counted, in an order that stays. `--list NAME` prints the
entries behind a number instead, and `--behind CRATE::FUNCTION` how many definitions the contract of a function stands
on, how many files have them, and how deep they go. `--in FOLDER` counts another checkout.

It reads the sources as text and proves nothing. bench/README.md says how each number is counted."""
import argparse, bisect, functools, itertools, pathlib, re, sys
from collections import Counter, defaultdict
from dataclasses import dataclass

TOP = pathlib.Path(__file__).resolve().parent.parent
MOST_ARGUMENTS = 6
WIDEST_CLAUSE = 160
LEAST_TWICE = 15
LEAST_FORMS = 4
ANSWERS = ("Answers.antt", "Invariants.antt", "Proof.antt")
NUMBERS = ("92", "26")
HOLDS_NUMBERS = "command_tables"
WITH_CONTRACT = ("replay_tool::replay_main", "threads_tool::threads_main")
TAKES_LINE = "replay_core::Player::play_line"
OPTION_VIEW = re.compile(r"λ (\w+)\. \1\.value\.kept\b")

# ---- text


@dataclass(eq=False)
class File:
    """A source: its text, and the same with blanks for comments and texts in quotes, so that places stay."""
    path: pathlib.Path
    crate: str
    folder: str
    text: str
    code: str

    @functools.cached_property
    def lines(self):
        return self.text.split("\n")

    @functools.cached_property
    def ends(self):
        """The place behind each line."""
        return list(itertools.accumulate(len(line) + 1 for line in self.lines))

    def line(self, place):
        """The number of the line at a place of the text, from 1."""
        return bisect.bisect_right(self.ends, place) + 1

    def between(self, begin, end):
        """The lines between two places."""
        return self.lines[self.line(begin) - 1:self.line(end)]

    def at(self, place):
        """The path and the line of a place."""
        return f"{self.path}:{self.line(place)}"


QUOTED = r'b?"(?:\\.|[^"\\])*"'
RUST_BLANK = re.compile(rf'//[^\n]*|/\*.*?\*/|b?r#+".*?"#+|{QUOTED}|b?\'(?:\\[^\n]+?|[^\\\'\n])\'', re.S)
ANTT_BLANK = re.compile(rf"--[^\n]*|{QUOTED}", re.S)


def blanked(text, pattern):
    """The text with blanks for what a pattern finds. Of a text in quotes the quotes stay."""
    def blank(found):
        word = re.sub(r"[^\n]", " ", found.group())
        return '"' + word[1:-1] + '"' if found.group()[-1] == '"' and len(word) > 1 else word
    return pattern.sub(blank, text)


def read(top):
    """Each source of the repository, in the order of paths."""
    found = []
    for path in sorted(top.glob("crates/*/*/**/*.*t*")):
        folder = path.relative_to(top).parts[2]
        if (path.suffix, folder) in ((".rt", "src"), (".antt", "specs"), (".antt", "proofs")):
            text = path.read_text()
            code = blanked(text, RUST_BLANK if path.suffix == ".rt" else ANTT_BLANK)
            found.append(File(path.relative_to(top), path.relative_to(top).parts[1], folder, text, code))
    return found


BRACKETS = re.compile(r"[()\[\]{}]")
ANGLES = re.compile(r"->|=>|[<>]")


def behind(code, begin):
    """The place behind the bracket that closes the one at a place."""
    depth = 0
    for found in BRACKETS.finditer(code, begin):
        depth += 1 if found.group() in "([{" else -1
        if depth == 0:
            return found.end()
    return len(code)


def behind_angles(code, begin):
    """The place behind the angle bracket that closes the one at a place; `->` closes none."""
    depth = 0
    for found in ANGLES.finditer(code, begin):
        depth += {"<": 1, ">": -1}.get(found.group(), 0)
        if depth == 0:
            return found.end()
    return len(code)


def parted(code):
    """A list's elements: what stands between the commas that are in no brackets."""
    found, depth, last = [], 0, 0
    for mark in re.finditer(r"->|=>|[()\[\]{}<>,]", code):
        if mark.group() == "," and depth == 0:
            found.append(code[last:mark.start()])
            last = mark.end()
        elif mark.group() in "([{<":
            depth += 1
        elif mark.group() in ")]}>":
            depth -= 1
    return [part.strip() for part in [*found, code[last:]] if part.strip()]


# ---- functions

@dataclass(eq=False)
class Clause:
    """A `requires` or an `ensures`: where it stands, its words, and its lines."""
    file: File
    begin: int
    words: str
    lines: list

    @property
    def width(self):
        """The columns of its widest line."""
        return max(map(len, self.lines))

    def __str__(self):
        return f"{self.file.at(self.begin)}: {self.width} columns: {self.lines[0].strip()[:80]}"


@dataclass(eq=False)
class Function:
    """A function: where it stands, what it belongs to, its arguments without self, its clauses and its body."""
    file: File
    name: str
    begin: int
    end: int
    owner: str
    is_public: bool
    has_self: bool
    arguments: list
    head: str
    clauses: list
    body: str

    @property
    def is_test(self):
        """Whether a test's mark stands above it."""
        return "#[test]" in self.file.between(max(self.begin - 20, 0), self.begin)

    @property
    def words(self):
        """Its head and its body, without clauses and comments."""
        return self.head + self.body

    def __str__(self):
        owner = f"{self.owner}::" if self.owner else ""
        return f"{self.file.at(self.begin)}: {self.file.crate}::{owner}{self.name}"


FUNCTION = re.compile(r"\bfn (\w+)\s*(?=[(<])")
SELF = re.compile(r"(?:&\s*(?:'\w+ )?)?(?:mut )?self\b")
CLAUSE = re.compile(r"[({\[;]|\b(?:requires|ensures)\b[^{;]*(?=\{)")
BLOCK = re.compile(r"^(?:pub(?:\([a-z ]+\))? )?(impl|trait)\b", re.M)


def blocks(file):
    """The impls and traits of a file: begin, end, the type or trait, and whether it is a public trait."""
    found = []
    for mark in BLOCK.finditer(file.code):
        begin = mark.end()
        if file.code[begin] == "<":
            begin = behind_angles(file.code, begin)
        brace = file.code.find("{", begin)
        of = re.split(r"\bfor\b", file.code[begin:brace])[-1]
        name = re.match(r"(?:\w+::)*(\w+)", of.strip().lstrip("&"))
        is_public = mark.group().startswith("pub ") and mark.group(1) == "trait"
        found.append((mark.start(), behind(file.code, brace), name.group(1) if name else of.strip(), is_public))
    return found


def clauses_of(file, begin):
    """The clauses behind a function's arguments, where they begin, and where the body begins or the function ends."""
    code, found, first, place = file.code, [], None, begin
    while mark := CLAUSE.search(code, place):
        if mark.group() in "{;":
            break
        place = behind(code, mark.start())
        if mark.group() not in "([":
            first = first or mark.start()
            place = behind(code, mark.end())
            lines = file.between(mark.start(), place - 1)
            found.append(Clause(file, mark.start(), code[mark.end():place], lines))
    return found, first or mark.start(), mark.start()


def function_at(file, mark, around):
    """The function whose head is found in a file that has these impls and traits."""
    code, place = file.code, mark.end()
    if code[place] == "<":
        place = code.index("(", behind_angles(code, place))
    end = behind(code, place)
    listed = parted(code[place + 1:end - 1])
    others = [a for a in listed if not SELF.match(a)]
    clauses, first, body = clauses_of(file, end)
    inside = [b for b in around if b[0] < mark.start() < b[1]]
    owner, is_public = inside[-1][2:] if inside else (None, False)
    is_public = is_public or code[:mark.start()].endswith(("pub ", "pub const "))
    end = behind(code, body) if code[body] == "{" else body
    head = code[mark.start():first]
    return Function(file, mark.group(1), mark.start(), end, owner, is_public, len(others) < len(listed), others, head,
                    clauses, code[body:end])


def functions_of(file):
    """The functions of a file."""
    around = blocks(file)
    return [function_at(file, mark, around) for mark in FUNCTION.finditer(file.code)]


# ---- definitions

@dataclass(eq=False)
class Definition:
    """A definition or a lemma: where it stands, its name, and its words without comments and texts in quotes."""
    file: File
    name: str
    begin: int
    words: str

    @property
    def letters(self):
        """Its words with the texts in quotes."""
        text = self.file.text[self.begin:self.begin + len(self.words)]
        return ANTT_BLANK.sub(lambda found: " " if found.group().startswith("--") else found.group(), text)

    def __str__(self):
        return f"{self.file.at(self.begin)}: {self.name}"


NAME = r"[^\s(){}:,.;@]+"
DECLARED = re.compile(rf"^(?:  )?(?:(?:abbrev|unfoldable) )+(?:pub )?(?:(?:record|data) )?({NAME})"
                      rf"|^(?:  )?(?:pub )?(?:record|data) (?!\{{)({NAME})"
                      rf"|^pub (?!use |mod |record |data )({NAME}) :|^({NAME}) :", re.M)
ENDS = re.compile(r"^(?:pub )?(?:use|mod|module|infix\w*) ", re.M)


def definitions_of(file):
    """The definitions of a file, each with its words up to the next."""
    marks = list(DECLARED.finditer(file.code))
    ends = sorted([m.start() for m in marks] + [m.start() for m in ENDS.finditer(file.code)] + [len(file.code)])
    found = []
    for mark in marks:
        end = ends[bisect.bisect_right(ends, mark.start())]
        name = next(group for group in mark.groups() if group)
        found.append(Definition(file, name, mark.start(), file.code[mark.start():end]))
    return found


# ---- what a contract stands on

USE = re.compile(r"^[ ]*(pub )?(?:ghost )?use Rattle\.(\w+)\.(\w+)((?:\.\w+)*)(?:\.\{([^}]*)\})?(?: as (\w+))?", re.M)
WORD = re.compile(r"(?<![\w.])([^\W\d][\w'-]*)(?:\.(\w+))?|(?<= )([^\s\w(){}\[\].,;:\"]+)(?= )")
FIELD = re.compile(r"(?<=[{;]) *\w+ =(?!=)|^ *pub \w+ :", re.M)
BOUND = re.compile(r"[({]([\w ]+) :|λ ([^.]*)\.(?= )|\blet (\w+)|^ *\w+((?: (?!=)\S+)+) =", re.M)


def words_in(text):
    """The names in a text, each with the name behind its dot: of no field that is declared or set, and no variable."""
    given = " ".join(part for found in BOUND.findall(text) for part in found)
    bound = set(re.findall(r"\b[a-z_]\w*", given))
    used = WORD.finditer(FIELD.sub(" ", text).replace("←", ">>="))
    return {(m[1] or f"◌{m[3]}◌", m[2]) for m in used if m[1] not in bound}


@dataclass
class Scope:
    """What a file's names mean: those that it imports, by module and name, and modules by another name."""
    names: dict
    modules: dict
    given: dict


def scope_of(file):
    """The imports of a file."""
    names, modules, given = {}, {}, {}
    for public, crate, folder, inner, listed, alias in USE.findall(file.code):
        module = f"{crate}.{folder}{inner}"
        if alias:
            modules[alias] = module
        for entry in (e.strip() for e in listed.split(",")):
            name, _, other = entry.partition(" as ")
            names[other or name] = module, name
            if public:
                given[other or name] = module, name
    return Scope(names, modules, given)


def module_of(file):
    """What imports call a file of definitions."""
    return ".".join([file.crate, *file.path.with_suffix("").parts[2:]])


def constructors_in(definition):
    """The constructors of a `data`."""
    is_data = re.match(r" *(?:\w+ )*data ", definition.words)
    return re.findall(r"^ {2,4}(?:pub )?(\w+) :", definition.words, re.M) if is_data else []


class Meanings:
    """The definitions of specs/ by module and name, and what each one's words mean."""

    def __init__(self, files, definitions):
        self.scopes = {module_of(f): scope_of(f) for f in files if f.folder == "specs"}
        self.own = {}
        for definition in definitions:
            for name in [definition.name, *constructors_in(definition)]:
                self.own[module_of(definition.file), name] = definition

    def find(self, module, name):
        """The definition of a name that a module gives, or the module and name of what isn't one."""
        if (module, name) in self.own:
            return self.own[module, name]
        if module in self.scopes and name in self.scopes[module].given:
            return self.find(*self.scopes[module].given[name])
        return module, name

    def meant(self, scope, module, text):
        """What the words of a text mean, in a file with these imports."""
        for name, inner in words_in(text):
            if (module, name) in self.own:
                yield self.own[module, name]
            elif name in scope.names:
                yield self.find(*scope.names[name])
            elif inner and name in scope.modules:
                yield self.find(scope.modules[name], inner)

    def behind(self, function):
        """How deep each definition lies on which a function's contract stands."""
        text = "\n".join(clause.words for clause in function.clauses)
        level, found = set(self.meant(scope_of(function.file), None, text)), {}
        for depth in itertools.count(1):
            level = {it for it in level if isinstance(it, Definition) and it not in found}
            if not level:
                return found
            found |= dict.fromkeys(level, depth)
            level = {it for definition in level for it in self.named_by(definition)}

    @functools.cache
    def named_by(self, definition):
        """What the words of a definition mean."""
        module = module_of(definition.file)
        return set(self.meant(self.scopes[module], module, definition.words))


# ---- what stands twice

TOKEN = re.compile(r"[^\W\d]\w*|\d\w*|[^\s\w]")
KEYWORDS = set("""as break const continue crate else enum false fn for if impl in let loop match mod move mut pub ref
    return self Self static struct super trait true type unsafe use where while
    bool char str u8 u16 u32 u64 usize i32 i64 Ok Err Some None Option Result Vec""".split())


def unnamed(definition):
    """The letters of a definition without its own name, however they are laid out."""
    words = re.findall(r"[\w'-]+|[^\s\w]", definition.letters)
    return tuple("" if word == definition.name else word for word in words)


def in_two_crates(items, key):
    """Groups of items that have the same key and stand in two crates or more."""
    groups = defaultdict(list)
    for item in items:
        groups[key(item)].append(item)
    return [group for group in groups.values() if len({item.file.crate for item in group}) > 1]


def shape(words):
    """These words, with a number for each name that isn't the language's: the place where it came first."""
    places = {}
    return tuple(word if word in KEYWORDS or not (word[0].isalpha() or word[0] == "_")
                 else places.setdefault(word, len(places)) for word in words)


def lines_of(function):
    """The lines of a function from its name to the end of its body, clauses and all."""
    return function.file.between(function.begin, function.end - 1)


def functions_twice(functions):
    """Groups of functions over so many lines, with a body, whose heads and bodies are alike but for names."""
    long = [f for f in functions if f.body.strip("{} \n") and len(lines_of(f)) > LEAST_TWICE]
    return in_two_crates(long, lambda f: shape(TOKEN.findall(f.words)))


@dataclass(eq=False)
class Place:
    """So many lines of code that stand behind each other: the file, and which of its lines of code comes first."""
    file: File
    lines: list
    first: int

    @functools.cached_property
    def words(self):
        """The words of all these lines."""
        return [word for _, words in self.lines[self.first:self.first + LEAST_TWICE + 1] for word in words]

    def rough(self):
        """How many words each of the lines has."""
        return tuple(len(words) for _, words in self.lines[self.first:self.first + LEAST_TWICE + 1])

    def __str__(self):
        return f"{self.file.path}:{self.lines[self.first][0]}"


def code_lines(file, functions):
    """The lines of code of a file, each with its number and words: none of clauses, imports or a bracket alone."""
    spans = [(file.line(c.begin), file.line(c.begin) + len(c.lines)) for f in functions for c in f.clauses]
    clauses = {number for begin, end in spans for number in range(begin, end)}
    lines = [(n, TOKEN.findall(line)) for n, line in enumerate(file.code.split("\n"), 1) if n not in clauses]
    return [(n, words) for n, words in lines
            if re.search(r"\w", " ".join(words)) and not {"use", "mod"} & set(words[:3])]


def places_twice(functions):
    """For each two files of two crates with over so many lines that are alike but for names: where they are."""
    places = []
    for file, own in itertools.groupby(functions, lambda f: f.file):
        lines = code_lines(file, list(own))
        places += [Place(file, lines, first) for first in range(len(lines) - LEAST_TWICE)]
    rough = in_two_crates([p for p in places if len(set(p.rough())) > LEAST_FORMS], Place.rough)
    found = {}
    for group in (group for some in rough for group in in_two_crates(some, lambda p: shape(p.words))):
        for one, other in itertools.combinations(group, 2):
            if one.file.crate != other.file.crate:
                found.setdefault((one.file, other.file), [one, other])
    return list(found.values())


# ---- what a line passes

IMPORT = re.compile(r"^ *(?:pub )?use (\w+)::(?:\w+::)*(?:\{([^}]*)\}|(\w+(?: as \w+)?));", re.M)
STRUCT = re.compile(r"\bstruct (\w+)[^;{(]*\{(.*?)^\}", re.S | re.M)
CALL = re.compile(r"(\.|\b\w+(?:::<[^>]*>)?::)?\b([a-z_]\w*)(?:::<[^()]*?>)?(\()?")
RECEIVER = re.compile(r"(?<![\w.)\]?])((?:\w+\.)*\w+)\s*$")
OF_STD = set("""as_bytes as_ref as_slice clear clone contains copied drop eq extend first fmt from get get_mut insert
    is_empty is_none is_some iter iter_mut last len map new next pop push remove reserve resize swap take to_vec
    truncate""".split())


def type_named(words):
    """The first name of a type in the words of one."""
    found = re.search(r"\b[A-Z]\w*", re.sub(r"\bBox<", "", words))
    return found.group() if found else None


def imported(file):
    """What a file imports: the crate and the name there, by the name here."""
    found = {}
    for root, many, one in IMPORT.findall(file.code):
        crate = file.crate if root in ("crate", "super", "self") else root
        for entry in filter(None, (e.strip() for e in (many or one).split(","))):
            name, _, other = entry.partition(" as ")
            found[other or name] = crate, name
    return found


class Calls:
    """Which functions of libraries and programs a function may call, as far as text tells it."""

    def __init__(self, house):
        self.functions = [f for f in house.functions if f.file.crate not in house.tests]
        self.imports = {f.file: imported(f.file) for f in self.functions}
        self.heads = {f.crate: imported(f) for f in house.files if f.path.name == "lib.rt"}
        self.fields = {(name, field): type_named(words) for f in house.files if f.folder == "src"
                       for name, inner in STRUCT.findall(f.code)
                       for field, words in re.findall(r"^    (?:pub(?:\([a-z]+\))? )?(\w+): (.*),$", inner, re.M)}
        self.free, self.owned, self.methods = defaultdict(list), defaultdict(list), defaultdict(list)
        for f in self.functions:
            (self.owned[f.owner, f.name] if f.owner else self.free[f.file.crate, f.name]).append(f)
            self.methods[f.name, len(f.arguments)] += [f] if f.has_self else []
        self.owners = {owner for owner, _ in self.owned}
        self.below = stands_on(house.top)

    def named(self, crate, name):
        """The functions that a crate gives by a name, also those that it hands on."""
        further = self.heads.get(crate, {}).get(name, (crate, name))
        return self.free[crate, name] or (self.named(*further) if further != (crate, name) else [])

    def receiver(self, function, text):
        """The type at the end of a text that is a variable or its field, where one is declared."""
        found = RECEIVER.search(text)
        first, *inner = found.group(1).split(".") if found else [""]
        declared = {a.partition(":")[0].strip().removeprefix("mut "): a.partition(":")[2] for a in function.arguments}
        of = function.owner if first == "self" else type_named(declared.get(first, ""))
        for field in inner:
            of = self.fields.get((of, field))
        return of if of in self.owners else None

    def at(self, function, mark):
        """The functions of which one is called or handed on at a place of a body."""
        before, name, is_call = mark.groups()
        if before == ".":
            return self.method(function, mark) if is_call else []
        if before:
            of = before.partition("::")[0]
            of = function.owner if of == "Self" else self.imports[function.file].get(of, (None, of))[1]
            return self.owned.get((of, name), [])
        own = [f for f in self.free.get((function.file.crate, name), []) if f.file is function.file]
        return own or (self.named(*self.imports[function.file][name]) if name in self.imports[function.file] else [])

    def method(self, function, mark):
        """The methods of which one is called: those of the receiver's type, or where none is declared of any."""
        body, name = function.body, mark.group(2)
        count = len(parted(body[mark.end():behind(body, mark.end() - 1) - 1]))
        of = self.receiver(function, body[:mark.start()])
        if of:
            return self.owned.get((of, name), [])
        return [] if name in OF_STD else self.methods.get((name, count), [])

    def called_by(self, function):
        """The functions that a function may call: in its own crate and those on which that stands."""
        reach = self.below[function.file.crate] | {function.file.crate}
        found = {f for mark in CALL.finditer(function.body) for f in self.at(function, mark)}
        return {f for f in found if f.file.crate in reach}

    def reached(self, roots):
        """All functions that may be called from these."""
        found, level = set(), set(roots)
        while level:
            found |= level
            level = {f for function in level for f in self.called_by(function)} - found
        return found


def stands_on(top):
    """The crates below each crate."""
    lines = re.findall(r"^(\w+)[^:\n]*:(.*)$", (top / "crates.txt").read_text(), re.M)
    direct, found = {name: set(below.split()) for name, below in lines}, {}
    for _ in range(len(direct)):
        found = {name: below.union(*(found.get(d, set()) for d in below)) for name, below in direct.items()}
    return found


def line_passes(house):
    """The functions that the replay of a line may pass, and those that the program hands to the session for it."""
    calls = Calls(house)
    main = next(f for f in calls.functions if (f.file.crate, f.name) == ("vkreplay", "main"))
    values = [mark for mark in CALL.finditer(main.body) if mark.group(1) and not mark.group(3)]
    handed = {f for mark in values for f in calls.at(main, mark)}
    return calls.reached({house.function(TAKES_LINE), *handed})


# ---- numbers that a further row or type changes

LITERAL = re.compile(rf"(?<![\w.])(?:{'|'.join(NUMBERS)})(?![\w.])")


def numbers_in(file):
    """The lines of a source in which one of the numbers stands as a literal, once for each."""
    found = [m.start() for m in LITERAL.finditer(file.code)]
    return [f"{file.at(place)}: {file.lines[file.line(place) - 1].strip()}" for place in found]


def numbers_told(top):
    """Where README.md and docs/ tell one of them: of rows, commands or types."""
    told = re.compile(rf"\b(?:{'|'.join(NUMBERS)})\b")
    for path in [top / "README.md", *sorted((top / "docs").glob("*.md"))]:
        for number, line in enumerate(path.read_text().split("\n"), 1):
            if told.search(line) and re.search(r"\b(commands?|rows?|types?)\b", line):
                yield f"{path.relative_to(top)}:{number}: {line}"


def type_lists(items, files):
    """The functions and definitions elsewhere that name half of the object types or more."""
    text = next(f.code for f in files if f.path.match(f"crates/{HOLDS_NUMBERS}/src/types.rt"))
    types = set(re.findall(r"^    (\w+)", re.search(r"enum ObjectType \{(.*?)^\}", text, re.S | re.M).group(1), re.M))
    return [item for item in items if item.file.crate != HOLDS_NUMBERS
            and 2 * len(types & set(re.findall(r"\w+", item.words))) >= len(types)]


# ---- what is printed

def tests_of(top):
    """The crates that crates.txt lists below the heading for tests."""
    _, _, below = (top / "crates.txt").read_text().partition("\n# tests")
    return set(re.findall(r"^(\w+)", below, re.M))


class House:
    """What is read of a checkout."""

    def __init__(self, top):
        self.top, self.files, self.tests = top, read(top), tests_of(top)
        sources = [f for f in self.files if f.folder == "src"]
        self.functions = [function for f in sources for function in functions_of(f)]
        libraries = {f.crate for f in sources if f.path.name == "lib.rt"} - self.tests
        self.of_libraries = [f for f in self.functions if f.file.crate in libraries]
        self.clauses = [clause for f in self.functions for clause in f.clauses]
        self.definitions = [d for f in self.files if f.folder == "specs" for d in definitions_of(f)]
        self.meanings = Meanings(self.files, self.definitions)

    def function(self, name):
        """The public function CRATE::FUNCTION or CRATE::TYPE::FUNCTION."""
        crate, *owner, last = name.split("::")
        found = [f for f in self.functions if f.is_public and (f.file.crate, f.name) == (crate, last)
                 and [f.owner] * len(owner) == owner]
        if len(found) != 1:
            sys.exit(f"house: {len(found)} public functions are {name}")
        return found[0]

    @functools.cache
    def behind(self, name):
        """The definitions behind the contract of a function, the deepest last, each with its depth."""
        found = self.meanings.behind(self.function(name))
        return sorted(found.items(), key=lambda it: (it[1], str(it[0])))


def argument_rows(house):
    """Functions of libraries by how many arguments they have."""
    taken = [(len(f.arguments), f) for f in house.of_libraries]
    with_self = [(count + f.has_self, f) for count, f in taken]
    yield "functions but for tests", [f for f in house.functions if not f.is_test]
    yield "library functions", house.of_libraries
    yield f"public, over {MOST_ARGUMENTS} arguments", over(MOST_ARGUMENTS, [it for it in taken if it[1].is_public])
    yield f"over {MOST_ARGUMENTS} arguments", over(MOST_ARGUMENTS, taken)
    for most in (4, 6, 8):
        yield f"over {most} arguments and self", over(most, with_self)


def over(most, counted):
    """What is counted above so many, the most first, in lines."""
    return [f"{count} {item}" for count, item in sorted(counted, key=lambda it: (-it[0], str(it[1]))) if count > most]


def clause_rows(house):
    """Clauses by their columns, and those that see a session through its option."""
    public = [(c.width, c) for f in house.of_libraries if f.is_public for c in f.clauses]
    bare = [(len(line.strip()), c) for c in house.clauses for line in c.lines]
    widest = sorted((c for _, c in public), key=lambda c: (-c.width, str(c)))
    seen = [c for c in house.clauses if OPTION_VIEW.search(c.words)]
    yield f"public clauses over {WIDEST_CLAUSE} columns", over(WIDEST_CLAUSE, public)
    yield "columns of the widest public clause", widest[0].width, widest[:10]
    yield "clause lines over 140 columns unindented", over(140, bare)
    yield "clause lines over 240 columns unindented", over(240, bare)
    yield "clauses that see a session through its option", seen
    yield "crates of such clauses", tallied(c.file.crate for c in seen)
    for suffix in (".rt", ".antt"):
        views = [(f, m) for f in house.files if f.path.suffix == suffix for m in OPTION_VIEW.finditer(f.code)]
        yield f"such views in {suffix}", [f"{f.at(m.start())}: {m.group()}" for f, m in views]


def tallied(names):
    """How often each name comes, the commonest first, in lines."""
    return [f"{count} {name}" for name, count in Counter(names).most_common()]


def definition_rows(house):
    """The definitions, and those behind the contracts of the programs."""
    yield "definitions", house.definitions
    for name in WITH_CONTRACT:
        found = house.behind(name)
        yield f"behind {name}", [f"{depth} {definition}" for definition, depth in found]
        yield f"files behind {name}", tallied(d.file.path for d, _ in found)


def twice_rows(house):
    """What stands in two crates."""
    lemmas = [d for f in house.files if f.folder == "proofs" and f.path.name not in ANSWERS for d in definitions_of(f)]
    functions = [f for f in house.functions if f.file.crate not in house.tests]
    yield "definitions in two crates", joined(in_two_crates(house.definitions, unnamed))
    yield "lemmas in two crates", joined(in_two_crates(lemmas, unnamed))
    yield f"functions over {LEAST_TWICE} lines in two crates", joined(functions_twice(functions))
    yield f"pairs of files that share over {LEAST_TWICE} lines", joined(places_twice(functions))


def joined(groups):
    """A line for each group."""
    return [" = ".join(map(str, group)) for group in groups]


def line_rows(house):
    """What a reader meets who follows a line of a trace."""
    passed = sorted(line_passes(house), key=str)
    yield "functions that a line may pass", passed
    yield "files that a line may pass", tallied(f.file.path for f in passed)
    yield "crates that a line may pass", tallied(f.file.crate for f in passed)


def number_rows(house):
    """Where more has to be changed than the tables when a row or a type joins."""
    found = [(f.crate in house.tests, line) for f in house.files if f.crate != HOLDS_NUMBERS for line in numbers_in(f)]
    items = [*house.definitions, *(f for f in house.functions if f.file.crate not in house.tests)]
    yield "92 or 26 outside the tables", [line for is_test, line in found if not is_test]
    yield "92 or 26 in tests", [line for is_test, line in found if is_test]
    yield "92 or 26 in the documents", list(numbers_told(house.top))
    yield "lists of object types outside the tables", type_lists(items, house.files)


def rows_of(house):
    """Each row: a name, a number and the entries behind it."""
    for rows in (argument_rows, clause_rows, definition_rows, twice_rows, line_rows, number_rows):
        for name, *number, entries in rows(house):
            yield name, number[0] if number else len(entries), entries


def main():
    asked = argparse.ArgumentParser(description=__doc__, formatter_class=argparse.RawDescriptionHelpFormatter)
    asked.add_argument("--in", dest="top", type=pathlib.Path, default=TOP, metavar="FOLDER",
                       help="count that checkout")
    asked.add_argument("--list", metavar="NAME", help="print the entries behind the number with that name")
    asked.add_argument("--behind", metavar="CRATE::FUNCTION", help="print what a contract stands on")
    asked = asked.parse_args()
    house = House(asked.top.resolve())
    if asked.behind:
        found = house.behind(asked.behind)
        files = {definition.file for definition, _ in found}
        print(f"{asked.behind}: {len(found)} definitions in {len(files)} files, {max(d for _, d in found)} deep")
        return
    rows = {name: (number, entries) for name, number, entries in rows_of(house)}
    if not asked.list:
        print("\n".join(f"{name}: {number}" for name, (number, _) in rows.items()))
    elif asked.list in rows:
        print("\n".join(map(str, rows[asked.list][1])))
    else:
        sys.exit(f"house: nothing is counted as {asked.list!r}")


if __name__ == "__main__":
    main()
