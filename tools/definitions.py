"""The definitions of the crates, read by their text alone: which there are, what each names, and all that some of them need; and floors.

A name that a tactic brings in can be missing. Types that code declares and words of std are counted, and not followed."""
import collections
import os
import re

ROOT = os.path.join(os.path.dirname(os.path.abspath(__file__)), "..", "crates")
TOKEN = re.compile(r"[^\s(){}\[\],;λ→×⊎:]+")

texts = {}
for crate in sorted(os.listdir(ROOT)):
    for kind in ("specs", "proofs"):
        base = os.path.join(ROOT, crate, kind)
        for folder, _, names in os.walk(base):
            for name in names:
                if name.endswith(".antt"):
                    path = os.path.join(folder, name)
                    module = f"{crate}.{kind}." + os.path.relpath(path, base)[:-5].replace("/", ".")
                    texts[module] = open(path, encoding="utf-8").read()

definitions, imports, comments, constructors, heads = {}, {}, {}, {}, {}

# What a crate hands on of another, by the name that it gives it: `pub use Rattle.CRATE.specs.FILE [as NAME]` in its specs/Lib.antt.
handed = {}
for module, text in texts.items():
    if module.endswith(".specs.Lib"):
        for path, alias in re.findall(r"^pub use Rattle\.([\w.]+?)(?: as (\w+))?$", text, re.M):
            handed[module[:-3] + (alias or path.split(".")[-1])] = path


def origin(path):
    """The path of a module in the crate that it is of."""
    while True:
        crate, _, rest = path.partition(".specs.")
        name, _, beyond = rest.partition(".")
        here = handed.get(f"{crate}.specs.{name}")
        if here is None:
            return path
        path = here + ("." + beyond if beyond else "")


def plain_lines(text):
    """The lines, with those of an anonymous module, and of definitions that need one another, moved to the left."""
    inside = False
    for line in text.split("\n"):
        if re.match(r"^(module _.*where|mutual)$", line):
            inside = True
            continue
        if inside and line and not line.startswith((" ", "--")):
            inside = False
        yield line[2:] if inside and line.startswith("  ") else line


def first_sentence(lines):
    """The first sentence of a comment, of which these are the lines."""
    text = " ".join(line.strip().lstrip("-").strip() for line in lines).strip()
    text = re.sub(r"^(---- )?", "", text)
    end = re.search(r"(?<!\b[ei])[.:](?= [A-Z`]|$)", text)
    return text[: end.start()] if end else text


def parse(module):
    found, known, said, current, comment = collections.OrderedDict(), {}, {}, None, []
    begun = False
    for line in plain_lines(texts[module]):
        if line.startswith("--"):
            if not begun:
                heads.setdefault(module, []).append(line)
            comment = comment + [line] if not line.startswith("-- ----") else []
        elif line.startswith(("use ", "pub use ")):
            begun, comment = True, []
            some = re.match(r"(?:pub )?use (?:Rattle\.)?([\w.]+)\.\{(.*)\}", line)
            if some:
                for word in some.group(2).split(","):
                    old, _, new = word.strip().partition(" as ")
                    known[(new or old).strip()] = (origin(some.group(1)), old.strip())
        elif line.startswith("infix"):
            begun = True
        elif line.strip():
            begun = True
            if line.startswith(" "):
                if current and not line.lstrip().startswith("--"):
                    found[current] += line + "\n"
            elif line[0] not in "})(":
                name = re.match(r"(?:abbrev |unfoldable )*(?:pub )?(?:record |data |mod )?(\S+)", line).group(1)
                current = name
                found[current] = found.get(current, "") + line + "\n"
                if comment:
                    said.setdefault(current, first_sentence(comment))
                comment = []
        else:
            comment = []
            begun = begun or bool(heads.get(module))
    definitions[module], imports[module], comments[module] = found, known, said
    for name, body in found.items():
        if re.match(r"(?:abbrev )?(?:pub )?data ", body):
            for word in re.findall(r"^  (\S+)\s*:", body, re.M):
                constructors[module, word] = name


def floors_of_crates():
    """The crates in the order of crates.txt, each with its floor; and what is said there of each floor."""
    floors, said, floor = collections.OrderedDict(), collections.OrderedDict(), ""
    with open(os.path.join(ROOT, "..", "crates.txt"), encoding="utf-8") as file:
        for line in file:
            heading, crate = re.match(r"# floor (\w+): ([^(\n]*)", line), re.match(r"(\w+):", line)
            if heading:
                floor = heading[1]
                said[floor] = heading[2].strip()
            elif crate:
                floors[crate[1]] = floor
    return floors, said


def is_index(module):
    """Whether a file only names other files, and defines nothing."""
    return all(re.match(r"(?:pub )?mod ", body) for body in definitions[module].values())


def place_of(module, name):
    """Where a name is defined, through files that hand it on."""
    for _ in range(8):
        if module not in definitions:
            return None
        if name in definitions[module]:
            return module, name
        if (module, name) in constructors:
            return module, constructors[module, name]
        if name not in imports[module]:
            return None
        module, name = imports[module][name]
    return None


for module in texts:
    parse(module)


def ghost_imports(text):
    """The definitions that a file of code imports, by the names that it gives them."""
    known = {}
    for path, names in re.findall(r"^\s*ghost use Rattle\.([\w.]+)\.\{([^}]*)\};", text, re.M):
        for word in names.split(","):
            old, _, new = word.strip().partition(" as ")
            known[(new or old).strip()] = (origin(path), old.strip())
    return known


def named(line, known):
    """The definitions that a line of code names."""
    return [place for word in TOKEN.findall(line) if word in known for place in [place_of(*known[word])] if place]


def clauses_of_call(path, function):
    """The clauses of a call of a file of code by their names, each with the definitions that it names."""
    if not os.path.exists(path):
        raise SystemExit(f"{os.path.relpath(path)}: there is no such file")
    with open(path, encoding="utf-8") as file:
        text = file.read()
    lines, known, clauses, clause = text.split("\n"), ghost_imports(text), collections.OrderedDict(), None
    at = next((i for i, line in enumerate(lines) if re.search(rf"fn {function}\b", line)), None)
    if at is None:
        raise SystemExit(f"{os.path.relpath(path)}: it has no call {function}")
    while lines[at].strip() not in ("{", "{}"):
        begun = re.match(r"\s*(?:ensures|requires)\b ?(\w*)", lines[at])
        clause = begun[1] if begun else clause
        places = named(lines[at], known)
        if places:
            clauses.setdefault(clause or "", []).extend(places)
        at += 1
    return clauses


def operators_in(module, body):
    """The operators that a file defines or imports and a text uses, each by all the words between its holes."""
    words = set(body.split())
    for name in [*definitions[module], *imports[module]]:
        parts = [part for part in name.split("◌") if part]
        if "◌" in name and parts and words.issuperset(parts):
            yield name


def needed(begin):
    """All definitions that these need, with their lines, the nearest first; and what they name beside definitions."""
    queue, seen, outside = collections.deque(begin), collections.OrderedDict(), set()
    while queue:
        here = queue.popleft()
        if here in seen:
            continue
        module, name = here
        body = definitions[module][name]
        seen[here] = body.count("\n")
        words = TOKEN.findall(body)
        words += [part for word in words for part in word.split(".") if part != word]
        words += operators_in(module, body)
        for word in dict.fromkeys(words):
            if word == name:
                continue
            if word in definitions[module]:
                queue.append((module, word))
            elif word in imports[module]:
                place = place_of(*imports[module][word])
                if place:
                    queue.append(place)
                else:
                    outside.add(imports[module][word])
    return seen, outside
