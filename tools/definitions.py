#!/usr/bin/env python3
"""What has to be believed: the definitions that the clauses of the top call reach.

    tools/definitions.py            writes docs/DEFINITIONS.md
    tools/definitions.py --check    says what of it is out of date, and which definitions stand in the wrong place

A definition that the clauses of `emu`, the traits of its streams, folder, disk and maker of patterns, or the laws reach
stands in `specs/`. Every other one, as a relation of a loop or a cache, stands in `specs/Inner/`.
"""
import os
import re
import sys

KEYWORDS = r"(?:(?:abbrev|pub|unfoldable|record|data|module)\s+)+"
BEGINS = re.compile(rf"^{KEYWORDS}|^[A-Za-z_][A-Za-z_0-9']* :")
TOKEN = re.compile(r"[A-Za-z_«][A-Za-z_0-9»']*|◌?[^\sA-Za-z_0-9,{}()]+◌?")
IMPORT = re.compile(r"use Rattle\.([a-z_0-9]+)\.specs\.([A-Za-z][A-Za-z0-9_.]*)\.\{([^}]*)\}")
ALIAS = re.compile(r"use Rattle\.([a-z_0-9]+)\.specs\.([A-Za-z][A-Za-z0-9_.]*) as ([A-Za-z_0-9]+)")
PASSED_ON = re.compile(r"Rattle\.[a-z_0-9]+\.specs\.([a-z_0-9]+)\.")
TRAITS = ("emu_io", "emu_disk", "label_match")
PAGE = "docs/DEFINITIONS.md"


def text_of(path):
    with open(path, encoding="utf-8") as file:
        return file.read()


class Definition:
    """One definition with the lines above it: its names (also of constructors), text, file and line."""

    def __init__(self, place, path, line, above, lines):
        self.place, self.path, self.line = place, path, line
        self.above, self.text = above, "\n".join(lines)
        head = re.sub(rf"^{KEYWORDS}", "", lines[0])
        self.names = {re.match(r"\S+", head).group(0)}
        if lines[0].startswith("module"):
            inside = [re.match(rf"^\s+{KEYWORDS}([^\s:]+)", line) for line in lines[1:]]
            self.names = {it.group(1) for it in inside if it}
        self.name = sorted(self.names)[0] if lines[0].startswith("module") else next(iter(self.names))
        if re.match(r"^(pub )?data ", lines[0]):
            made = [re.match(r"^\s+([A-Za-z_0-9]+) :", line) for line in lines[1:]]
            self.names |= {it.group(1) for it in made if it}

    def sentence(self):
        """The comment above it, in one line."""
        told = [line[2:].strip() for line in self.above if line.startswith("--") and not line.startswith("-- ----")]
        return " ".join(told)


class File:
    """A file of definitions: its first sentence, its imports and its definitions."""

    def __init__(self, crate, module, path):
        self.path, self.head, self.definitions, self.uses = path, [], [], []
        above, told, lines, begun, seen = [], [], [], 0, False
        for number, line in enumerate(text_of(path).split("\n"), 1):
            if line.startswith(("use ", "pub use ")):
                self.uses.append(line)
                seen = True
            elif line.startswith("--") and not seen and not lines:
                self.head.append(line[2:].strip())
            elif line == "" or line.startswith(("--", "infix", "syntax")):
                above.append(line)
            elif BEGINS.match(line) and not line[0].isspace():
                if lines:
                    self.definitions.append(Definition((crate, module), path, begun, told, lines))
                lines, told, begun, above = [line], above, number, []
            else:
                lines += above + [line]
                above = []
        if lines:
            self.definitions.append(Definition((crate, module), path, begun, told, lines))


def by_own_crate(match):
    """A path through a crate that passes another one on, as a path of that other one."""
    return f"Rattle.{match[1]}.specs." if os.path.isdir(f"crates/{match[1]}/src") else match[0]


def imports(text):
    """What a text brings in, by the name that it uses; and the modules that it gives another name."""
    names, modules = {}, {}
    text = PASSED_ON.sub(by_own_crate, text)
    for crate, module, listed in IMPORT.findall(text):
        for name in listed.split(","):
            said = name.strip().split(" as ")
            if said[0]:
                names[said[-1].strip()] = (crate, module, said[0].strip())
    for crate, module, name in ALIAS.findall(text):
        modules[name] = (crate, module)
    return names, modules


class House:
    """All definitions of the repository, and what each names."""

    def __init__(self):
        self.crates = sorted(name for name in os.listdir("crates") if os.path.isdir(f"crates/{name}/src"))
        self.files = {}
        for crate in self.crates:
            for folder, before in (("specs", ""), ("specs/Inner", "Inner.")):
                at = f"crates/{crate}/{folder}"
                for name in sorted(os.listdir(at)) if os.path.isdir(at) else []:
                    if name.endswith(".antt") and name not in ("Lib.antt", "Inner.antt"):
                        module = before + name[:-5]
                        self.files[crate, module] = File(crate, module, f"{at}/{name}")
        self.known = {}
        for place, file in self.files.items():
            for it in file.definitions:
                self.known.update({(*place, name): it for name in it.names})
        for place, file in self.files.items():
            for line in file.uses:
                if line.startswith("pub use"):
                    for name, key in imports(line)[0].items():
                        if key in self.known:
                            self.known[(*place, name)] = self.known[key]
        self.brought = {place: imports("\n".join(file.uses)) for place, file in self.files.items()}
        self.views = self.seen_as()

    def named(self, text, brought, place=None):
        """The definitions that a text names, in the order of the text."""
        names, modules = brought
        text = re.sub(r"--.*|//.*", "", text)
        found = []
        for match in re.finditer(r"([A-Za-z_][A-Za-z_0-9]*)\.([A-Za-z_][A-Za-z_0-9]*)|" + TOKEN.pattern, text):
            keys = []
            if match.group(1):
                if match.group(1) in modules:
                    keys.append((*modules[match.group(1)], match.group(2)))
                tokens = [match.group(1), match.group(2)]
            else:
                tokens = [match.group(0)]
            for token in tokens:
                for name in (token, f"◌{token}◌", f"◌{token}", f"{token}◌"):
                    if name in names:
                        keys.append(names[name])
                    if place:
                        keys.append((*place, name))
            found += [self.known[key] for key in keys if key in self.known and self.known[key] not in found]
        return found

    def seen_as(self):
        """What contracts see of each declared type that is seen as a value: the definitions that its view names."""
        views = {}
        for crate in self.crates:
            for path in sources(crate):
                text = text_of(path)
                for match in re.finditer(r"^impl[^\n]* Model for ([A-Za-z_0-9]+).*?^}", text, flags=re.S | re.M):
                    shown = "\n".join(re.findall(r"ghost (?:Value|view) = \{.*?\};", match.group(0), flags=re.S))
                    views[crate, match.group(1)] = self.named(shown, imports(text))
        return views

    def below(self, it):
        """What a definition names: other definitions, and what is seen of the types in it."""
        names, _ = self.brought[it.place]
        found = self.named(it.text, self.brought[it.place], it.place)
        words = set(re.findall(r"[A-Za-z_][A-Za-z_0-9]*", it.text))
        for name, (crate, module, said) in names.items():
            if module.startswith("declared") and name in words:
                found += [other for other in self.views.get((crate, said), []) if other not in found]
        return found

    def reached(self, roots):
        """All that some definitions rest on, with them, each after one that names it, in the order of reading."""
        done, order, waiting = set(), [], list(roots)
        while waiting:
            it = waiting.pop(0)
            if id(it) not in done:
                done.add(id(it))
                order.append(it)
                waiting = [other for other in self.below(it) if id(other) not in done] + waiting
        return order

    def top(self):
        """The definitions that the clauses of the top call name."""
        text = text_of("crates/emu_cli/src/top.rt")
        begin = text.index("pub fn emu<")
        return self.named(text[begin : text.index("\n}\n", begin)], imports(text))

    def around(self):
        """Those that the traits of streams, folder, disk and maker name."""
        found = []
        for crate in TRAITS:
            for path in sources(crate):
                text = text_of(path)
                for trait in re.findall(r"pub trait.*?\n}\n", text, flags=re.S):
                    found += [it for it in self.named(trait, imports(text)) if it not in found]
        return found

    def laws(self):
        """Those that the laws name: public functions with an empty body whose clause is the law."""
        found = []
        for crate in self.crates:
            for path in sources(crate):
                if os.path.basename(path).startswith("law"):
                    text = text_of(path)
                    body = "\n".join(line for line in text.split("\n") if not line.startswith("ghost use"))
                    found += [it for it in self.named(body, imports(text)) if it not in found]
        return found


def sources(crate):
    for at, folders, names in os.walk(f"crates/{crate}/src"):
        folders.sort()
        yield from (f"{at}/{name}" for name in sorted(names) if name.endswith(".rt"))


def cell(text):
    return text.replace("|", "\\|")


def section(title, told, house, order, done):
    """A section of the page: file after file, in the order in which a reader comes to them."""
    files = []
    for it in order:
        if id(it) not in done and it.place not in files:
            files.append(it.place)
    lines = [f"## {title}", "", told, ""]
    wanted = {id(it) for it in order}
    for place in files:
        file = house.files[place]
        mine = [it for it in file.definitions if id(it) in wanted and id(it) not in done]
        lines += [f"### `{file.path.removeprefix('crates/')}`", "", " ".join(file.head), ""]
        for it in mine:
            said = it.sentence()
            names = ", ".join(f"`{name}`" for name in ([it.name] if not it.text.startswith("module") else sorted(it.names)))
            lines.append(f"- {names}" + (f": {said}" if said else ""))
            done.add(id(it))
        lines.append("")
    return lines


def wrapped(line, width=138):
    """A line of a list or a text, in lines of at most that width."""
    out, rest, indent = [], line, "  " if line.startswith("- ") else ""
    while len(rest) > width and " " in rest[:width].strip():
        cut = rest.rindex(" ", 0, width)
        out.append(rest[:cut])
        rest = indent + rest[cut + 1 :]
    return out + [rest]


def page(house):
    """The page and the definitions on it."""
    done = set()
    top = house.reached(house.top())
    around = house.reached(house.around())
    laws = house.reached(house.laws())
    everything = {id(it) for it in top + around + laws}
    lines = [
        "# What has to be believed",
        "",
        "A clause says no more than the definitions that it names. This page lists those that the clauses of the top call, `emu` in",
        "`crates/emu_cli/src/top.rt`, rest on, file after file in the order in which one comes to them, from `says` down to the number in a",
        "reply. After them come those of the streams, the folder, the disk and the maker of patterns that `emu` is given, and those of the laws.",
        "Each stands in a folder `specs/` of its crate. What stands in `specs/Inner/` serves the proofs of loops and of what the code keeps: no",
        "promise of the program rests on it.",
        "",
        f"{len(top)} definitions of the promises, {len(everything)} with those of the surroundings and the laws. Written by `tools/definitions.py`.",
        "",
    ]
    lines += section("The promises", "What `emu` promises: `says`, `complete`, `commands` and `untouched`.", house, top, done)
    lines += section("The surroundings", "What the traits say of a source, a sink, a folder, a disk and a maker of patterns.", house, around, done)
    lines += section("The laws", "What the laws say beside it, of definitions alone.", house, laws, done)
    return "\n".join(part for line in lines for part in wrapped(line)).rstrip() + "\n", everything


def main():
    os.chdir(os.path.dirname(os.path.dirname(os.path.abspath(__file__))))
    house = House()
    text, believed = page(house)
    if "--check" not in sys.argv:
        with open(PAGE, "w", encoding="utf-8") as file:
            file.write(text)
        return 0
    faults = []
    if not os.path.isfile(PAGE) or text_of(PAGE) != text:
        faults.append(f"{PAGE} is out of date: run tools/definitions.py")
    for (_, module), file in sorted(house.files.items()):
        inner = module.startswith("Inner.")
        for it in file.definitions:
            if inner and id(it) in believed:
                faults.append(f"{it.path}:{it.line}: `{it.name}` is reached by a promise or a law, so it stands in specs/")
            if not inner and id(it) not in believed:
                faults.append(f"{it.path}:{it.line}: `{it.name}` is reached by no promise and no law, so it stands in specs/Inner/")
    print("\n".join(faults) or f"{PAGE} is up to date")
    return 1 if faults else 0


if __name__ == "__main__":
    sys.exit(main())
