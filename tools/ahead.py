#!/usr/bin/env python3
"""Checks functions of a crate ahead of the libraries below it, of which some are not proved yet.

    tools/ahead.py CRATE [--only PATH].. [FLAG..]      from the top of the repository

A library that is built is read as it is. Each other one below is read as source, from a copy in which a hole stands in the place of
every proof, and unreachable!() in that of the body: what is above takes such a function by its contract. So nothing of these libraries
is proved here, and no verdict is given; what a macro writes is still proved where it is called. PATH is a function, a type or a module, as for
`rt check --only`; without one it is every module of the crate. FLAG goes to the check, which has --allow-holes. Copies and kept work stand in
CRATE/out/ahead. The first run reads all these sources, some minutes of a processor where many are above one another.
"""
import functools
import importlib.machinery
import importlib.util
import inspect
import os
import re
import shutil
import subprocess
import sys

# methods that several types have, which are in no cycle
OF_STD = {
    "as_ref", "as_slice", "clear", "copy", "count", "find", "first", "get", "insert", "is_empty", "last", "len", "new", "next", "push", "remove",
    "set",
}

HOLE = """use Rattle.{crate}.proofs.{path}.Statement.{{statement}}

pub {name}_spec : {{M : Type 1}} → statement M
{name}_spec = ?
"""


def toolchain():
    """The modules of `rt`, which know the crates, their libraries and what is built."""
    path = os.path.realpath(shutil.which("rt"))
    loader = importlib.machinery.SourceFileLoader("rt", path)
    made = importlib.util.module_from_spec(importlib.util.spec_from_loader("rt", loader))
    sys.modules["rt"] = made
    loader.exec_module(made)
    return made, os.path.dirname(os.path.dirname(path))


def crates_of(rt, root):
    """The repository's crates, lowest first. An older `rt` sums up a library by each way down to each crate: here each is summed up once."""
    rt.Crate.allowed = rt.handles_of(root)
    if "aside" not in inspect.signature(rt.crates_of).parameters:
        return rt.crates_of(root)
    rt.rtlib.Crate = rt.Crate
    rt.Crate.stamp = functools.cache(rt.Crate.stamp)
    rt.Crate.below = functools.cache(rt.Crate.below)
    return rt.rtlib.crates_below(root)


def is_proof(folder, names):
    """Whether a folder below proofs/ has the proof of one function, and of no cycle of functions."""
    return not any(it.startswith("+") for it in folder.split("/")) and any(it in names for it in ("Answers.antt", "Invariants.antt"))


def lines_of(path):
    """The lines of a source without their comments."""
    with open(path, encoding="utf-8") as file:
        return re.sub(r"//[^\n]*", "", file.read()).split("\n")


def owner(head):
    """The name under which proofs/ has the functions of an `impl`, of which this is what stands after that word."""
    depth = 0
    for place, sign in enumerate(head if head.startswith("<") else ""):
        depth += (sign == "<") - (sign == ">")
        if depth == 0:
            head = head[place + 1 :]
            break
    of, _, whom = head.split("{")[0].split(" where ")[0].strip().partition(" for ")
    names = [re.sub(r"<.*", "", it).strip().lstrip("&").split("::")[-1] for it in (whom, of)]
    name = "".join([*names, *(re.findall(r"<(.*)>", of) if whom else [])])
    return name[:1].upper() + name[1:]


def modules_of(folder):
    """The files of a library, each with its lines. Beside a line stand the name of the function that begins there, or None, and the folder
    that its proof has below proofs/, or None where that does not go by its name."""
    files = [f"{at}/{name}" for at, _, names in os.walk(f"{folder}/src") for name in names if name.endswith(".rt")]
    sources = {it: lines_of(it) for it in files}
    modules, homes = {}, {}
    for file, lines in sources.items():
        module = os.path.relpath(file[:-3], f"{folder}/src").split("/")
        modules[file] = "/".join([] if module == ["lib"] else module[:-1] if module[-1] == "mod" else module)
        homes.update({found[1]: modules[file] for it in lines if (found := re.match(r"(?:pub(?:\([a-z ]+\))? )?(?:struct|enum) (\w+)", it))})
    for file, lines in sources.items():
        made, inside = [], []
        for line in lines:
            name = path = None
            if begun := re.match(r"(?:unsafe )?impl\b(.*)", line):
                inside = [owner(begun[1].strip())]
            elif line.startswith("}"):
                inside = []
            elif begun := re.match(r"( {4})?(?:pub(?:\([a-z ]+\))? )?(?:const )?(?:unsafe )?fn (\w+)", line):
                name = begun[2]
                if bool(begun[1]) == bool(inside) and all(re.fullmatch(r"\w+", it) for it in inside):
                    home = homes.get(inside[0], modules[file]) if inside else modules[file]
                    path = "/".join(it for it in [home, *inside, name] if it)
            made.append((line, name, path))
        yield file, made


def in_a_cycle(name, calls):
    """Whether a function of this name may come to call one of its name."""
    seen, todo = set(), [name]
    while todo:
        for it in calls.get(todo.pop(), ()):
            if it == name:
                return True
            if it not in seen:
                seen.add(it)
                todo.append(it)
    return False


def functions_of(folder):
    """The functions of a library that are in no cycle, each as the folder that its proof has below proofs/."""
    found, calls, name = [], {}, None
    for _, lines in modules_of(folder):
        for line, begun, path in lines:
            if begun:
                name = begun
                calls.setdefault(name, set())
                found += [(path, name)] if path else []
            elif name:
                called = re.findall(r"(\.|::)?\b(\w+)\(", line)
                calls[name].update(it for how, it in called if how != "::" and not (how and it in OF_STD))
    return [path for path, name in found if not in_a_cycle(name, calls)]


def body_of(lines, at):
    """The first line of the body of the function that begins at a line, and the line after it, or None where its form is another."""
    indent, is_stated = re.match(" *", lines[at])[0], False
    for begin in range(at, len(lines)):
        line = lines[begin].rstrip()
        is_clause = bool(re.match(r" *(requires|ensures|ghost)\b", line))
        is_stated = is_stated or is_clause
        if line == f"{indent}{{" or not is_stated and line.endswith(" {"):
            end = next((it for it in range(begin + 1, len(lines)) if lines[it].rstrip() == f"{indent}}}"), None)
            return end and (begin + 1, end)
        if line in (f"{indent}}}", f"{indent}{{}}") or not is_stated and line.endswith(("}", ";")):
            return None
    return None


def without_bodies(folder, holes):
    """Puts unreachable!() in the place of the body of each function that has a hole for its proof: three quarters of a first run's time and
    memory went into bodies. A constant's function and one of a cycle keep theirs."""
    for file, lines in modules_of(folder):
        with open(file, encoding="utf-8") as it:
            text = it.read().split("\n")
        stripped, found = [line for line, _, _ in lines], []
        for at, (line, _, path) in enumerate(lines):
            if path in holes and "const fn" not in line and not any("#[cycle" in it for it in stripped[max(at - 4, 0) : at]):
                body = body_of(stripped, at)
                if body and "-> impl" not in " ".join(stripped[at : body[0]]):
                    found.append(body)
        for begin, end in reversed(found):
            indent = re.match(" *", text[end])[0]
            text[begin:end] = [f"{indent}    unreachable!()"]
        with open(file, "w", encoding="utf-8") as it:
            it.write("\n".join(text))


def refused_in(output):
    """The files with a hole that the check does not take: their functions call one another in a circle, or have another folder."""
    return set(re.findall(r"^(\S+/proofs/\S+/Proof\.antt): error\b", output, re.M))


def run(call, folder):
    """Runs a check, prints what it prints, and answers its status and its output."""
    made = subprocess.Popen(call, cwd=folder, stdin=subprocess.DEVNULL, stdout=subprocess.PIPE, stderr=subprocess.STDOUT, text=True)
    output = []
    for line in made.stdout:
        print(line, end="", flush=True)
        output.append(line)
    return made.wait(), "".join(output)


def with_holes(crate, to, refused):
    """Copies a library, with a hole for each proof that has files, but those that were refused. What did not change keeps its time."""
    new = f"{to}.new"
    shutil.rmtree(new, ignore_errors=True)
    shutil.copytree(crate.folder, new, ignore=shutil.ignore_patterns("out", "must-fail"))
    folders = {os.path.relpath(at, f"{new}/proofs"): names for at, _, names in os.walk(f"{new}/proofs")}
    in_cycles = {os.path.dirname(it) for it in folders if os.path.basename(it).startswith("+")}
    alone = {it for it in functions_of(new) if os.path.dirname(it) not in in_cycles}
    holes = {it for it in {*(it for it in folders if is_proof(it, folders[it])), *alone} if f"{to}/proofs/{it}/Proof.antt" not in refused}
    without_bodies(new, holes)
    for folder in sorted(holes):
        at = f"{new}/proofs/{folder}"
        os.makedirs(at, exist_ok=True)
        for name in ("Answers.antt", "Invariants.antt"):
            if name in folders.get(folder, []):
                os.remove(f"{at}/{name}")
        with open(f"{at}/Proof.antt", "w", encoding="utf-8") as file:
            file.write(HOLE.format(crate=crate.name, path=folder.replace("/", "."), name=os.path.basename(folder)))
    for at, _, names in os.walk(new):
        for name in names:
            old = f"{at}/{name}".replace(new, to, 1)
            if os.path.isfile(old) and open(f"{at}/{name}", "rb").read() == open(old, "rb").read():
                shutil.copystat(old, f"{at}/{name}")
    shutil.rmtree(to, ignore_errors=True)
    os.rename(new, to)


def main(words):
    if not words or words[0].startswith("-"):
        sys.exit(__doc__)
    rt, kit = toolchain()
    root = os.getcwd()
    crate = next((it for it in crates_of(rt, root) if it.name == words[0]), None) or sys.exit(f"there is no crate {words[0]}")
    ahead, flags = f"{crate.folder}/out/ahead", words[1:]
    os.makedirs(ahead, exist_ok=True)
    refused = set()
    if os.path.isfile(f"{ahead}/refused"):
        with open(f"{ahead}/refused", encoding="utf-8") as file:
            refused = set(file.read().split())
    built = {}
    for it in crate.below():
        built[it.name] = it.is_built() and all(built[low.name] for low in it.below())
    sources = [it for it in crate.below() if not built[it.name]]
    call = [f"{kit}/bin/rattle", "check", "--crate-name", crate.name, "src/main.rt" if crate.is_program else "src/lib.rt"]
    for name in sorted({"core", *crate.of_kit, *(name for it in sources for name in it.of_kit)}):
        call += ["--extern", f"{name}={kit}/rlibs/{name}.rlib"]
    call += ["-L", f"dependency={kit}/rlibs"]
    for it in crate.below():
        if built[it.name]:
            call += ["--extern", f"{it.name}={it.rlib}", "-L", f"dependency={os.path.dirname(it.rlib)}"]
        else:
            with_holes(it, f"{ahead}/{it.name}", refused)
            uses = ",".join(dict.fromkeys(["core", *it.of_kit, *(low.name for low in it.deps)]))
            call += ["--lib", f"{it.name}:{uses}={ahead}/{it.name}/src/lib.rt"]
            print(f"ahead: {it.name} as source", flush=True)
    call += ["--antt-project", f"{kit}/rattle/logic/antt-project.json", "--logic-built", f"{kit}/logic_built"]
    call += ["--incremental", f"{ahead}/kept", "--jobs", "1", "--progress", "--allow-holes"]
    if "--only" not in flags and not any(it.startswith("--only=") for it in flags):
        with open(f"{crate.folder}/{call[4]}", encoding="utf-8") as file:
            modules = re.findall(r"^(?:pub(?:\(\w+\))? )?mod (\w+);", file.read(), re.M)
        run_there = {os.path.relpath(file, f"{crate.folder}/src").split("/")[0].removesuffix(".rt") for file, lines in modules_of(crate.folder) if any(it for _, it, _ in lines)}
        flags += [word for it in modules if it in run_there for word in ("--only", f"{crate.name}::{it}")]
    status, output = run([*call, *flags], crate.folder)
    new = refused_in(output) - refused
    if not new or not all(it.startswith(f"{os.path.abspath(ahead)}/") for it in new):
        return status
    with open(f"{ahead}/refused", "w", encoding="utf-8") as file:
        file.write("\n".join(sorted(refused | new)))
    return main(words)


if __name__ == "__main__":
    sys.exit(main(sys.argv[1:]))
