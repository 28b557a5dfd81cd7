#!/usr/bin/env python3
"""Holds the chord to document 02's request E3: nothing in it multiplies, divides or takes a remainder. Looked at are the sources of a walk up a circle and
every file that they use, contracts and comments aside; the code that was proved, of each function that the walk reaches, which may have shifts,
adds, subtractions, compares and casts alone; and the processor's instructions of those functions that can be told apart in the C library. Says
what was read; a sample of each operator is seen to be found.
"""
import json
import re
import subprocess

from surveys import ROOT, same, try_all

WALK = "circle/src/walk.rt"
CALLED_FROM_OUTSIDE = ["circle::walk::Walk::start", "circle::walk::Walk::on_to", "circle::walk::Walk::area"]
ALLOWED = {"Shl", "Shr", "Add", "Sub", "Lt", "Le", "Eq", "Ne", "Cast"}
LIBRARY = ROOT / "target/staticlib/libcapi.a"


def code_of(source):
    """A source without what is not run: comments, what is imported for contracts, and the contracts."""
    source = re.sub(r"//.*", "", source)
    source = re.sub(r"^ghost use .*$", "", source, flags=re.M)
    code, depth = "", 0
    for piece in re.split(r"(\b(?:requires|ensures) \{|[{}])", source):
        if depth == 0 and not re.match(r"(requires|ensures) ", piece):
            code += piece
        else:
            depth += piece.count("{") - piece.count("}")
    return code


def operators(code):
    """The operators that multiply, divide or take a remainder, each with its line."""
    return [line.strip() for line in code.splitlines() if re.search(r"[*/%]", line)]


def used(file, code):
    """The files that a file's code names, by `use` or by a path."""
    crates = {line.split(":")[0] for line in (ROOT / "crates.txt").read_text().splitlines() if not line.startswith("#")}
    for first, module in re.findall(r"\b([a-z_]+)::([a-z_]+)", code):
        crate = file.split("/")[0] if first == "crate" else first
        found = f"{crate}/src/{module}.rt"
        if crate in crates and (ROOT / "crates" / found).is_file():
            yield found


def sources():
    """No file that the walk uses has such an operator."""
    files = [WALK]
    for file in files:
        code = code_of((ROOT / "crates" / file).read_text())
        same(f"operators in {file}", [], operators(code))
        files += [f for f in dict.fromkeys(used(file, code)) if f not in files]
    print(f"sources read: {' '.join(files)}")


def samples_in_sources():
    """Each operator is found where it is run, and passed over where it is not."""
    whole = (ROOT / "crates" / WALK).read_text()
    last = "            chords += at.odd - 1;\n"
    same("places for a sample", True, last in whole)
    for sample in ["c = c * c;", "c = y / c;", "c = y % c;", "c *= y;", "c /= y;", "c %= y;"]:
        broken = code_of(whole.replace(last, f"{last}            {sample}\n", 1))
        same(f"found in the sample {sample!r}", [sample], operators(broken))
    for sample in ["// c * c / y % d", "    requires { c * c / y % 2 ≡ 0 }", "    ensures { (result * 2) ≡ c }"]:
        same(f"found in {sample!r}", [], operators(code_of(f"{sample}\n{whole}")))
    same("a file named by its path alone", ["arith/src/root.rt"], list(used(WALK, "let c = arith::root::root_below(n, c);")))


def proved():
    """The functions that were proved, by name: what the compiler was handed, one statement for each step."""
    files = sorted((ROOT / "crates").glob("*/out/rlib/*.rlib/toolchain/mir.json"))
    return {name: function["body"] for file in files for name, function in json.loads(file.read_text())}


def steps(body):
    """Every operation and every call of a proved function."""
    operations, calls, left = set(), [], [body]
    while left:
        part = left.pop()
        if isinstance(part, list):
            left += part
        elif isinstance(part, dict):
            for name, inner in part.items():
                if name.startswith("Op") and name != "Opd":
                    operations.add(inner[0] if isinstance(inner[0], str) else next(iter(inner[0])))
                if name == "Call":
                    # a call by a bound or a pointer names no function: where a walk makes one, it is looked for in vain
                    calls.append(inner[0]["Fn"][0] if "Fn" in inner[0] else json.dumps(inner[0]))
                left.append(inner)
    return operations, calls


def reached(functions):
    """The functions that a walk calls, from those that other rooms call down."""
    names = list(CALLED_FROM_OUTSIDE)
    for name in names:
        names += [n for n in dict.fromkeys(steps(functions[name])[1]) if n not in names]
    return names


def proved_code():
    """Every operation of what was proved is one that is allowed."""
    functions = proved()
    names = reached(functions)
    for name in names:
        same(f"operations of {name}", set(), steps(functions[name])[0] - ALLOWED)
    print(f"functions read: {' '.join(names)}")
    others = set().union(*(steps(body)[0] for name, body in functions.items() if name not in names))
    same("found in the other functions", {"Mul", "Div", "Rem"}, others & {"Mul", "Div", "Rem"})
    same("calls followed", True, "circle::chord::Kept::risen" in names and "circle::chord::Kept::fallen" in names)


def instructions():
    """The library's functions, each with its instructions."""
    functions, name = {}, None
    said = subprocess.run(["objdump", "-d", "--no-show-raw-insn", LIBRARY], capture_output=True, text=True, check=True).stdout
    for line in said.splitlines():
        if head := re.match(r"[0-9a-f]+ <(.*)>:$", line):
            name = head[1]
            functions[name] = []
        elif step := re.match(r" *[0-9a-f]+:\t(\S+)", line):
            functions[name].append(step[1])
    return functions


def multiplying(names):
    return {n for n in names if re.search(r"mul|div|sqrt", n)}


def built_code():
    """Of the functions that can be told apart in the library, none has an instruction that multiplies or divides."""
    functions = instructions()
    apart = [name for name in reached(proved()) if name in functions]
    same("a function of the walk can be told apart", True, apart != [])
    for name in apart:
        same(f"instructions of {name}", set(), multiplying(functions[name]))
        print(f"instructions read: {len(functions[name])} of {name}")
    others = [step for name, listed in functions.items() if name not in apart for step in listed]
    same("found in the library's other functions", {"div", "imul"}, multiplying(others) & {"div", "imul"})


try_all("the chord", sources, samples_in_sources, proved_code, built_code)
