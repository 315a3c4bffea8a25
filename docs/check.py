#!/usr/bin/env python3
"""Checks the pages, and what they count. Ends with status 1 where something is wrong. With --mend it writes the lines of
places and the numbers of lines anew; all else is for a person.

  links     each link leads to a file
  places    each `CRATE/src/FILE.rt:LINE` (`NAME`) is the line of that function
  crates    crates.txt has the folders of crates/, and the programs of bench/ are built of those
  tables    README.md and docs/ARCHITECTURE.md name each crate once in their tables, the latter by the groups of crates.txt
  linked    what docs/ARCHITECTURE.md marks with a star is what the program links
  chain     the chain of docs/ARCHITECTURE.md is one of crates.txt, and none is longer
  areas     the crates that docs/ARCHITECTURE.md says to touch an area are those that call a shelf
  sceptic   the numbers of lines in the tables of docs/TRUST.md and docs/HEADLINE.md
  words     each word of code on a page (`a_word`, `CRATE/specs/FILE`, `CRATE::name`) is in the repository or the kit
"""
import os
import re
import sys

TOP = os.path.dirname(os.path.dirname(os.path.abspath(__file__)))
LINK = re.compile(r"\[[^\]\n]+\]\(([^)#\s]+)(?:#[^)]*)?\)")
PLACE = re.compile(r"`((?:crates/)?\w+/(?:src|specs)/[\w/]+\.\w+):(\d+)` \(`(\w+)`\)")
TABLED = re.compile(r"\[(\w+)\]\((?:\.\./)?crates/(\w+)/README\.md\)")
AREA_CALL = re.compile(r"\bshelf\s*\.\s*(?:read|write|sync|len|fresh|arm)\(|\bwrite_synced\(")
# Crates of the kit, and words that stand for others: of the system, of the kit's language, of formats and of examples.
KIT = {"sha2", "byteorder", "hex", "memchr", "lru", "anyhow", "std"}
OTHER = {"from_residual", "zero", "suc", "refl", "fsync", "sync", "soft", "hard", "err_from_is_err_and", "main"}

wrong = 0


def say(text):
    global wrong
    wrong += 1
    print(text)


def read(*path):
    with open(os.path.join(TOP, *path), encoding="utf-8") as file:
        return file.read()


def pages():
    yield "README.md"
    for folder in ("docs", "bench"):
        for name in sorted(os.listdir(os.path.join(TOP, folder))):
            if name.endswith(".md"):
                yield os.path.join(folder, name)
    for name in sorted(os.listdir(os.path.join(TOP, "crates"))):
        if os.path.exists(os.path.join(TOP, "crates", name, "README.md")):
            yield os.path.join("crates", name, "README.md")


def sources(crate, *folders):
    for folder in folders:
        for place, _, names in os.walk(os.path.join(TOP, "crates", crate, folder)):
            for name in sorted(names):
                if name.endswith((".rt", ".antt")):
                    yield os.path.join(place, name)


def stands_on():
    found = {}
    for line in read("crates.txt").splitlines():
        if line and not line.startswith("#"):
            name, _, rest = line.partition(":")
            found[name] = rest.split()
    return found


def line_of(path, name, near):
    """The line nearest to `near` that defines this name, or None."""
    head = re.compile(r"\b(?:fn|struct|enum|trait|const|abbrev pub|record|data) %s\b" % re.escape(name))
    with open(path, encoding="utf-8") as file:
        found = [number for number, line in enumerate(file, 1) if head.search(line)]
    return min(found, key=lambda number: abs(number - near)) if found else None


def links(page, text):
    for match in LINK.finditer(text):
        target = match.group(1)
        if not re.match(r"\w+:", target) and not os.path.exists(os.path.join(TOP, os.path.dirname(page), target)):
            say(f"{page}: no file {target}")


def places(page, text, mend):
    def placed(match):
        path, line, name = match.group(1), int(match.group(2)), match.group(3)
        full = os.path.join(TOP, path if path.startswith("crates/") else os.path.join("crates", path))
        there = line_of(full, name, line) if os.path.exists(full) else None
        if there == line:
            return match.group(0)
        if there is not None and mend:
            return match.group(0).replace(f":{line}`", f":{there}`")
        say(f"{page}: {path}:{line} ({name}) is at {there}")
        return match.group(0)

    return PLACE.sub(placed, text)


def crates(deps):
    folders = {name for name in os.listdir(os.path.join(TOP, "crates")) if os.path.isdir(os.path.join(TOP, "crates", name, "src"))}
    for name in sorted(folders ^ set(deps)):
        say(f"crates.txt and crates/ differ in {name}")
    for name in sorted(os.listdir(os.path.join(TOP, "bench"))):
        for line in read("bench", name).splitlines() if name.endswith(".sh") else []:
            for crate in line.split()[2:] if line.startswith("build ") else []:
                if crate not in deps and crate not in KIT:
                    say(f"bench/{name}: no crate {crate}")


def tables(deps):
    for page in ("README.md", os.path.join("docs", "ARCHITECTURE.md")):
        named = []
        for line in read(page).splitlines():
            if line.startswith("|"):
                for shown, folder in TABLED.findall(line):
                    named.append(folder)
                    if shown != folder:
                        say(f"{page}: {shown} leads to {folder}")
        for name in sorted(deps):
            if named.count(name) != 1:
                say(f"{page}: the tables have {name} {named.count(name)} times")


def layers():
    """Each crate stands in the layer of docs/ARCHITECTURE.md that is its group in crates.txt."""
    group, groups = "", {}
    for line in read("crates.txt").splitlines():
        if line.startswith("# "):
            group = line[2:]
        elif line:
            groups[line.partition(":")[0]] = group
    layer = ""
    for line in read("docs", "ARCHITECTURE.md").partition("\n| Layers | Rooms |")[0].splitlines():
        if line.startswith("|"):
            first = line.split("|")[1].strip()
            layer = first or layer
            for _, name in TABLED.findall(line):
                if groups.get(name, layer) != layer:
                    say(f"docs/ARCHITECTURE.md: {name} is in the layer {layer}, and in crates.txt in {groups[name]}")


def linked(deps):
    within = {"cdstore"}
    todo = ["cdstore"]
    while todo:
        for name in deps.get(todo.pop(), []):
            if name in deps and name not in within:
                within.add(name)
                todo.append(name)
    starred = set(re.findall(r"★\[(\w+)\]", read("docs", "ARCHITECTURE.md")))
    for name in sorted(within - starred):
        say(f"docs/ARCHITECTURE.md: the program links {name}, which has no star")
    for name in sorted(starred - within):
        say(f"docs/ARCHITECTURE.md: {name} has a star, and the program doesn't link it")


def chain(deps):
    longest = {}

    def length(name):
        if name not in longest:
            longest[name] = 1 + max((length(below) for below in deps[name] if below in deps), default=0)
        return longest[name]

    most = length("cdstore")
    text = read("docs", "ARCHITECTURE.md")
    part = re.search(r"The longest chain [^\n]*It has (\d+) crates:\n\n((?:    [^\n]*\n)+)", text)
    if part is None:
        say("docs/ARCHITECTURE.md: no longest chain")
        return
    names = re.findall(r"\w+", part.group(2))
    for below, above in zip(names, names[1:]):
        if below not in deps.get(above, []):
            say(f"docs/ARCHITECTURE.md: {above} doesn't stand on {below}")
    if not len(names) == int(part.group(1)) == most:
        say(f"docs/ARCHITECTURE.md: the chain has {len(names)} crates and says {part.group(1)}, the longest has {most}")


def areas(deps):
    calling = set()
    for name in deps:
        if name.startswith("tests_") or name == "cd_edges":
            continue
        if any(AREA_CALL.search(re.sub(r"//.*", "", read(path))) for path in sources(name, "src")):
            calling.add(name)
    part = re.search(r"Only (\w+) crates touch an area\.\*\* (.*?): the first two", read("docs", "ARCHITECTURE.md"), re.S)
    named = set(re.findall(r"`(\w+)`", part.group(2))) if part else set()
    for name in sorted(calling ^ named):
        say(f"docs/ARCHITECTURE.md: {name} {'touches' if name in calling else 'does not touch'} an area")
    numbers = "no one two three four five six seven eight nine ten eleven twelve".split()
    if part and numbers[len(calling)] != part.group(1):
        say(f"docs/ARCHITECTURE.md: {numbers[len(calling)]} crates touch an area")


def sceptic(page, mend):
    """Each row of the page's table "To believe": the files that it names have so many lines, rounded to tens."""
    text = read(page)
    out = []
    within = False
    for line in text.splitlines():
        cells = [cell.strip() for cell in line.strip("|").split("|")]
        if line.startswith("| To believe"):
            within = True
        elif within and line.startswith("|") and not line.startswith("|-"):
            folder, total = "", 0
            for name in re.findall(r"`([\w/]+)`", cells[1].partition(", and of the rows above")[0]):
                if "/" in name:
                    folder = os.path.dirname(name) if not name.endswith("/specs") else name
                path = os.path.join("crates", name if "/" in name else os.path.join(folder, name))
                if os.path.isdir(os.path.join(TOP, path)):
                    files = [os.path.join(place, each) for place, _, names in os.walk(os.path.join(TOP, path)) for each in names]
                else:
                    files = [os.path.join(TOP, path + ".antt")]
                for each in files:
                    if os.path.exists(each):
                        total += len(read(each).splitlines())
                    else:
                        say(f"{page}: no file {path}.antt")
            said = int(cells[2].replace(",", ""))
            if abs(said - total) > max(10, total // 20):
                if mend:
                    line = f"| {cells[0]} | {cells[1]} | {round(total, -1):,} |"
                else:
                    say(f"{page}: {cells[0]}: {total} lines, and not {said}")
        elif within and not line.startswith("|"):
            within = False
        out.append(line)
    mended = "\n".join(out) + "\n"
    if mended != text:
        with open(os.path.join(TOP, page), "w", encoding="utf-8") as file:
            file.write(mended)


def known_words(deps):
    """All words of the sources, the scripts and the names of files."""
    words = set(KIT) | OTHER | set(deps)
    for place, folders, names in os.walk(TOP):
        folders[:] = [each for each in folders if not each.startswith(".") and each not in ("out", "target")]
        for name in names:
            words.update(re.findall(r"\w+", name))
            if name.endswith((".rt", ".antt", ".sh", ".py", ".txt", ".edit", ".1", ".service")):
                with open(os.path.join(place, name), encoding="utf-8", errors="replace") as file:
                    words.update(re.findall(r"[A-Za-z_]\w*", file.read()))
    return words


def words_of_code(page, text, deps, words):
    code = re.sub(r"```.*?```", "", text, flags=re.S)
    for span in re.findall(r"`([^`\n]+)`", code):
        for crate, kind in re.findall(r"(?<![\w/.])([a-z]\w*)/(src|specs|proofs|must-fail)\b", span):
            if crate not in deps and crate != "crates":
                say(f"{page}: `{span}`: no crate {crate}")
        for crate in re.findall(r"\bcrates/(\w+)", span) + re.findall(r"\bRattle\.(\w+)\.", span):
            if crate not in deps and crate not in KIT and crate != "NAME":
                say(f"{page}: `{span}`: no crate {crate}")
        if re.fullmatch(r"[a-z]\w*(?:::\w+)+", span):
            parts = span.split("::")
            if parts[0] not in words:
                say(f"{page}: `{span}`: no {parts[0]}")
        if re.fullmatch(r"[a-z]+(?:_[a-z0-9]+)+", span) and span not in words:
            say(f"{page}: no `{span}` in the repository")


def main():
    mend = "--mend" in sys.argv[1:]
    deps = stands_on()
    words = known_words(deps)
    for page in pages():
        text = read(page)
        links(page, text)
        mended = places(page, text, mend)
        words_of_code(page, text, deps, words)
        if mended != text:
            with open(os.path.join(TOP, page), "w", encoding="utf-8") as file:
                file.write(mended)
    crates(deps)
    tables(deps)
    layers()
    linked(deps)
    chain(deps)
    areas(deps)
    for page in ("TRUST.md", "HEADLINE.md"):
        sceptic(os.path.join("docs", page), mend)
    sys.exit(1 if wrong else 0)


main()
