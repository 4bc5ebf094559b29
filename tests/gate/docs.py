"""Checks the links, paths and figures of the pages, the libraries of crates.txt, and versions; or prints the list of definitions.

usage: python3 -m tests.gate.docs --check          what is wrong, a line for each; the last line is `N passed, M failed`, of links, paths,
       stretches, libraries and versions
       python3 -m tests.gate.docs --write          writes the stretches of the pages that are made from the tables of docs/performance.md
       python3 -m tests.gate.docs --definitions    prints what each file of definitions defines, by its first comment

A stretch stands between `<!-- NAME: begin -->` and `<!-- NAME: end -->`.
"""
import functools
import re
import subprocess
import sys

from tests.lib import TOP, progress
from tools.version import VERSION

PAGES = [TOP / name for name in ("README.md", "SECURITY.md", "CHANGELOG.md")] + sorted(TOP.glob("docs/**/*.md"))
TEXTS = ["man/**/*.[158]", "packaging/**/*", "examples/**/*", "bench/**/*", "tests/**/*.py", "tests/**/*.c", "tests/**/*.yml",
         "Makefile", "crates/*/src/**/*.rt", "crates/*/specs/**/*.antt"]
STRETCH = re.compile(r"(<!-- (\w+): begin -->)(.*?)(<!-- \2: end -->)", re.DOTALL)
FOLDERS = ("bench", "crates", "docs", "examples", "man", "packaging", "tests")
PATH = re.compile(r"(?<![\w./@~$-])(?:[\w.-]+/)*[\w-]+\.(?:rt|antt|py|md|c|h|toml|yml|json|jsonl|svg|replay|answers|edit|row|conf|in)(?![\w/-]|\.\w)")
# What a Rattle file names: a crate before two colons, or behind `Rattle.` in a definition.
NAMED = re.compile(r"\b([a-z]\w*)::|\bRattle\.([a-z]\w*)\.")
# A version, as a constant or as the heading of the newest one.
OF_VERSION = re.compile(r"^(?:(?:pub )?(?:const )?VERSION(?:: &str)? = \"|## )(\d+\.\d+\.\d+)\b", re.MULTILINE)
PLACE = re.compile(r"(?<![\w./@~$-])(?:" + "|".join(FOLDERS) + r")(?:/[\w.@-]+)+/?")


def without_code(text):
    """The page without its indented stretches and its pieces of code, in which brackets are no links."""
    text = re.sub(r"^(?:    |\t).*$", "", text, flags=re.MULTILINE)
    return re.sub(r"`[^`]*`", lambda found: "`" + re.sub(r"[\[\]]", "", found.group()[1:-1]) + "`", text)


def slug(heading):
    """The anchor of a heading, as GitHub makes it."""
    heading = re.sub(r"\[([^\]]*)\]\([^)]*\)", r"\1", heading.strip()).lower()
    return re.sub(r"[^\w\- ]", "", heading).replace(" ", "-")


@functools.cache
def anchors(page):
    """The anchors of a page. A heading that occurs again has a number behind it."""
    found, counts = set(), {}
    for line in page.read_text("utf-8").splitlines():
        if re.match(r"#{1,6} ", line):
            name = slug(line.lstrip("#"))
            counts[name] = counts.get(name, -1) + 1
            found.add(f"{name}-{counts[name]}" if counts[name] else name)
    return found


def dead_links(page, text):
    """Each link of a page, with what is wrong with it, or nothing."""
    for target in re.findall(r"\]\(([^)\s]+)\)", without_code(text)):
        if re.match(r"[a-z]+:", target):
            continue
        path, _, anchor = target.partition("#")
        other = (page.parent / path).resolve() if path else page
        if not other.exists():
            yield f"the link {target} leads nowhere"
        elif anchor and (other.suffix != ".md" or anchor not in anchors(other)):
            yield f"the link {target} has no such anchor"
        else:
            yield None


@functools.cache
def files():
    """The files of the repository: those that git has, and without git all but what checks keep."""
    listed = subprocess.run(["git", "ls-files", "-co", "--exclude-standard"], cwd=TOP, capture_output=True, text=True)
    if listed.returncode == 0:
        names = listed.stdout.splitlines()
    else:
        names = [str(path.relative_to(TOP)) for path in TOP.glob("**/*") if path.is_file()]
    return frozenset(name for name in names if (TOP / name).exists())


@functools.cache
def endings():
    """Every ending of a path of the repository that begins at the name of a folder or a file."""
    found = set()
    for name in files():
        parts = name.split("/")
        for stop in range(1, len(parts) + 1):
            found.update("/".join(parts[start:stop]) for start in range(stop))
    return frozenset(found)


def is_made(path):
    """Whether a path is none of the repository's own: it is made, stands for others, or is an operator's."""
    return path in MADE or bool(re.search(r"(^|/)out(/|$)|(^|/)[A-Z]+(/|-|\.|$)(?!/?(md|antt))", path))


MADE = {"rad_proxy.toml", "proofs/pair/front/Answers.antt", "models.replay"}


def lost_paths(page, text):
    """Each path that a page names, with what is wrong with it, or nothing. One of a place below crates may leave its first folders out.
    In docs/map.md a file without a folder is in that of the last path with the same ending, in its row or paragraph."""
    text = re.sub(r"\]\([^)]*\)", "]", text)
    for place in sorted({found.rstrip("/.") for found in PLACE.findall(text)}):
        if not is_made(place):
            yield None if place in endings() else f"the path {place} is not there"
    for stretch in re.split(r"\n\n|\n(?=\|)", text):
        folders = {}
        for path in PATH.findall(stretch):
            folder, _, name = path.rpartition("/")
            ending = name.rpartition(".")[2]
            if page.name == "map.md" and ending in ("rt", "antt"):
                folder = folders[ending] = folder or folders.get(ending, "")
                path = f"{folder}/{name}" if folder else name
            if not is_made(path):
                yield None if path in endings() else f"the path {path} is not there"


def lost_pages(text):
    """Each page that another text of the repository names, with what is wrong with it, or nothing."""
    for name, anchor in re.findall(r"(?<![\w/-])(docs/[\w/-]+\.md)(?:#([\w-]+))?", text):
        page = TOP / name
        if not page.exists():
            yield f"there is no {name}"
        else:
            yield f"{name} has no anchor {anchor}" if anchor and anchor not in anchors(page) else None


def cited():
    """The names in type face of the README and of docs/map.md."""
    text = "\n".join((TOP / name).read_text("utf-8") for name in ("README.md", "docs/map.md"))
    return set(re.findall(r"`([A-Za-z_]\w+)`", text))


def first_comment(text):
    """The comment with which a file begins, as one line."""
    lines = []
    for line in text.splitlines():
        if not line.startswith("--"):
            break
        lines.append(line[2:].strip())
    return " ".join(lines)


def definition_line(path, names):
    """The line of a file of definitions: what its first comment says it defines, the names that pages cite, and its sources."""
    text = path.read_text("utf-8")
    comment = first_comment(text)
    sources = list(dict.fromkeys(re.findall(r"RFC \d+(?: section [\d.]*\d)?", comment)))
    sources = [source for source in sources if "section" in source or not any(other.startswith(source + " ") for other in sources)]
    if sources and re.search(r"\bown\b", comment):
        sources.append("own")
    sentence = re.split(r"\.(?= |$)", re.sub(r" ?\((?:own|[^()]*RFC[^()]*)\)", "", re.sub(r"section (\d+) ", r"section \1 ", comment)))[0]
    if len(sentence) > 60 and ": " in sentence:
        sentence = sentence.split(": ")[0]
    defined = re.findall(r"^(?:(?:abbrev|unfoldable|pub|record|data) )+([A-Za-z_]\w*)", text, re.MULTILINE)
    shown = ", ".join(name for name in dict.fromkeys(defined) if name in names)
    what = sentence if re.match(r"[\w-]+[A-Z]", sentence) else sentence[:1].lower() + sentence[1:]
    sources = [source for source in sources if source not in what]
    what += f" ({', '.join(sources)})" if sources else ""
    return f"{path.relative_to(TOP / 'crates')}: {what}{': ' + shown if shown else ''}"


def definitions():
    """The list of all files of definitions that a public contract may cite."""
    names = cited()
    paths = [path for path in sorted(TOP.glob("crates/*/specs/*.antt")) if path.stem not in ("Lib", "internal")]
    return [definition_line(path, names) for path in paths]


def table(name):
    """A table of docs/performance.md by the mark that names it: its rows, each as its cells."""
    text = (TOP / "docs" / "performance.md").read_text("utf-8")
    body = re.search(rf"<!-- figures: {name} -->\n(.*?)<!-- end of figures -->", text, re.DOTALL).group(1)
    lines = [line for line in body.splitlines() if " | " in line]
    return [[cell.strip() for cell in line.strip("|").split("|")] for line in lines[:1] + lines[2:]]


def number(cell):
    """The number in a cell."""
    return float(cell.replace(",", ""))


def least_to_greatest(cells):
    """The least and the greatest of the ratios in cells, of which one without a ratio does not count."""
    found = [number(cell) for cell in cells if re.fullmatch(r"[\d,.]+", cell)]
    return f"{min(found):.2f} to {max(found):.2f}"


def beside_others():
    """How the program compares with radsecproxy, from the worst to the best figure of the tables of throughput and of times to the answer."""
    head, *rows = table("throughput")
    carried = least_to_greatest(row[head.index("rad_proxy to radsecproxy")] for row in rows)
    head, *rows = table("latency")
    slowest = least_to_greatest(row[head.index("p99.9")] for row in rows if row[1] == "rad_proxy to radsecproxy")
    return (f"At commit {dict(table('machine'))['rad_proxy']} it [carried](docs/performance.md) {carried} times as many requests a second as radsecproxy, and its "
            f"slowest answer in a thousand took {slowest} times as long")


MADE_STRETCHES = {"beside": beside_others}


def with_stretches(text):
    """A page with each stretch as it is made now. One that this script does not make stays."""
    return STRETCH.sub(lambda found: f"{found[1]}{MADE_STRETCHES[found[2]]()}{found[4]}" if found[2] in MADE_STRETCHES else found[0], text)


def stretches(text):
    """Each stretch of a page that is made, with what is wrong with it, or nothing."""
    for found in STRETCH.finditer(text):
        if found[2] in MADE_STRETCHES:
            yield None if MADE_STRETCHES[found[2]]() == found[3] else f"`{found[2]}` is not as it is made: run python3 -m tests.gate.docs --write"


def listed():
    """For each library that crates.txt lists of a crate: nothing, or that neither a file of the crate nor the line's comment names it."""
    told = {line.partition(":")[0]: line.partition("#")[2] for line in (TOP / "crates.txt").read_text("utf-8").splitlines()}
    for name, libraries in progress.libraries(TOP).items():
        files = [file for part in ("src", "specs", "proofs") for file in (TOP / "crates" / name / part).rglob("*") if file.is_file()]
        named = {word for file in files for pair in NAMED.findall(file.read_text("utf-8")) for word in pair}
        yield from (None if it in named or it in told[name] else f"{name} lists {it}, which no file of it names" for it in libraries)


def versions():
    """For each file that has a version of its own: nothing, or that it is not that of the tools."""
    for path in [*sorted(TOP.glob("crates/*/src/**/*.rt")), TOP / "CHANGELOG.md"]:
        its = OF_VERSION.search(path.read_text("utf-8"))
        if its:
            yield path, None if its[1] == VERSION else f"its version is {its[1]}, and that of tools/version.py is {VERSION}"


def check():
    """Prints what is wrong with the pages, with crates.txt and with the versions, and returns whether nothing is."""
    found = [*versions(), *((TOP / "crates.txt", finding) for finding in listed())]
    for page in PAGES:
        text = page.read_text("utf-8")
        findings = [*dead_links(page, text), *stretches(text)] + ([] if page.name == "CHANGELOG.md" else [*lost_paths(page, text)])
        found += [(page, finding) for finding in findings]
    for pattern in TEXTS:
        for path in sorted(TOP.glob(pattern)):
            if path.is_file() and path.suffix != ".svg" and "out" not in path.parts:
                found += [(path, finding) for finding in lost_pages(path.read_text("utf-8", "replace"))]
    wrong = [(path, finding) for path, finding in found if finding]
    for path, finding in wrong:
        print(f"{path.relative_to(TOP)}: {finding}")
    print(f"{len(found) - len(wrong)} passed, {len(wrong)} failed")
    return not wrong


def write():
    """Writes each page whose stretches are not as they are made."""
    for page in PAGES:
        text = page.read_text("utf-8")
        made = with_stretches(text)
        if made != text:
            page.write_text(made, "utf-8")
            print(page.relative_to(TOP))


def main():
    if sys.argv[1:] == ["--write"]:
        write()
    elif sys.argv[1:] == ["--check"]:
        sys.exit(0 if check() else 1)
    elif sys.argv[1:] == ["--definitions"]:
        print(*definitions(), sep="\n")
    else:
        sys.exit(__doc__)


if __name__ == "__main__":
    main()
