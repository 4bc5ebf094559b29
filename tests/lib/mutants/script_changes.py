"""The single changes of a tool in Python or of a script of the shell, each as the whole text with the change.

A tool needs no build: a change is made in a copy of it. What a script of the tests reaches is noted by a copy in which each function
begins with a note, and each script of the shell too.
"""
import ast
import re

from tests.lib.mutants.rattle_changes import Change

COMPARED = {ast.Lt: ("<", "<="), ast.LtE: ("<=", "<"), ast.Gt: (">", ">="), ast.GtE: (">=", ">"), ast.Eq: ("==", "!="),
            ast.NotEq: ("!=", "=="), ast.In: (" in ", " not in "), ast.NotIn: (" not in ", " in "), ast.Is: (" is ", " is not "),
            ast.IsNot: (" is not ", " is ")}
# What may become of a line of the shell: a pattern, and what stands for it. The last leaves out a command that stands alone.
SHELL = [(r"(?<= )-lt(?= )", "-le"), (r"(?<= )-gt(?= )", "-ge"), (r"(?<= )-eq(?= )", "-ne"), (r"(?<= )=(?= )", "!="),
         (r"(?<= )!=(?= )", "="), (r"&&", "||"), (r"\|\|", "&&"), (r"(?<=\[ )-n(?= )", "-z"), (r"(?<=\[ )-z(?= )", "-n"),
         (r"^( *)if (?!!)", r"\1if ! "), (r"^( *)(return|exit) 1", r"\1\2 0"),
         (r"^( *)(?=[a-z_]+ [^)]*$)(?!if |for |while |case |elif |else|local |done|esac)[^#{}|\\]+$", r"\1:")]

NOTE = """
def _note(line, noted=set(), os=__import__("os")):
    place, key = f"PLACE:{line}", (line, os.environ.get("TEST_OF_CHANGES"))
    try:
        key in noted or noted.add(key) or os.path.exists(place) or os.close(os.open(place, os.O_CREAT, 0o666))
    except OSError:
        pass
"""


class Script:
    """A text with places by line and column, as `ast` counts them: in octets."""

    def __init__(self, name, text):
        self.name, self.data = name, text.encode()
        self.starts = [0]
        for line in self.data.splitlines(keepends=True):
            self.starts.append(self.starts[-1] + len(line))

    def span(self, node):
        return self.starts[node.lineno - 1] + node.col_offset, self.starts[node.end_lineno - 1] + node.end_col_offset

    def with_text(self, start, end, text):
        return (self.data[:start] + text.encode() + self.data[end:]).decode()

    def of(self, node):
        start, end = self.span(node)
        return self.data[start:end].decode()

    def change(self, node, what, start, end, text):
        return Change(self.name, node.lineno, what, self.with_text(start, end, text))


def python_changes(name, text):
    """The changes of a file of Python, in the order of its lines."""
    script, tree = Script(name, text), ast.parse(text)
    return sorted((change for node in ast.walk(tree) for change in changes_of(script, node)), key=lambda change: change.line)


def is_text_of_its_language(change):
    """Whether a change of Python can be read. One of the shell is tried in any case."""
    if is_python(change.file, change.text):
        try:
            ast.parse(change.text)
        except SyntaxError:
            return False
    return True


def changes_of(script, node):
    """The changes of one node of the tree."""
    if isinstance(node, ast.Compare) and len(node.ops) == 1:
        yield from between(script, node, node.left, node.comparators[0], *COMPARED[type(node.ops[0])])
    elif isinstance(node, ast.BoolOp):
        words = ("and", "or") if isinstance(node.op, ast.And) else ("or", "and")
        yield from between(script, node, node.values[0], node.values[1], *words)
    elif isinstance(node, ast.BinOp) and isinstance(node.op, (ast.Add, ast.Sub)):
        yield from between(script, node, node.left, node.right, *(("+", "-") if isinstance(node.op, ast.Add) else ("-", "+")))
    elif isinstance(node, ast.Constant) and isinstance(node.value, (bool, int)):
        yield from of_constant(script, node)
    elif isinstance(node, (ast.If, ast.While, ast.IfExp)):
        yield script.change(node, "a condition negated", *script.span(node.test), f"(not ({script.of(node.test)}))")
    elif isinstance(node, ast.Expr) and isinstance(node.value, (ast.Call, ast.Yield, ast.YieldFrom)):
        yield script.change(node, "a statement left out", *script.span(node), "pass")
    elif isinstance(node, ast.Call):
        yield from exchanged(script, node)
    elif isinstance(node, ast.FunctionDef) and len(node.body) > 1:
        start = script.span(node.body[1])[0]
        yield script.change(node.body[1], "an early return", start, start, "return\n" + " " * node.body[1].col_offset)


def between(script, node, left, right, word, other):
    """Another word in place of the one between two nodes."""
    start, end = script.span(left)[1], script.span(right)[0]
    gap = script.data[start:end].decode()
    if gap.count(word) == 1:
        yield script.change(left, f"{word.strip()} is {other.strip()}", start, end, gap.replace(word, other))


def of_constant(script, node):
    if isinstance(node.value, bool):
        yield script.change(node, f"{node.value} is {not node.value}", *script.span(node), str(not node.value))
    else:
        yield script.change(node, f"{node.value} is one more", *script.span(node), str(node.value + 1))


def exchanged(script, node):
    """Two plain arguments beside one another, exchanged."""
    for one, other in zip(node.args, node.args[1:]):
        if all(isinstance(it, (ast.Name, ast.Attribute)) for it in (one, other)):
            text = f"{script.of(other)}, {script.of(one)}"
            yield script.change(one, f"{script.of(one)} and {script.of(other)} exchanged", script.span(one)[0], script.span(other)[1], text)


def shell_changes(name, text):
    """The changes of a script of the shell, a line at a time."""
    lines = text.splitlines(keepends=True)
    for number, line in enumerate(lines):
        for pattern, other in SHELL:
            for place in [] if line.lstrip().startswith("#") else re.finditer(pattern, line):
                changed = line[:place.start()] + place.expand(other) + line[place.end():]
                what = f"{place[0].strip() or 'if'} is {place.expand(other).strip()}"
                yield Change(name, number + 1, what, "".join(lines[:number] + [changed] + lines[number + 1:]))


def script_changes(name, text):
    return python_changes(name, text) if is_python(name, text) else list(shell_changes(name, text))


def is_python(name, text):
    return name.endswith((".py", ".py.in")) or "python" in text.split("\n", 1)[0]


def noting(name, text, folder):
    """The text, where each function notes that it was reached, by an empty file whose name is its first line in the folder."""
    place = f"{folder}/{name.replace('/', '+')}"
    if not is_python(name, text):
        head, _, rest = text.partition("\n")
        return f"{head}\n: >> '{place}:1'\n{rest}"
    lines, tree = text.splitlines(), ast.parse(text)
    functions = [node for node in ast.walk(tree) if isinstance(node, ast.FunctionDef) and node.body[0].lineno > node.lineno]
    for node in sorted(functions, key=lambda node: -node.body[0].lineno):
        first = node.body[0]
        lines.insert(first.lineno - 1, f"{' ' * first.col_offset}_note({node.lineno})")
    if functions:
        # Behind the text that the file begins with, which may be told.
        lines[tree.body[0].end_lineno:tree.body[0].end_lineno] = NOTE.replace("PLACE", place).splitlines()
    return "\n".join([*lines, ""])


def line_of_function(text, line):
    """The first line of the innermost function around a line, or nothing where none is."""
    functions = [node for node in ast.walk(ast.parse(text)) if isinstance(node, ast.FunctionDef) and node.lineno <= line <= node.end_lineno]
    return max((node.lineno for node in functions if node.body[0].lineno > node.lineno), default=None)
