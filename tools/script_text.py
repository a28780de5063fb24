# SPDX-License-Identifier: Apache-2.0
"""Files of Python and of JavaScript read as text: their functions, how deep the blocks of one stand within one another, what has no docstring, and the
names that they give. Of JavaScript it knows the layout of the page's modules and no more: a function ends where its closing brace has its indentation."""
import ast
import re
from collections.abc import Iterator
from dataclasses import dataclass

Definition = ast.FunctionDef | ast.AsyncFunctionDef
BLOCKS = (ast.For, ast.AsyncFor, ast.While, ast.If, ast.With, ast.AsyncWith, ast.Try, ast.Match)
# The head of a function or a method of JavaScript, and of a local variable.
HEAD = re.compile(r"^( *)(?:export )?(?:default )?(?:static )?(?:async )?(?:function )?((?!(?:if|for|while|switch|catch)\b)#?\w+)\([^;]*\) \{$", re.MULTILINE)
LOCAL = re.compile(r"\b(?:const|let|var) (?:(\w+)|[\[{]([\w, ]+)[\]}])|function (\w+)")


@dataclass(frozen=True)
class Function:
    """A function: where it stands, how many lines its body has, its docstring among them, and how deep blocks stand within one another, the body being
    the first."""
    name: str
    line: int
    lines: int
    depth: int


def depth_of(node: ast.AST) -> int:
    """How many blocks of a statement's parts stand within one another at most. `elif` is none of its own, and a function within has its own count."""
    deepest = 0
    for name, value in ast.iter_fields(node):
        values = value if isinstance(value, list) else [value]
        parts = [part for part in values if isinstance(part, ast.AST) and not isinstance(part, Definition | ast.ClassDef)]
        is_elif = isinstance(node, ast.If) and name == "orelse" and len(parts) == 1 and isinstance(parts[0], ast.If)
        deepest = max([deepest, *(depth_of(part) + (isinstance(part, BLOCKS) and not is_elif) for part in parts)])
    return deepest


def functions_of_python(text: str) -> Iterator[Function]:
    """The functions of a file of Python."""
    for node in ast.walk(ast.parse(text)):
        if isinstance(node, Definition):
            yield Function(node.name, node.lineno, (node.end_lineno or 0) - node.body[0].lineno + 1, 1 + depth_of(node))


def functions_of_page(text: str) -> Iterator[Function]:
    """The functions of a module of the page. A block is where a line ends in a brace and the next one stands deeper."""
    lines = text.splitlines()
    for match in HEAD.finditer(text):
        first = text.count("\n", 0, match.start())
        end = next((at for at in range(first + 1, len(lines)) if lines[at].startswith(f"{match[1]}}}")), len(lines))
        opened = [len(line) - len(line.lstrip()) for line in lines[first + 1:end] if line.endswith("{")]
        yield Function(match[2], first + 1, end - first - 1, 1 + max([(indent - len(match[1])) // 2 for indent in opened], default=0))


def without_docstring(text: str) -> Iterator[tuple[str, int]]:
    """The public classes and functions of a module without one: those of the module and of its public classes, without forms of one overloaded name."""
    left: list[ast.AST] = [ast.parse(text)]
    while left:
        for node in ast.iter_child_nodes(left.pop()):
            if not isinstance(node, Definition | ast.ClassDef) or node.name.startswith("_"):
                continue
            if ast.get_docstring(node) is None and not any(isinstance(one, ast.Name) and one.id == "overload" for one in node.decorator_list):
                yield node.name, node.lineno
            left += [node] if isinstance(node, ast.ClassDef) else []


def names_of_python(text: str) -> Iterator[tuple[str, int]]:
    """The names that a file of Python gives: to functions, classes, arguments and variables."""
    for node in ast.walk(ast.parse(text)):
        if isinstance(node, Definition | ast.ClassDef):
            yield node.name, node.lineno
        elif isinstance(node, ast.arg):
            yield node.arg, node.lineno
        elif isinstance(node, ast.Name) and isinstance(node.ctx, ast.Store):
            yield node.id, node.lineno


def names_of_page(text: str) -> Iterator[tuple[str, int]]:
    """The names that a module of the page gives to functions and variables."""
    for match in LOCAL.finditer(text):
        for name in re.findall(r"\w+", match[1] or match[2] or match[3]):
            yield name, text.count("\n", 0, match.start()) + 1
