"""The API reference of python/README.md, made of the docstrings of what the packages of python/pertxogai export."""
from __future__ import annotations

import ast
import re
from collections.abc import Iterator
from dataclasses import dataclass
from pathlib import Path

import import_graph

README = Path(__file__).resolve().parent.parent / "python" / "README.md"
BEGIN = "<!-- Made by tools/pages of the docstrings: change it there. -->\n"
END = "<!-- The end of what tools/pages makes. -->\n"
PACKAGES = [
    "pertxogai.program", "pertxogai.program.live", "pertxogai.program.library", "pertxogai.language",
    "pertxogai.program.reports", "pertxogai.drawing", "pertxogai.spelling", "pertxogai.judging",
    "pertxogai.judging.measure", "pertxogai.search", "pertxogai.completing", "pertxogai.ranging",
    "pertxogai.fitting", "pertxogai.output", "pertxogai.output.picture", "pertxogai.output.dxf", "pertxogai.files",
    "pertxogai.files.freecad",
    "pertxogai.files.solvespace", "pertxogai.files.dxf", "pertxogai.exits",
]
"""What has public names, in the order of the reference."""
Definition = ast.ClassDef | ast.FunctionDef | ast.Assign | ast.AnnAssign


@dataclass(frozen=True)
class Entry:
    """A public name, how it is called or what it is, what its docstring says, those of its own that are public, and the
    classes that it extends."""

    head: str
    says: str
    parts: tuple[Entry, ...] = ()
    bases: tuple[str, ...] = ()

    def lines(self, mark: str = "- ") -> Iterator[str]:
        """It as an item of a list of Markdown."""
        bases = f", extends {' and '.join(f'`{it}`' for it in self.bases)}" if self.bases else ""
        yield f"{mark}`{self.head}`{bases}" + (f": {self.says}" if self.says else "")
        for each in self.parts:
            yield from each.lines("  " + mark)


def reference() -> str:
    """All that the packages export."""
    files = import_graph.modules()
    return "\n".join(line for package in PACKAGES for line in section(package, files))


def section(package: str, files: dict[str, Path]) -> Iterator[str]:
    """The part of one package: what its docstring says, and each of its names."""
    tree = ast.parse(files[package].read_text())
    yield f"### {package}\n"
    yield joined(ast.get_docstring(tree)) + "\n"
    yield from (line for name in names(tree) for line in entry(package, name, files).lines())
    yield ""


def names(tree: ast.Module) -> list[str]:
    """What a module exports: its `__all__`, else what it defines without an underscore in front."""
    for node in tree.body:
        if isinstance(node, ast.Assign) and ast.unparse(node.targets[0]) == "__all__":
            return list(ast.literal_eval(node.value))
    return [it.name for it in tree.body if isinstance(it, ast.ClassDef | ast.FunctionDef) and it.name[0] != "_"]


def entry(package: str, name: str, files: dict[str, Path]) -> Entry:
    """What is told of a name that a package has. Raises ValueError where its module doesn't define it."""
    module, known = found(package, name, files)
    body = ast.parse(files[module].read_text()).body
    for node, after in zip(body, [*body[1:], None]):
        if isinstance(node, ast.ClassDef) and node.name == known:
            return of_class(node, module, files)
        if isinstance(node, ast.FunctionDef) and node.name == known:
            return of_function(node)
        if isinstance(node, ast.Assign | ast.AnnAssign) and target(node) == known:
            return Entry(f"{known} = {ast.unparse(node.value)}" if node.value else known, literal(after))
    raise ValueError(f"{module}: no {known}, which {package} has")


def found(package: str, name: str, files: dict[str, Path]) -> tuple[str, str]:
    """The module that defines a name of a package, and what it is called there."""
    tree = ast.parse(files[package].read_text())
    for module, known, as_name in import_graph.imports(tree, files):
        if as_name == name and known is not None:
            return found(module, known, files)
    return package, name


def of_class(node: ast.ClassDef, module: str, files: dict[str, Path]) -> Entry:
    """A class of a module: how it is called, and its public methods and properties; of an enum, its members."""
    if any(ast.unparse(it).endswith("Enum") for it in node.bases):
        return of_enum(node)
    head = node.name + (called(node, module, files) if is_dataclass(node) else made_of(node))
    return Entry(head, joined(ast.get_docstring(node)), methods(node), tuple(bases(node)) if is_dataclass(node) else ())


def of_enum(node: ast.ClassDef) -> Entry:
    """An enum, with its members in a line, or one each where a text behind one says more."""
    members = [(it.targets[0], literal(after)) for it, after in zip(node.body, [*node.body[1:], None])
               if isinstance(it, ast.Assign) and target(it)[0] != "_"]
    says = joined(ast.get_docstring(node))
    if any(told for _, told in members):
        return Entry(node.name, says, (*(Entry(ast.unparse(it), told) for it, told in members), *methods(node)))
    return Entry(node.name, f"{says} {', '.join(f'`{ast.unparse(it)}`' for it, _ in members)}.", methods(node))


def is_dataclass(node: ast.ClassDef) -> bool:
    """Whether a class is a dataclass."""
    return any("dataclass" in ast.unparse(it) for it in node.decorator_list)


def bases(node: ast.ClassDef) -> Iterator[str]:
    """The names of the classes that a class extends, without those that only give it type variables."""
    return (ast.unparse(it) for it in node.bases if not isinstance(it, ast.Subscript))


def called(node: ast.ClassDef, module: str, files: dict[str, Path]) -> str:
    """How a dataclass is called, in brackets: what it is given by position, and after `*` what by name alone."""
    given = fields(node, module, files).values()
    by_name = [parameter(it) for it in given if is_by_name(it)]
    shown = [parameter(it) for it in given if not is_by_name(it)] + (["*", *by_name] if by_name else [])
    return f"({', '.join(shown)})"


def fields(node: ast.ClassDef, module: str, files: dict[str, Path]) -> dict[str, ast.AnnAssign]:
    """The public fields of a dataclass by name, as a call takes them: those of the dataclasses that it extends first.
    One that is declared anew keeps its place."""
    known: dict[str, ast.AnnAssign] = {}
    for base in bases(node):
        for home, each in dataclasses(*found(module, base, files), files):
            known |= fields(each, home, files)
    return known | {target(it): it for it in node.body if isinstance(it, ast.AnnAssign) and target(it)[0] != "_"}


def dataclasses(module: str, name: str, files: dict[str, Path]) -> Iterator[tuple[str, ast.ClassDef]]:
    """The dataclass of that name in a module, with the module; none where it is no dataclass of the package."""
    body = ast.parse(files[module].read_text()).body
    return ((module, it) for it in body if isinstance(it, ast.ClassDef) and it.name == name and is_dataclass(it))


def parameter(field: ast.AnnAssign) -> str:
    """A field as a parameter: its type, and the default where it has one."""
    told = options(field)
    default = field.value if told is None else told.get("default")
    shown = f"{target(field)}: {ast.unparse(field.annotation)}"
    if told and "default_factory" in told:
        return f"{shown} = {ast.unparse(told['default_factory'])}()"
    return shown + (f" = {ast.unparse(default)}" if default else "")


def is_by_name(field: ast.AnnAssign) -> bool:
    """Whether a field is given by name alone."""
    return "kw_only" in (options(field) or {})


def options(field: ast.AnnAssign) -> dict[str, ast.expr] | None:
    """What `dataclasses.field` is told of a field; None where the field's value is its default."""
    call = field.value
    if isinstance(call, ast.Call) and ast.unparse(call.func) == "field":
        return {it.arg: it.value for it in call.keywords if it.arg}
    return None


def made_of(node: ast.ClassDef) -> str:
    """What another class extends, in brackets; where it extends nothing, how it is called."""
    if node.bases:
        return f"({ast.unparse(node.bases[0])})"
    return "".join(parameters(it) for it in node.body if isinstance(it, ast.FunctionDef) and it.name == "__init__")


def methods(node: ast.ClassDef) -> tuple[Entry, ...]:
    """The public methods and properties of a class, but for those that do what a protocol says of them."""
    return tuple(of_function(it) for it in node.body
                 if isinstance(it, ast.FunctionDef) and it.name[0] != "_" and ast.get_docstring(it))


def of_function(node: ast.FunctionDef) -> Entry:
    """A function, a method or a property."""
    returns = f" -> {ast.unparse(node.returns)}" if node.returns else ""
    is_property = any("property" in ast.unparse(it) for it in node.decorator_list)
    return Entry(f"{node.name}{'' if is_property else parameters(node)}{returns}", joined(ast.get_docstring(node)))


def parameters(node: ast.FunctionDef) -> str:
    """The parameters of a function in brackets, without `self` and `cls`."""
    return "(" + re.sub(r"^(self|cls)(, |$)", "", ast.unparse(node.args)) + ")"


def target(node: ast.Assign | ast.AnnAssign) -> str:
    """What an assignment gives a value to."""
    return ast.unparse(node.targets[0] if isinstance(node, ast.Assign) else node.target)


def literal(node: ast.stmt | None) -> str:
    """What the text behind an assignment says of it; nothing where there is none."""
    if isinstance(node, ast.Expr) and isinstance(node.value, ast.Constant) and isinstance(node.value.value, str):
        return joined(node.value.value)
    return ""


def joined(docstring: str | None) -> str:
    """A docstring in one line."""
    return " ".join((docstring or "").split())


def page() -> str:
    """python/README.md with the reference as it is to be."""
    before, _, rest = README.read_text().partition(BEGIN)
    return f"{before}{BEGIN}\n{reference()}\n{END}{rest.partition(END)[2]}"
