"""Which module of python/pertxogai imports which, read from the sources: those within functions too."""
import ast
import pathlib

TOP = pathlib.Path(__file__).resolve().parent.parent
PACKAGE = "pertxogai"


def modules():
    """Each module of the package by its dotted name, with its file."""
    found = {}
    for path in sorted((TOP / "python" / PACKAGE).rglob("*.py")):
        parts = path.relative_to(TOP / "python").with_suffix("").parts
        found[".".join(parts[:-1] if parts[-1] == "__init__" else parts)] = path
    return found


def graph():
    """The modules that each module imports. What is imported from a package is imported from where the package has it."""
    files = modules()
    taken = {name: list(imports(ast.parse(path.read_text()), files)) for name, path in files.items()}
    shown = {(name, as_name): (module, known) for name, of in taken.items() for module, known, as_name in of
             if files[name].name == "__init__.py"}
    return {name: {home(module, known, shown) for module, known, _ in of} - {name} for name, of in taken.items()}


def imports(tree, files):
    """Each import of the package's own: a module, the name that is taken from it (None for the module itself), and
    what that is called here."""
    for node in ast.walk(tree):
        if isinstance(node, ast.ImportFrom) and (node.module or "").split(".")[0] == PACKAGE:
            for each in node.names:
                inner = f"{node.module}.{each.name}"
                name = each.asname or each.name
                yield (inner, None, name) if inner in files else (node.module, each.name, name)
        elif isinstance(node, ast.Import):
            yield from ((each.name, None, each.name) for each in node.names if each.name in files)
        elif isinstance(node, ast.ImportFrom) and node.level:
            raise ValueError(f"line {node.lineno}: a relative import: write it out from {PACKAGE} on")


def home(module, name, shown):
    """The module that has a name, behind the packages that hand it on."""
    seen = set()
    while (module, name) in shown and (module, name) not in seen:
        seen.add((module, name))
        module, name = shown[module, name]
    return module


def folder_of(module):
    """The folder that a module lies in, or the module itself where it lies in none."""
    return module.split(".")[1] if "." in module else module


def folders(of_modules):
    """The same graph of folders."""
    found = {}
    for module, others in of_modules.items():
        found.setdefault(folder_of(module), set()).update(map(folder_of, others))
    return {name: others - {name} for name, others in found.items()}


def cycle(of):
    """The names along a cycle of a graph, the first of them again at its end; None where there is none."""
    done, path = set(), []

    def visit(name):
        if name in path:
            return [*path[path.index(name):], name]
        if name in done:
            return None
        path.append(name)
        found = next(filter(None, map(visit, sorted(of.get(name, ())))), None)
        path.pop()
        done.add(name)
        return found

    return next(filter(None, map(visit, sorted(of))), None)


def levels(of):
    """The names of a graph without a cycle in rows: each above all that it imports."""
    height = {}

    def level(name):
        if name not in height:
            height[name] = 1 + max(map(level, of[name]), default=-1)
        return height[name]

    for name in of:
        level(name)
    return [sorted(name for name in of if height[name] == each) for each in range(max(height.values()) + 1)]


def nearest(of):
    """The graph without what follows from the rest: an arrow for each import that no way round has."""
    def below(name):
        return of[name] | {each for other in of[name] for each in below(other)}

    return {name: {other for other in others if not any(other in below(each) for each in others - {other})}
            for name, others in of.items()}
