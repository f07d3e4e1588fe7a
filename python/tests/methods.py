"""The methods of `VM` as its sources have them, which are the same whether they are made in C or in Python."""

import ast
import pathlib

from palqytun import core


def parameters() -> dict[str, dict[str, str]]:
    """The public methods, with their parameters and the types of these."""
    tree = ast.parse(pathlib.Path(core.__file__).read_text(encoding="utf-8"))
    [vm] = [it for it in tree.body if isinstance(it, ast.ClassDef) and it.name == "VM"]
    methods = [it for it in vm.body if isinstance(it, ast.FunctionDef) and not it.name.startswith("_")]
    return {it.name: {one.arg: ast.unparse(one.annotation) for one in (*it.args.args[1:], *it.args.kwonlyargs) if one.annotation} for it in methods}
