"""Where the tests find the package, the model of a node, and the built programs.

A built program is the one that an environment variable names, `MLD_NODE` or `MLD_SHELL`, and else the one that stands in its crate's `out`.
"""

import os
import pathlib
import sys

sys.dont_write_bytecode = True
TOP = pathlib.Path(__file__).resolve().parents[3]
for folder in (TOP / "tools", TOP / "clients" / "python"):
    if str(folder) not in sys.path:
        sys.path.insert(0, str(folder))


def built(name: str) -> pathlib.Path:
    """The path of a built program, whether it is there or not."""
    return pathlib.Path(os.environ.get(name.upper()) or TOP / "crates" / name / "out" / name).resolve()


def is_built(name: str) -> bool:
    """Whether a built program is there."""
    return os.access(built(name), os.X_OK) and built(name).is_file()
