"""Where the programs are that this package runs: `vt_live`, `vt_replay` and `segyolant`."""
from __future__ import annotations

import os
from pathlib import Path

from .errors import ProgramNotFound

# The environment variable that names a folder of programs.
FOLDER_VARIABLE = 'SEGYOLANT_BIN'
PACKAGE = Path(__file__).resolve().parent


def places(name: str) -> list[Path]:
    """The paths at which a program is looked for, in their order: that in the folder of SEGYOLANT_BIN alone, if it is set."""
    named = os.environ.get(FOLDER_VARIABLE)
    if named:
        return [Path(named).absolute() / name]
    found = [PACKAGE / 'bin' / name]
    top = checkout()
    if top is not None:
        found += [top / 'crates' / name / 'out' / name, top / 'out' / 'quick' / name]
    return found


def checkout() -> Path | None:
    """The top of the repository in which this package lies, or None where it is installed by itself."""
    parents = PACKAGE.parents
    top = parents[2] if len(parents) > 2 else None
    is_checkout = top is not None and (top / 'crates').is_dir() and PACKAGE.parent == top / 'bindings' / 'python'
    return top if is_checkout else None


def find(name: str) -> Path:
    """The program of that name: in the folder that SEGYOLANT_BIN names, or else in this package, proved in a checkout, or its quick build.

    ProgramNotFound names all these places.
    """
    looked = places(name)
    for path in looked:
        if path.is_file() and os.access(path, os.X_OK):
            return path
    raise ProgramNotFound(
        f'the program {name} is not at {", ".join(map(str, looked))}: `make quick` in the repository builds it in some minutes, '
        f'and {FOLDER_VARIABLE} may name the folder in which it is'
    )
