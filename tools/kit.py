"""The kit's command `rt` as a module, for tools that ask the prover themselves."""

import importlib.machinery
import importlib.util
import os
import shutil
import sys


def stop(tool, why):
    """Ends with status 2."""
    print(f"{tool}: {why}", file=sys.stderr)
    sys.exit(2)


def kit(tool, needed, instead):
    """The command `rt` with all that a tool needs of it; where it lacks something, the tool ends and tells what to do instead."""
    found = shutil.which("rt")
    if not found:
        stop(tool, "there is no command rt: the toolchain's kit is missing")
    loader = importlib.machinery.SourceFileLoader("rt", os.path.realpath(found))
    spec = importlib.util.spec_from_loader("rt", loader)
    module = importlib.util.module_from_spec(spec)
    loader.exec_module(module)
    lacking = [name for name in needed if not hasattr(module, name)]
    if lacking:
        stop(tool, f"this kit's rt has no {lacking[0]}: {instead}")
    return module
