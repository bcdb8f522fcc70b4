"""Where the program mg is."""

import os
import shutil
import sys

from mg_archives.refusals import Refusal


def find_mg(status):
    """The path of the program that the variable MG names; where there is none, of mg beside this program, else on PATH.

    It refuses with the given status where mg is not there.
    """
    named = os.environ.get("MG")
    launcher = os.path.abspath(sys.argv[0])
    beside = [os.path.join(os.path.dirname(path), "mg") for path in (launcher, os.path.realpath(launcher))]
    for name in [named] if named else [*beside, "mg"]:
        path = shutil.which(name)
        if path:
            return os.path.abspath(path)
    if named:
        raise Refusal(status, f"the environment variable MG is {named}, which is no program")
    raise Refusal(status, "mg is neither beside this program nor on PATH, and the environment variable MG is not set")
