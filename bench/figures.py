"""The file of what a bench saw: figures by the bench's name, each with when, where and of which commit they were seen."""

import datetime
import json
import os
import pathlib
import re
import subprocess

ROOT = pathlib.Path(__file__).resolve().parent.parent


def machine():
    """The processors of this machine, and how busy it is."""
    text = pathlib.Path("/proc/cpuinfo").read_text()
    model = re.search(r"^model name\s*: (.*)$", text, re.M)
    named = model[1] if model else "processors of a model that is not told"
    return f"{os.cpu_count()} x {named}, a load of {os.getloadavg()[0]:.1f}"


def commit():
    """The commit that the program is of; a plus where files were changed since."""
    git = ["git", "-C", str(ROOT)]
    told = subprocess.run([*git, "rev-parse", "--short=8", "HEAD"], capture_output=True, text=True).stdout.strip()
    changed = subprocess.run([*git, "status", "--porcelain", "--untracked-files=no"], capture_output=True, text=True).stdout
    return told + "+" * bool(changed.strip())


def read(path):
    path = pathlib.Path(path)
    return json.loads(path.read_text()) if path.exists() else {}


def put(path, name, rows):
    """Writes what this bench saw now, in the place of what it saw before."""
    seen = {"date": datetime.date.today().isoformat(), "machine": machine(), "commit": commit()}
    whole = {**read(path), name: {"seen": seen, "rows": rows}}
    pathlib.Path(path).parent.mkdir(parents=True, exist_ok=True)
    pathlib.Path(path).write_text(json.dumps(whole, indent=1) + "\n")
