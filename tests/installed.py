"""`make install` and `make uninstall`, and the completion for bash."""

import os
import shutil
import subprocess

from files import K
from transcripts import ROOT, fresh_folder


def expected_files(name):
    """What is installed below a root with the prefix /usr, each with its rights, where the program has this name."""
    contrib, files = ROOT / "contrib", {f"usr/bin/{name}": 0o755}
    files |= {f"usr/bin/{path.name}": 0o755 for path in contrib.glob("mg-*")}
    files |= {f"usr/lib/mg/{path.relative_to(contrib)}": 0o644 for path in contrib.glob("*/*.py")}
    own = {"mg": name, "mg.1": f"{name}.1"}
    for path in (ROOT / "man").iterdir():
        files[f"usr/share/man/man{path.name[-1]}/{own.get(path.name, path.name)}"] = 0o644
    for path in (contrib / "completions").iterdir():
        files[f"usr/share/bash-completion/completions/{own.get(path.name, path.name)}"] = 0o644
    for document in ["README.md", "CHANGELOG.md", "LICENSE-MIT", "LICENSE-APACHE"]:
        if (ROOT / document).exists():
            files[f"usr/share/doc/{name}/{document}"] = 0o644
    return files


def make(suite, target, destination):
    """Makes a target over the program that the suite tries, in whatever mask of rights."""
    words = ["make", "-s", "-C", ROOT, target, f"PROGRAM={suite.program}", f"DESTDIR={destination}", "PREFIX=/usr"]
    return subprocess.run(words, umask=0o022, capture_output=True, text=True)


def files_below(folder):
    return sorted(os.path.relpath(os.path.join(path, name), folder) for path, _, names in os.walk(folder) for name in names)


def installation(suite):
    """Every file is where Debian has it, and goes again; what others put there stays."""
    with fresh_folder(suite) as folder:
        destination = os.path.join(folder, "a folder")
        run = make(suite, "install", destination)
        suite.check("make install", (run.returncode, run.stderr), (0, ""))
        suite.check("installed files", files_below(destination), sorted(expected_files("mg")))
        rights = {name: os.stat(os.path.join(destination, name)).st_mode & 0o777 for name in files_below(destination)}
        suite.check("the rights of installed files", rights, expected_files("mg"))
        program = os.path.join(destination, "usr/bin/mg")
        with open(program, "rb") as file:
            suite.check("the installed program", file.read(), suite.program.read_bytes())
        suite.file("text", K)
        environment = {**os.environ, "PATH": f"{os.path.dirname(program)}:{os.environ['PATH']}"}
        asked = "mg-collect files new other; echo cat | mg scan text; mg-archive kept add --budget 4096 files other; mg-archive kept show 1"
        suite.file("other", b"a cat")
        out = subprocess.run(["sh", "-c", asked], cwd=suite.folder, env=environment, stdout=subprocess.PIPE, stderr=subprocess.DEVNULL)
        suite.check("the installed tools", out.stdout, b"documents 1\n1\n3\n= 2\nadded 1\nknown 0\ndocuments 1\na cat")
        out = subprocess.run(["mg-shards", "build", "text", "two shards", "--shards", "2"], cwd=suite.folder, env=environment, capture_output=True)
        suite.check("the installed mg-shards", (out.stdout, out.stderr), (b"shards 2\nsets 1\ndocuments 3\nbytes 39\n", b""))
        other = os.path.join(destination, "usr/share/man/man1/other.1")
        with open(other, "w"):
            pass
        run = make(suite, "uninstall", destination)
        suite.check("make uninstall", (run.returncode, run.stderr), (0, ""))
        suite.check("files of others stay", files_below(destination), ["usr/share/man/man1/other.1"])
        suite.check("our own folders go", [os.path.exists(os.path.join(destination, "usr", name)) for name in ["lib/mg", "share/doc/mg"]], [False] * 2)


def completed(words, folder):
    """What bash offers for the last word of a line, in a folder. The file is sourced within a function, as bash-completion
    does it, where `declare` alone makes a variable of that function."""
    asked = "COMP_WORDS=(\"$@\"); COMP_CWORD=$(($# - 1)); _${1/-/_}; printf '%s\\n' \"${COMPREPLY[@]}\""
    script = f"load() {{ . \"$1\"; }}; load \"$1/$2\"; shift; {asked}"
    command = ["bash", "-c", script, "bash", ROOT / "contrib" / "completions", *words]
    run = subprocess.run(command, cwd=folder, stdout=subprocess.PIPE, text=True)
    return sorted(line for line in run.stdout.splitlines() if line)


def completion(suite):
    """Tools, options, sets by their heads, collections, and nothing where nothing fits."""
    if not shutil.which("bash"):
        suite.check("bash is installed", False, True)
        return
    tools = sorted(["build", "query", "decode", "scan", "phrase", "wild", "migrate", "merge", "check", "trial"])
    with fresh_folder(suite) as folder:
        for name in ["letters", "letters.mail", "letters.head", "letters.words", "a set.head", "sub/more.head", "x.table", ".head"]:
            os.makedirs(os.path.dirname(os.path.join(folder, name)), exist_ok=True)
            with open(os.path.join(folder, name), "w"):
                pass
        files = sorted(["letters", "letters.mail", "letters.head", "letters.words", "a set.head", "x.table", ".head", "sub"])
        for words, wanted in [
            (["mg", ""], tools), (["mg", "-"], ["--help", "--version"]), (["mg", "--v"], ["--version"]), (["mg", "q"], ["query"]), (["mg", "x"], []), (["mg", "x", ""], []),
            (["mg", "query", ""], ["a set", "letters", "sub"]), (["mg", "query", "let"], ["letters"]),
            (["mg", "query", "a\\ s"], ["a set"]), (["mg", "query", "'a s"], ["a set"]), (["mg", "query", "sub/"], ["sub/more"]),
            (["mg", "query", "letters", ""], []), (["mg", "decode", "s"], ["sub"]), (["mg", "decode", "z"], []), (["mg", "check", "let"], ["letters"]),
            (["mg", "migrate", "l"], ["letters"]), (["mg", "migrate", "letters", ""], ["a set", "letters", "sub"]),
            (["mg", "migrate", "letters", "new", ""], []), (["mg", "phrase", "let"], ["letters"]), (["mg", "wild", "let"], ["letters"]),
            (["mg", "merge", "letters", "a\\ set", ""], ["a set", "letters", "sub"]), (["mg", "scan", "letters.m"], ["letters.mail"]), (["mg", "scan", ""], files),
            (["mg", "build", "letters.m"], ["letters.mail"]), (["mg", "build", "letters.mail", "l"], ["letters"]),
            (["mg", "build", "-"], ["--budget"]), (["mg", "build", "letters.mail", "--b"], ["--budget"]),
            (["mg", "build", "--budget", ""], []), (["mg", "build", "--budget", "=", ""], []),
            (["mg", "build", "--budget", "4096", "letters.m"], ["letters.mail"]),
            (["mg", "build", "--budget", "=", "4096", "letters.mail", "l"], ["letters"]),
            (["mg", "build", "letters.mail", "--budget", "4096", "l"], ["letters"]), (["mg", "build", "--", "letters.m"], ["letters.mail"]),
            (["mg", "build", "letters.mail", "letters", ""], []), (["mg", "trial", ""], []), (["mg", "trial", "7", ""], []),
            (["mg-archive", "s"], ["sub"]), (["mg-archive", "sub", ""], ["add", "find", "show", "status"]),
            (["mg-archive", "sub", "add", ""], ["files", "folder", "maildir", "mbox"]), (["mg-archive", "sub", "add", "--b"], ["--budget"]),
            (["mg-archive", "sub", "add", "--budget", ""], []), (["mg-archive", "sub", "add", "--raw", "mbox", "letters.m"], ["letters.mail"]),
            (["mg-archive", "sub", "add", "--filter", "mbox", "fo"], ["folder"]), (["mg-archive", "sub", "add", "folder", ""], ["sub"]),
            (["mg-archive", "sub", "find", "--r"], ["--rows"]), (["mg-archive", "sub", "find", "x"], []),
            (["mg-archive", "sub", "show", "--o"], ["--original"]), (["mg-archive", "sub", "status", ""], []),
            (["mg-collect", "m"], ["maildir", "mbox"]), (["mg-collect", "-r", ""], []), (["mg-collect", "-r", "?", "fi"], ["files"]),
            (["mg-collect", "names", ""], ["sub", "x.table"]), (["mg-collect", "names", "x.table", ""], ["sub", "x.table"]),
            (["mg-collect", "-"], ["--filter", "--help", "--raw", "--replace", "--skip", "--text"]), (["mg-collect", "names", "-"], []),
            (["mg-collect", "--raw", "m"], ["maildir", "mbox"]), (["mg-collect", "mbox", "--r"], ["--raw", "--replace"]),
            (["mg-collect", "mbox", "new", "--t"], []), (["mg-collect", "folder", "new", "--t"], ["--text"]),
            (["mg-collect", "--filter", "sha384"], ["sha384sum"]), (["mg-collect", "--filter", "cat", "folder", "new", ""], ["sub"]),
            (["mg-collect", "--replace", "=", ""], []), (["mg-collect", "--replace", "=", "?", "folder", "new", ""], ["sub"]),
            (["mg-collect", "folder", "new", "--", ""], ["sub"]), (["mg-collect", "folder", "new", "--", "-"], []),
            (["mg-collect", "mbox", "letters.m"], ["letters.mail"]), (["mg-collect", "folder", "new", ""], ["sub"]),
            (["mg-shards", "q"], ["query"]), (["mg-shards", "build", "letters.m"], ["letters.mail"]), (["mg-shards", "build", "letters.mail", ""], ["sub"]),
            (["mg-shards", "build", "letters.mail", "new", ""], []), (["mg-shards", "build", "--e"], ["--engine"]),
            (["mg-shards", "build", "--engine", "s"], ["slurm"]), (["mg-shards", "build", "--engine", "=", "p"], ["parallel"]),
            (["mg-shards", "build", "--shards", ""], []), (["mg-shards", "build", "--shards", "9", "letters.m"], ["letters.mail"]),
            (["mg-shards", "build", "--shards", "=", "9", "letters.mail", "s"], ["sub"]), (["mg-shards", "build", "--sshloginfile", "x"], ["x.table"]),
            (["mg-shards", "query", ""], ["sub"]), (["mg-shards", "query", "sub", ""], []), (["mg-shards", "check", "-"], ["--jobs"]),
            (["mg-shards", "decode", "-"], []), (["mg-shards", "step", "s"], ["sub"]), (["mg-shards", "step", "sub", ""], []),
            (["mg-collect", "-r", "?", "maildir", "new", ""], ["sub"]), (["mg-collect", "files", "new", "let"], [f for f in files if f[:3] == "let"]),
        ]:
            suite.check(f"completion of {words}", completed(words, folder), wanted)


PARTS = [installation, completion]
