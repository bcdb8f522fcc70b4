"""The version, the archive of `make dist`, the package of `make deb`, and another name for the program."""

import hashlib
import os
import pathlib
import re
import shutil
import subprocess
import tarfile

from files import K
from installed import expected_files, files_below
from transcripts import ROOT, VERSION, fresh_folder
from usages import not_understood

TAKEN = ["Makefile", "VERSION", "README.md", "CHANGELOG.md", "LICENSE-MIT", "LICENSE-APACHE", "contrib", "debian", "man", "tools", "crates.txt"]
NAME = f"mg-{VERSION}-linux-x86_64"


def copy_of_repository(folder):
    """What is packed, in a folder with other dates; the crates are none of it."""
    os.makedirs(folder / "crates")
    for name in TAKEN:
        if (ROOT / name).is_dir():
            shutil.copytree(ROOT / name, folder / name, copy_function=shutil.copyfile, ignore=shutil.ignore_patterns("__pycache__"))
        elif (ROOT / name).exists():
            shutil.copyfile(ROOT / name, folder / name)
    for path, _, names in os.walk(folder):
        for name in names:
            os.utime(os.path.join(path, name), (1_600_000_000, 1_600_000_000))
    for path in [*(folder / "contrib").glob("mg-*"), *(folder / "tools").glob("*.sh"), *(folder / "debian").glob("*.sh")]:
        path.chmod(0o700)
    return folder


def make(suite, folder, target, *words, umask=0o022):
    command = ["make", "-s", "-C", folder, target, f"PROGRAM={suite.program}", *words]
    run = subprocess.run(command, umask=umask, capture_output=True, text=True)
    suite.check(f"make {target} {' '.join(words)}", (run.returncode, run.stderr), (0, ""))


def version(suite):
    """The version is three numbers, and each page of the manual takes it from the file."""
    suite.check("VERSION", bool(re.fullmatch(r"\d+\.\d+\.\d+", VERSION)), True)
    for page in (ROOT / "man").iterdir():
        suite.check(f"the version of {page.name}", re.findall(r"^\.Os.*$", page.read_text(), re.M), [".Os mg @VERSION@"])
        suite.check(f"{page.name} names no version", VERSION in page.read_text(), False)
        suite.check(f"the licence in {page.name}", "MIT License or the Apache License, Version 2.0" in page.read_text().replace("\n", " "), True)


def archive(suite):
    """`make dist` gives the same bytes from two folders, and what lies in it runs where it is unpacked."""
    with fresh_folder(suite) as work:
        folders = [copy_of_repository(suite.folder / work / name) for name in ["one", "another folder"]]
        for folder, umask in zip(folders, [0o022, 0o077]):
            make(suite, folder, "dist", umask=umask)
        archives = [folder / "bin" / f"{NAME}.tar.gz" for folder in folders]
        digests = [hashlib.sha256(archive.read_bytes()).hexdigest() for archive in archives]
        suite.check("the same archive from two folders", digests[0], digests[1])
        with tarfile.open(archives[0]) as packed:
            members = packed.getmembers()
            packed.extractall(suite.folder / work, filter="data")
        suite.check("owners in the archive", {(member.uid, member.gid) for member in members}, {(0, 0)})
        rights = {member.name[len(NAME) + 1 :]: member.mode for member in members if member.isfile()}
        suite.check("files in the archive", rights, {name[len("usr/") :]: mode for name, mode in expected_files("mg").items()})
        unpacked = suite.folder / work / NAME
        suite.file("text", K)
        shown = subprocess.run([unpacked / "bin" / "mg", "--version"], capture_output=True, text=True).stdout
        suite.check("the version of the unpacked program", shown, f"mg {VERSION}\n")
        page = (unpacked / "share" / "man" / "man1" / "mg.1").read_text()
        suite.check("the version of the unpacked manual", re.search(r"^\.Os (.*)$", page, re.M)[1], f"mg {VERSION}")
        collected = subprocess.run(
            [unpacked / "bin" / "mg-collect", "files", "unpacked.all", "text.1"], cwd=suite.folder, input=b"", capture_output=True
        ) if suite.file("text.1", b"a cat") else None
        suite.check("the unpacked mg-collect", (collected.returncode, (suite.folder / "unpacked.all").read_bytes()), (0, b"a cat\x02"))


def renamed(suite):
    """`NAME=mgr` names the program, its page and its completion; beside them all files are the same."""
    with fresh_folder(suite) as work:
        folder = copy_of_repository(suite.folder / work / "copy")
        destination = suite.folder / work / "root"
        make(suite, folder, "install", f"DESTDIR={destination}", "PREFIX=/usr", "NAME=mgr")
        rights = {name: os.stat(destination / name).st_mode & 0o777 for name in files_below(destination)}
        suite.check("files of another name", rights, expected_files("mgr"))
        page = (destination / "usr/share/man/man1/mgr.1").read_text()
        suite.check("the title of the other page", re.findall(r"^\.(?:Dt|Nm) \S.*$", page, re.M)[:2], [".Dt MGR 1", ".Nm mgr"])
        shown = (ROOT / "man" / "mg.1").read_text()
        suite.check("lines that the program prints keep its own name", "usage: mg query NAME; try: mg" in page, True)
        suite.check("commands have the other name", re.findall(r"^\$ (?:.*\| )?mg[ ;].*$", page, re.M), [])
        kept = re.search(r"^mg keeps archives.*?^mg\(1\) is the whole manual[^\n]*\n", shown, re.M | re.S)[0]
        suite.check("the help on the other page", kept in page and "$ mgr \\-\\-help\n" in page, True)
        suite.check("pages see the other page", ".Xr mgr 1" in (destination / "usr/share/man/man5/mg-files.5").read_text(), True)
        modules = "".join(path.read_text() for path in destination.glob("usr/lib/mg/*/*.py"))
        suite.check("modules that look for mg", re.findall(r"which\(.mg.\)", modules), [])
        script = (destination / "usr/share/bash-completion/completions/mgr").read_text()
        suite.check("the completion of the other name", script.splitlines()[-1], "complete -F _mg mgr")
        told = subprocess.run([destination / "usr/bin/mgr"], capture_output=True)
        suite.check("the program under another name", (told.returncode, told.stdout, told.stderr), not_understood([]))
        make(suite, folder, "uninstall", f"DESTDIR={destination}", "PREFIX=/usr", "NAME=mgr")
        suite.check("nothing of it stays", files_below(destination), [])


class System:
    """A folder in the place of a Debian system in which some packages are installed."""

    def __init__(self, folder, others):
        self.folder = folder
        self.records = folder / "var/lib/dpkg"
        for name in ["info", "updates", "triggers", "parts", "alternatives"]:
            os.makedirs(self.records / name)
        (self.records / "info" / "format").write_text("1\n")
        status = ""
        for package in ["libc6", "libgcc-s1", "python3"]:
            told = subprocess.run(["dpkg-query", "--status", package], capture_output=True, text=True)
            assert told.returncode == 0, package
            status += told.stdout.strip() + "\n\n"
            for name in [package, f"{package}:amd64"]:
                (self.records / "info" / f"{name}.list").write_text("")
        for package in others:
            status += f"Package: {package}\nStatus: install ok installed\nMaintainer: another\nArchitecture: amd64\nVersion: 1\nDescription: other\n\n"
            (self.records / "info" / f"{package}.list").write_text("")
        (self.records / "status").write_text(status)

    def dpkg(self, *words):
        """The status and the errors of dpkg in this folder."""
        options = [f"--admindir={self.records}", f"--instdir={self.folder}", "--force-not-root", "--force-script-chrootless", "--log=/dev/null"]
        run = subprocess.run(["dpkg", *options, *words], capture_output=True, text=True)
        return run.returncode, run.stdout + run.stderr

    def files(self):
        return [name for name in files_below(self.folder) if not name.startswith("var/lib/dpkg/")]


def debian_package(suite):
    """The package of `make deb` is installed beside what it needs, refused beside the editor mg, and removed whole."""
    with fresh_folder(suite) as work:
        folder = copy_of_repository(suite.folder / work / "copy")
        make(suite, folder, "deb", umask=0o077)
        package = folder / "bin" / f"mg-retrieval_{VERSION}_amd64.deb"
        first = package.read_bytes()
        make(suite, folder, "deb")
        suite.check("the same package twice", package.read_bytes() == first, True)
        system = System(suite.folder / work / "system", [])
        status, said = system.dpkg("--install", str(package))
        suite.check("dpkg --install", (status, said) if status else 0, 0)
        wanted = {}
        for name, mode in expected_files("mg").items():
            name = name.replace("share/doc/mg/", "share/doc/mg-retrieval/").replace("CHANGELOG.md", "changelog.gz")
            wanted[name + ".gz" * ("/man/" in name)] = mode
        wanted["usr/share/doc/mg-retrieval/copyright"] = 0o644
        rights = {name: os.stat(system.folder / name).st_mode & 0o777 for name in system.files()}
        suite.check("files of the package", rights, wanted)
        suite.check("the files are as they were packed", system.dpkg("--verify", "mg-retrieval"), (0, ""))
        shown = subprocess.run([system.folder / "usr/bin/mg", "--version"], capture_output=True, text=True).stdout
        suite.check("the packed program", shown, f"mg {VERSION}\n")
        status, said = system.dpkg("--purge", "mg-retrieval")
        suite.check("dpkg --purge", (status, system.files()), (0, []))

        beside_editor = System(suite.folder / work / "editor", ["mg"])
        status, said = beside_editor.dpkg("--install", str(package))
        suite.check("beside the editor mg", (status != 0, "conflict" in said, beside_editor.files()), (True, True, []))
        make(suite, folder, "deb", "NAME=mgr")
        status, said = beside_editor.dpkg("--install", str(package))
        suite.check("beside the editor mg, by another name", (status, said) if status else 0, 0)
        suite.check("its program", (beside_editor.folder / "usr/bin/mgr").exists(), True)


def jobs(suite):
    """Crates side by side: one for each processor, no more than one for each four gigabytes, and at least one."""
    processors = len(os.sched_getaffinity(0))
    limited = [path for path in ["/sys/fs/cgroup/memory.max", "/sys/fs/cgroup/memory/memory.limit_in_bytes"] if pathlib.Path(path).exists()]
    for gigabytes, wanted in [(1, 1), (3.7, 1), (7.7, 2), (15.6, 4), (31.2, 8), (1000, 250)]:
        suite.file("meminfo", f"MemFree: 1 kB\nMemTotal: {int(gigabytes * 1048576)} kB\n".encode())
        told = subprocess.run([ROOT / "tools" / "jobs.sh", suite.folder / "meminfo"], capture_output=True, text=True)
        number = int(told.stdout)
        right = number == min(wanted, processors) or bool(limited) and 1 <= number <= min(wanted, processors)
        suite.check(f"jobs with {gigabytes} gigabytes: {number}", (told.returncode, right), (0, True))
    one = subprocess.run(["taskset", "-c", str(min(os.sched_getaffinity(0))), ROOT / "tools" / "jobs.sh"], capture_output=True, text=True)
    suite.check("jobs on one processor", one.stdout, "1\n")


PARTS = [version, archive, renamed, debian_package, jobs]
