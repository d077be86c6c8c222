"""bin/install into an empty folder, the installed programs as they run from there, the unit of systemd, and the version. A case takes as
long as the commands that it runs: none of them proves or builds anything."""
import os
import re
import shlex
import shutil
from pathlib import Path

from live.cases import case, same
from live.peers import PROGRAM, ROOT

from .shared import GERRIT, SECONDS, SMALL, connected, faults, has, run, start, write

EXPLAINS = ROOT / "crates/gate_explain/out/gate_explain"


def tree():
    """Makes a tree with all that bin/install takes. Its programs are newer than their sources."""
    for name in ("bin", "share", "docs"):
        shutil.copytree(ROOT / name, f"tree/{name}", ignore=shutil.ignore_patterns("__pycache__"))
    write({"tree/crates.txt": "gate_main:\ngate_explain:\n"})
    for name, program in (("gate_main", PROGRAM), ("gate_explain", EXPLAINS)):
        write({f"tree/crates/{name}/src/lib.rt": "", f"tree/crates/{name}/out/{name}": '#!/bin/sh\necho "Tenant of $1"\n'})
        if os.path.exists(program):
            shutil.copyfile(program, f"tree/crates/{name}/out/{name}")
        os.chmod(f"tree/crates/{name}/out/{name}", 0o755)


@case
def an_installation_into_an_empty_folder_is_run_from_there():
    tree()
    place = os.path.abspath("there")
    status, told, fault = run("tree/bin/install", "--prefix", place)
    same((status, fault, told.startswith("gate 0.1.0 revision "), told.endswith(f" is installed below {place}\n")), (0, "", True, True))
    shutil.rmtree("tree")
    gate = f"{place}/bin/gate"
    same(run(gate, "check", SMALL / "config.json"), (0, (SMALL / "check").read_text(), ""))
    has(run(gate, "explain", SMALL / "config.json")[1], "Tenant ")
    has(run(gate, "help")[1], "usage: gate check CONFIG ")
    same("bin/gate" in run(gate, "help")[1], False)
    same(run(gate, "--version")[1].splitlines()[0] in told, True)
    same(run(gate, "foo"), (2, "", "fault: usage\n"))
    has(Path(place, "share/man/man1/gate.1").read_text(), ".TH GATE 1")
    has(Path(place, "share/gate/queue.jq").read_text(), "reduce inputs as $line")
    os.symlink(gate, "link")
    same(run("./link", "check", SMALL / "config.json")[0], 0)
    completes(place, gate)
    unit = f"{place}/lib/systemd/system/gate.service"
    has(Path(unit).read_text(), f"ExecStart={gate} serve ")
    if shutil.which("systemd-analyze"):
        # The command may have something to say of other units, too.
        same([line for line in run("systemd-analyze", "verify", "--man=no", unit)[2].splitlines() if "gate.service" in line], [])


def completes(place, gate):
    """bash completes the words of the command."""
    sourced = f'. {place}/share/bash-completion/completions/gate; compopt() {{ :; }}; COMP_WORDS=("$@"); COMP_CWORD=$(($# - 1)); _gate'
    serves = ["serve", GERRIT / "config.json"]
    completed = {"serve": ["s"], "none": [*serves, "n"], "gerrit=": [*serves, "none", ""], "file:": [*serves, "none", "gerrit", "=", "f"]}
    completed |= {"--dot --settings": ["explain", "-"], "--settings": ["explain", "--s"], "": ["explain", ""]}
    for wanted, words in completed.items():
        same(run("bash", "-c", f'{sourced}; echo "${{COMPREPLY[@]}}"', "bash", gate, *words), (0, wanted + "\n", ""))


NC = """#!/usr/bin/env python3
import socket, sys
peer = socket.socket(socket.AF_UNIX)
peer.connect(sys.argv[-1])
peer.sendall(sys.stdin.buffer.read())
peer.shutdown(socket.SHUT_WR)
sys.stdout.buffer.write(peer.recv(64))
"""


@case
def the_words_of_the_unit_start_the_program_and_stop_it_with_its_report():
    write({"bin/nc": NC})
    os.chmod("bin/nc", 0o755)
    os.mkdir("run")
    unit = (ROOT / "share/gate.service").read_text().replace("/run/gate", f"{os.getcwd()}/run")
    unit = unit.replace("/etc/gate/config.json", str(GERRIT / "config.json")).replace("@prefix@/bin/gate", PROGRAM)
    words = {name: shlex.split(line.lstrip("-")) for name, line in re.findall("^(Exec[A-Za-z]+)=(.*)", unit, re.MULTILINE)}
    for _ in range(2):
        same(run(*words["ExecStartPre"]), (0, "", ""))
    process = start(*words["ExecStart"])
    with open("run/gerrit.fifo", "wb") as stream:
        stream.write((GERRIT / "stream").read_bytes())
        stream.flush()
        connected("run/status.sock").close()
        stop = [word.replace("${MAINPID}", str(process.pid)) for word in words["ExecStop"]]
        waiting = start(*stop, env={**os.environ, "PATH": f"{os.getcwd()}/bin:{os.environ['PATH']}"})
        report = process.communicate(timeout=SECONDS)[0].decode()
        same((process.returncode, report.splitlines()[0].split()[-1]), (0, "stopped"))
        same((waiting.communicate(timeout=SECONDS)[0], waiting.returncode), (b"ok\n", 0))


@case
def a_package_is_put_together_below_destdir():
    tree()
    told = run("tree/bin/install", "--prefix=/usr", DESTDIR=os.path.abspath("package"))
    same((told[0], told[2], sorted(os.listdir("package/usr"))), (0, "", ["bin", "lib", "share"]))
    has(Path("package/usr/lib/systemd/system/gate.service").read_text(), "ExecStart=/usr/bin/gate serve ")
    same(run("package/usr/bin/gate", "check", SMALL / "config.json")[0], 0)


@case
def nothing_is_installed_that_is_not_built_from_its_sources():
    tree()
    place = os.path.abspath("there")
    os.utime("tree/crates/gate_explain/out/gate_explain", (1, 1))
    faults(run("tree/bin/install", "--prefix", place), 1, "gate_explain isn't built from these sources")
    os.remove("tree/crates/gate_main/out/gate_main")
    faults(run("tree/bin/install", "--prefix", place), 1, "gate_main isn't built from these sources")
    same(os.path.exists(place), False)
    faults(run("tree/bin/install", "--prefix", "there"), 2, "doesn't begin with /")
    faults(run("tree/bin/install", "--prefix", "/a b"), 2, "letters")
    faults(run("tree/bin/install", "foo"), 2, "--help")


@case
def a_folder_that_cannot_be_written_is_a_line():
    tree()
    write({"file": ""})
    faults(run("tree/bin/install", "--prefix", os.path.abspath("file")), 1, "file")


@case
def the_version_names_the_revision():
    git = {"GIT_AUTHOR_NAME": "a", "GIT_AUTHOR_EMAIL": "a@b", "GIT_COMMITTER_NAME": "a", "GIT_COMMITTER_EMAIL": "a@b"}
    tree()
    same(run("tree/bin/gate", "--version")[1].splitlines()[0], "gate 0.1.0 revision unknown")
    for words in (["init", "-q"], ["add", "bin"], ["commit", "-qm", "a"]):
        same(run("git", "-C", "tree", *words, **git)[0], 0)
    commit = run("git", "-C", "tree", "rev-parse", "--short=12", "HEAD")[1].strip()
    same(run("tree/bin/gate", "--version")[1].splitlines()[0], f"gate 0.1.0 revision {commit}")
    write({"tree/bin/gate-watch": ""})
    same(run("tree/bin/gate", "--version")[1].splitlines()[0], f"gate 0.1.0 revision {commit}-changed")
