"""The session on README.md's first screen: its files, its commands, and what they print."""
import os
import pathlib
import shutil
import subprocess

ROOT = pathlib.Path(__file__).resolve().parents[2]
README = ROOT / "README.md"
FENCE = "```"
PROMPT = "$ "


def session(text):
    """Where the first fenced block begins and ends, and its commands with what each prints."""
    begin = text.index(FENCE) + text[text.index(FENCE) :].index("\n") + 1
    end = text.index(FENCE, begin)
    commands = []
    for line in text[begin:end].splitlines():
        if line.startswith(PROMPT):
            commands.append((line[len(PROMPT) :], []))
        else:
            commands[-1][1].append(line)
    return begin, end, commands


def printed(command, folder, environment=None):
    """The lines that a command prints."""
    path = f"{folder}/bin:{os.environ['PATH']}"
    given = environment or {**os.environ, "PATH": path, "LC_ALL": "C.UTF-8"}
    ran = subprocess.run(
        command, shell=True, cwd=folder, env=given, stdout=subprocess.PIPE, stderr=subprocess.STDOUT, check=False
    )
    return ran.stdout.decode().splitlines()


def write_files(folder):
    """Copies the files of the session: a sound one, and one in which a key stands twice."""
    for path in (ROOT / "examples").glob("*.plist"):
        shutil.copy(path, folder)


def answers(program, folder):
    """Each command of the session, run in a folder, with what README.md says and what PROGRAM prints."""
    write_files(folder)
    os.mkdir(f"{folder}/bin")
    os.symlink(program, f"{folder}/bin/bplint")
    *_, commands = session(README.read_text())
    for command, want in commands:
        yield command, want, printed(command, folder)
