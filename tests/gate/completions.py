#!/usr/bin/env python3
"""completions.py PROGRAM

Drives the completions of bash, zsh and fish, as far as these are installed, with PROGRAM as `bplint`. `bplint help`
offers the commands, `--explain=` its words, and after a FILE (and a CERT) a word that begins with `/` is completed by
the paths of that file, also where a key has blanks or quotes. bash gives the candidates of its function, and fish those
of `complete -C`. In zsh, and in bash too, lines are typed into a terminal with a tab, and the completed command
answers.

A line of a shell counts as one test. The last line is `N passed, M failed`.
"""
import os
import pathlib
import plistlib
import pty
import re
import select
import shlex
import shutil
import subprocess
import sys
import tempfile

ROOT = pathlib.Path(__file__).resolve().parents[2]
sys.path.insert(0, str(ROOT / "tests"))

from helpers.harness import closing, lacks  # noqa: E402

COMPLETIONS = ROOT / "completions"
SECONDS = 30
PROMPT = "READY> "
CODES = re.compile(r"\x1b\[[?0-9;]*[a-zA-Z]|\x1b[=>]|[\x07\r]")
NESTED = {"deep": 1, "deeper": [10, 20]}
TREE = {"name": "Notes", "nested": NESTED, "two words": "found", 'a "quote"': {"in": 7}, "x~y": True}

VERBS = ["lint", "show", "ls", "map", "textconv", "explain", "certify", "check", "get", "print"]
# A line, and what completes its last word.
OFFERED = [
    (["help", ""], VERBS),
    (["help", "l"], ["lint", "ls"]),
    (["show", "my file", "/n"], ["/name", "/nested"]),
    (["show", "my file", "/name", "/nested/"], ["/nested/deep", "/nested/deeper"]),
    (["show", "my file", "/nested/deeper/"], ["/nested/deeper/0", "/nested/deeper/1"]),
    (["ls", "my file", "/nested/deeper"], ["/nested/deeper"]),
    (["show", "--limit", "9", "my file", "/x"], ["/x~0y"]),
    (["get", "my file", "cert", "/nes"], ["/nested"]),
    (["print", "my file", "cert", "/nes"], ["/nested"]),
    (["show", "--hex", "hex", "/nes"], ["/nested"]),
    (["show", "my file", "/two"], ["/two words"]),
    (["show", "my file", "/nothing"], []),
    (["show", "broken", "/"], []),
    # Here a file is wanted.
    (["show", "my"], ["my file"]),
    (["get", "my file", "c"], ["cert"]),
    (["show", "--explain=never", "my file", "/n"], ["/name", "/nested"]),
]
WHENS = ["always", "never", "auto"]
# In bash `=` is a word of its own, and fish offers whole words.
BASH_OFFERED = [
    (["lint", "--explain", "="], WHENS),
    (["lint", "--explain", "=", "a"], ["always", "auto"]),
    (["lint", "--explain", "=", "never", "my"], ["my file"]),
    (["show", "--explain", "=", "never", "my file", "/n"], ["/name", "/nested"]),
]
FISH_OFFERED = [(["lint", "--explain="], [f"--explain={word}" for word in WHENS])]
# What is typed into a terminal, with tabs, and a part of the answer.
TYPED = [
    ("bplint show my\\ file /na\t", "text Notes"),
    ("bplint show my\\ file /nested/deepe\t/1", "int 20"),
    ("bplint show my\\ file /two\t", "text found"),
    ("bplint show my\\ file /a\t/in", "int 7"),
    ("bplint help expl\t", "Usage: bplint explain"),
    ("bplint lint --explain=nev\t broken", "fault "),
]
# bash closes a quote, zsh does not.
QUOTED = {
    "bash": ("bplint show 'my file' '/two\t", "text found"),
    "zsh": ("bplint show 'my file' '/two\t'", "text found"),
}


def write_files(folder, program):
    octets = plistlib.dumps(TREE, fmt=plistlib.FMT_BINARY, sort_keys=False)
    (folder / "my file").write_bytes(octets)
    (folder / "hex").write_text(octets.hex())
    (folder / "broken").write_bytes(octets[:-1])
    (folder / "bin").mkdir()
    os.symlink(program, folder / "bin/bplint")
    subprocess.run([program, "certify", folder / "my file", folder / "cert"], check=True)


def output(*words):
    return subprocess.run(words, capture_output=True, text=True, check=True, timeout=SECONDS).stdout


def quoted(word):
    return "'" + word.replace("'", "'\\''") + "'"


def bash_offers(words):
    """What the function of bash offers for a line. Words and offers are as they stand on the line."""
    line = [re.sub(r"([ \"~])", r"\\\1", word) for word in words]
    script = f"""source {quoted(str(COMPLETIONS / "bplint.bash"))}
        COMP_WORDS=(bplint {" ".join(map(quoted, line))}) COMP_CWORD={len(words)}
        _bplint bplint; printf '%s\\n' "${{COMPREPLY[@]}}" """
    said = output("bash", "--norc", "-c", script)
    return [word.replace("\\", "") for word in said.splitlines() if word]


def fish_offers(words):
    line = " ".join(["bplint", *(word.replace(" ", "\\ ") for word in words)])
    script = f"source {quoted(str(COMPLETIONS / 'bplint.fish'))}; complete -C {quoted(line)}"
    said = output("fish", "--no-config", "-c", script)
    return [row.split("\t")[0].replace("\\", "") for row in said.splitlines()]


class Terminal:
    """A shell in a terminal. A line is typed when the shell has written its prompt."""

    def __init__(self, words):
        self.child, self.end = pty.fork()
        if self.child == 0:
            os.environ.update(PS1=PROMPT, TERM="dumb")
            os.execvp(words[0], words)

    def until(self, text):
        """What the shell writes until it has written a text, without the codes of terminals."""
        said = ""
        while not CODES.sub("", said).endswith(text):
            if not select.select([self.end], [], [], SECONDS)[0]:
                raise TimeoutError(said)
            said += os.read(self.end, 1 << 16).decode(errors="replace")
        return CODES.sub("", said)

    def ask(self, line):
        os.write(self.end, line.encode() + b"\n")
        return self.until(PROMPT)

    def close(self):
        os.close(self.end)
        os.waitpid(self.child, 0)


SHELLS = {
    "bash": (["bash", "--norc", "-i"], f"source {shlex.quote(str(COMPLETIONS / 'bplint.bash'))}"),
    "zsh": (
        ["zsh", "-f", "-i"],
        # The prompt in two parts: the terminal shows this line too, and must not seem to be ready.
        f"fpath=({shlex.quote(str(COMPLETIONS))} $fpath); autoload -U compinit; compinit -u -D; "
        f"PS1='{PROMPT[:2]}''{PROMPT[2:]}'; PROMPT_SP=",
    ),
}


def typed_tests(shell):
    words, setting = SHELLS[shell]
    terminal = Terminal(words)
    terminal.until(PROMPT)
    terminal.ask(setting)
    for line, wanted in [*TYPED, QUOTED[shell]]:
        said = terminal.ask(line)
        yield f"{shell} on {line!r}", "" if wanted in said else said
    terminal.close()


def offer_tests(shell, offers, more):
    for words, wanted in [*OFFERED, *more]:
        got = offers(words)
        yield f"{shell} on {words}", "" if sorted(got) == sorted(wanted) else f"{got} and not {wanted}"


def all_tests():
    for shell, offers, more in ("bash", bash_offers, BASH_OFFERED), ("fish", fish_offers, FISH_OFFERED):
        if not lacks(shell):
            yield from offer_tests(shell, offers, more)
    for shell in SHELLS:
        if not lacks(shell):
            yield from typed_tests(shell)


def main():
    if len(sys.argv) != 2:
        print(__doc__, file=sys.stderr)
        return 2
    passed = failed = 0
    with tempfile.TemporaryDirectory() as folder:
        write_files(pathlib.Path(folder), pathlib.Path(sys.argv[1]).resolve())
        os.chdir(folder)
        os.environ.update(PATH=f"{folder}/bin:{os.environ['PATH']}", HOME=folder)
        for name, difference in all_tests():
            passed, failed = passed + (not difference), failed + bool(difference)
            if difference:
                print(f"FAILED {name}: {difference}")
    missing = [shell for shell in ("bash", "zsh", "fish") if not shutil.which(shell)]
    if missing:
        print(f"not installed: {', '.join(missing)}")
    print(closing(passed, failed, len(missing)))
    return 1 if failed else 0


if __name__ == "__main__":
    sys.exit(main())
