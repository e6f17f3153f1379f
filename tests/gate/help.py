#!/usr/bin/env python3
"""help.py PROGRAM

Compares what `--help` of PROGRAM and of its subcommands says with the manual page, the completions and docs/RULES.md:
the subcommands, the flags of each and their letters, and what `explain` says of each rule by its word and its number.
`--hex` names the operands that each subcommand has, and a command line that lacks a certificate is told of `show`. The
last line is `N passed, M failed`. The exit status is 1 if one failed.
"""
import pathlib
import re
import subprocess
import sys

ROOT = pathlib.Path(__file__).resolve().parents[2]
COMMON = {"--help"}
FLAG = "--[a-z0-9]+(?:-[a-z0-9]+)*"
LETTER = "-([a-zA-Z0-9])"
BASES = {
    "format": "format. The published format asks for it.",
    "profile": "profile. This project asks for it, and the format does not.",
}
HEX = {
    "FILE holds hexadecimal text": {"lint", "show", "ls", "map"},
    "FILE and CERT hold hexadecimal text": {"check", "get", "print"},
    "FILE holds hexadecimal text, and OUT will": {"certify"},
}
TIPS = {
    "get FILE /KEY": "tip: without a certificate: bplint show FILE PATH",
    "print FILE /KEY 9": "tip: without a certificate: bplint show --text FILE PATH",
}
ESCAPES = {r"\-": "-", r"\(aq": "'", r"\e": "\\"}


def output(program, *words):
    ran = subprocess.run([program, *words], capture_output=True, text=True, timeout=60, check=False)
    return ran.stdout


def subcommands(program):
    """The names under `Commands:` and what is said of each."""
    listed = output(program, "--help").split("Commands:")[1].split("\n\n")[0]
    found = re.findall(r"^ +([a-z]+) +(\S.*)$", listed, re.MULTILINE)
    return {name: about for name, about in found if name != "help"}


def flags(text):
    return set(re.findall(FLAG, text)) - COMMON


def letters_of(program, verb):
    """The flags that the help of a subcommand lists, each with its letter, which is empty if there is none."""
    options = output(program, verb, "--help").split("Options:")[1].split("\n\n")[0]
    return {(flag, letter) for letter, flag in re.findall(rf"^ +(?:{LETTER}, )?({FLAG})", options, re.MULTILINE)}


def manual():
    text = (ROOT / "man/bplint.1").read_text(encoding="utf-8")
    for written, meant in ESCAPES.items():
        text = text.replace(written, meant)
    return text


def manual_flags(text):
    """The flags of each subcommand in the synopsis."""
    synopsis = text.split(".SH SYNOPSIS")[1].split(".SH DESCRIPTION")[0]
    found = {}
    for line in synopsis.split(".br\n"):
        verb = re.search(r"bplint ([a-z]+)", line)[1]
        found.setdefault(verb, set()).update(flags(line))
    return found


def manual_letters(text):
    """The flags that have a letter in the options of the manual page."""
    options = text.split(".SH OPTIONS")[1].split(".SH ANSWERS")[0]
    return {(flag, letter) for letter, flag in re.findall(rf"^\.BR? {LETTER}\W.*?({FLAG})", options, re.MULTILINE)}


def bash_words(text):
    """The flags and letters of each subcommand."""
    found = {}
    for names, listed in re.findall(r"^ +([a-z| ]+)\) flags=\"([^\"]*)\"", text, re.MULTILINE):
        for name in names.split("|"):
            found[name.strip()] = set(listed.split())
    return found


def zsh_letters(text):
    """The flags of each subcommand, with their letters."""
    common = re.search(r"common=\((.*)\)", text)[1]
    cases = text.split("case $verb in")[1].split("esac")[0].replace("$common", common)
    found = {}
    for name, body in re.findall(r"^    ([a-z]+)\)\n(.*?);;", cases, re.MULTILINE | re.DOTALL):
        lettered = {(flag, letter) for letter, flag in re.findall(rf"\{{{LETTER},({FLAG})\}}", body)}
        found[name] = lettered | {(flag, "") for flag in flags(body) - {flag for flag, _ in lettered}}
    return found


def fish_letters(text):
    """The flags of each subcommand, with their letters."""
    found = {}
    for names, letter, flag in re.findall(r"__fish_seen_subcommand_from ([a-z ]+)'(?: -s ([a-zA-Z0-9]))? -l ([a-z0-9-]+)", text):
        for name in names.split():
            found.setdefault(name, set()).add((f"--{flag}", letter))
    return found


def rules_table():
    """Number, word, demand, breach and basis of each rule in docs/RULES.md."""
    section = (ROOT / "docs/RULES.md").read_text(encoding="utf-8").split("## The rules in plain words")[1].split("\n## ")[0]
    rows = [line.strip("| ").split(" | ") for line in section.split("\n") if re.match(r"\| \d", line)]
    return [(int(number), *cells) for number, *cells in rows]


def manual_rules(text):
    section = text.split(".SH RULES")[1].split(".SH EXAMPLES")[0]
    found = re.findall(r"\.TP\n\.B (\d+) (\w+)\n(.*?)(?=\.TP|\Z)", section, re.DOTALL)
    return [(int(number), word, " ".join(demand.split())) for number, word, demand in found]


def manual_profile(text):
    """The numbers of the rules that the manual page calls choices of this project."""
    listed = re.search(r"^Rules ([\d, and to\n]+) are choices of this project", text, re.MULTILINE)[1]
    ends = [[int(number) for number in part.split(" to ")] for part in re.split(", | and ", listed)]
    return {number for first, *last in ends for number in range(first, (last or [first])[0] + 1)}


class Tally:
    def __init__(self):
        self.passed = 0
        self.failed = 0

    def compare(self, what, wanted, got):
        if wanted == got:
            self.passed += 1
            return
        self.failed += 1
        print(f"{what}\n    wanted {wanted}\n    got    {got}")


def words_of(letters):
    """The flags and their letters as words of a line."""
    return {flag for flag, _ in letters} | {f"-{letter}" for _, letter in letters if letter}


def compare_flags(tally, program):
    verbs = subcommands(program)
    letters = {verb: letters_of(program, verb) for verb in verbs}
    named = {verb: {flag for flag, _ in held} - COMMON for verb, held in letters.items()}
    spelled = {verb: words_of(held) for verb, held in letters.items()}
    bash = (ROOT / "completions/bplint.bash").read_text(encoding="utf-8")
    zsh = (ROOT / "completions/_bplint").read_text(encoding="utf-8")
    fish = (ROOT / "completions/bplint.fish").read_text(encoding="utf-8")
    for where, wanted, found in (
        ("man/bplint.1", named, manual_flags(manual())),
        ("bplint.bash", spelled, bash_words(bash)),
        ("_bplint", letters, zsh_letters(zsh)),
        ("bplint.fish", letters, fish_letters(fish)),
    ):
        for verb, held in wanted.items():
            tally.compare(f"flags of {verb} in {where}", held, found.get(verb, set()))
        tally.compare(f"subcommands in {where}", set(), set(found) - set(wanted) - {"help"})
    lettered = {pair for held in letters.values() for pair in held if pair[1]} | {("--version", "V")}
    tally.compare("letters in man/bplint.1", lettered, manual_letters(manual()))
    words = re.search(r'-W "([a-z ]+) help --help --version -h -V"', bash)[1]
    tally.compare("subcommands in bplint.bash", set(verbs), set(words.split()))
    tally.compare("subcommands in _bplint", set(verbs), set(re.findall(r"^    '([a-z]+):", zsh, re.MULTILINE)) - {"help"})
    named = set(re.findall(r"__fish_use_subcommand -a ([a-z]+)", fish)) - {"help"}
    tally.compare("subcommands in bplint.fish", set(verbs), named)


def compare_rules(tally, program):
    table = rules_table()
    tally.compare("numbers in docs/RULES.md", list(range(1, 33)), [number for number, *_ in table])
    for number, word, demand, breach, basis in table:
        wanted = f"rule {number} {word}: {demand}\nbroken by: {breach}\nbasis: {BASES[basis]}\n"
        tally.compare(f"explain {word}", wanted, output(program, "explain", word))
        tally.compare(f"explain {number}", wanted, output(program, "explain", str(number)))
    tally.compare("rules in man/bplint.1", [row[:3] for row in table], manual_rules(manual()))
    profile = {number for number, *_, basis in table if basis == "profile"}
    tally.compare("rules of this project in man/bplint.1", profile, manual_profile(manual()))
    words = " ".join(word for _, word, *_ in table)
    for name in ("bplint.bash", "_bplint", "bplint.fish"):
        held = (ROOT / "completions" / name).read_text(encoding="utf-8")
        tally.compare(f"words in {name}", True, words in held)


def compare_words(tally, program):
    for words, verbs in HEX.items():
        said = {verb for verb in subcommands(program) if re.search(rf"--hex +{words}$", output(program, verb, "--help"), re.M)}
        tally.compare(f"--hex: {words}", verbs, said)
    for line, tip in TIPS.items():
        ran = subprocess.run([program, *line.split()], capture_output=True, text=True, timeout=60, check=False)
        tally.compare(line, (2, tip), (ran.returncode, ran.stderr.rstrip("\n").split("\n")[-1]))


def main():
    if len(sys.argv) != 2:
        print(__doc__, file=sys.stderr)
        return 2
    tally = Tally()
    for compare in (compare_flags, compare_rules, compare_words):
        compare(tally, sys.argv[1])
    print(f"{tally.passed} passed, {tally.failed} failed")
    return 1 if tally.failed else 0


if __name__ == "__main__":
    sys.exit(main())
