#!/usr/bin/env python3
"""walk_backup.py FOLDER [PATH]

Walks through a folder, for example a backup of a device. For each file that begins like a binary property list it
prints a line: the value at PATH (a JSON Pointer; "" is the top), or why the file is refused. A file that cannot be read
has a line too.
"""
import os
import pathlib
import sys

import bplist

HEADER = b"bplist00"


def say(name, words):
    """Prints a line about a file. Its name may have bytes that are not text."""
    print(os.fsencode(name).decode(errors="backslashreplace"), words, sep=": ")


def say_unread(fault):
    say(fault.filename, fault.strerror)


def files(folder):
    """The files of a folder."""
    for parent, _, names in os.walk(folder, onerror=say_unread):
        for name in names:
            yield pathlib.Path(parent, name)


def begins_right(file):
    """Whether this is a regular file that begins like a binary property list."""
    if not file.is_file():
        return False
    with file.open("rb") as opened:
        return opened.read(len(HEADER)) == HEADER


def words_on(file, path):
    """Returns the value of a property list as text, or why there is none."""
    try:
        with bplist.open(file) as plist:
            return repr(plist.at(path))
    except bplist.Refused as fault:
        return str(fault)
    except (LookupError, TypeError) as missing:
        return f"missing {missing}"


def main():
    if len(sys.argv) not in (2, 3):
        sys.exit(__doc__)
    path = sys.argv[2] if len(sys.argv) == 3 else ""
    for file in files(sys.argv[1]):
        try:
            if begins_right(file):
                say(file, words_on(file, path))
        except OSError as fault:
            say(file, fault.strerror)
        except (bplist.PathError, UnicodeEncodeError) as fault:
            print(f"{path!a}: {fault}", file=sys.stderr)
            sys.exit(2)


if __name__ == "__main__":
    main()
