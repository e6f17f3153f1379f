#!/usr/bin/env python3
"""plain_links.py FOLDER

In the pages (*.md) below FOLDER, puts the text of a link in place of the link if it leads to a file that is not there.
The pages of an archive name files that only the repository has.
"""
import pathlib
import re
import sys

LINK = re.compile(r"(?<!!)\[([^\]\[]*)\]\(([^)\s#]+)(#[^)\s]*)?\)")


def plain(page):
    """The text of a page in which each link leads somewhere."""

    def kept(link):
        is_there = "://" in link[2] or (page.parent / link[2]).exists()
        return link[0] if is_there else link[1]

    return LINK.sub(kept, page.read_text(encoding="utf-8"))


for page in sorted(pathlib.Path(sys.argv[1]).rglob("*.md")):
    page.write_text(plain(page), encoding="utf-8")
