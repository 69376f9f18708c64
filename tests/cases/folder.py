"""A folder of made files with their list README.md: what the makers of histories, elections and scripts share."""

import sys
from collections import namedtuple
from textwrap import fill

from cases.mutate import keep

# What is made under one name: how much it is, what it shows, and the contents of its files by their suffixes.
Entry = namedtuple("Entry", "name size shows contents")


def text_of(lines):
    return "".join(line + "\n" for line in lines)


def files_of(folder, head, parts):
    """The files by their paths; the list begins with the head, and each part is a title and its entries."""
    files, listed = {}, [head]
    for title, entries in parts:
        listed.append(f"## {title}\n")
        for entry in entries:
            files.update({folder / (entry.name + suffix): content for suffix, content in entry.contents.items()})
            about = f"- `{entry.name}`, {entry.size}. {entry.shows}"
            listed.append(fill(about, 120, subsequent_indent="  ", break_on_hyphens=False))
        listed.append("")
    files[folder / "README.md"] = "\n".join(listed[:-1] + [""]).encode()
    return files


def keep_folder(folder, files, arguments):
    """As `keep`, and complain of files there that have the suffix of made ones and are not made."""
    status = keep(files, arguments)
    suffixes = {path.suffix for path in files}
    for path in sorted(folder.iterdir()):
        if path.suffix in suffixes and path not in files:
            print(f"{path.name} is not made by make.py", file=sys.stderr)
            status = status or 1
    return status
