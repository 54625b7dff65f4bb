# SPDX-License-Identifier: Apache-2.0
"""The must-fail edits: how one is read, and what it makes of a crate. For tests/edits and tools/gate_times."""


def read_edit(path):
    """Returns what an edit exchanges, as (file, old, new), and what shows that it is wrong."""
    changes, file, old, shown = [], "", "", ""
    for line in open(path, encoding="utf-8").read().split("\n"):
        word, _, rest = line.partition(": ")
        if word == "file":
            file = rest.strip()
        elif word == "old":
            old = rest
        elif word == "new":
            changes.append((file, old, rest))
        elif word == "shown by":
            shown = rest.strip()
    return changes, shown


def edited(folder, path):
    """Returns the edited texts of the crate in this folder, by their files."""
    texts = {}
    for file, old, new in read_edit(path)[0]:
        text = texts.get(file) or open(f"{folder}/{file}", encoding="utf-8").read()
        if text.count(old) != 1:
            raise ValueError(f"{path}: '{old}' does not stand once in {file}")
        texts[file] = text.replace(old, new)
    return texts
