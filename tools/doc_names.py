#!/usr/bin/env python3
"""Finds names in README.md and docs/ that nothing in the repository has, as after a rename.

    tools/doc_names.py

In lines of prose and tables each word between backquotes is looked for: a path among the files, each other name among the words of crates/,
tools/ and examples/. Words in capitals, texts between quotes, the ends of patterns (`*_rows`), and what begins with a digit (`10.0.0.0/8`) are
left out. Links are followed too. What isn't found is printed, and then the status is 1.
"""
import pathlib
import re
import sys

TOP = pathlib.Path(__file__).resolve().parent.parent
PATH = re.compile(r"[\w.-]*/[\w./-]*|[\w-]+\.(?:md|py|rt|antt|toml|txt|c|rs)")
NAME = re.compile(r"(?<![*\w])[A-Za-z_]\w*")


def files():
    folders = [TOP / folder for folder in ("crates", "tools", "examples", "docs", ".ci")]
    found = [file for folder in folders for file in folder.rglob("*") if "out" not in file.relative_to(TOP).parts]
    return found + folders + [file for file in TOP.iterdir() if file.is_file()]


def unknown(line, doc, paths, words):
    """What a line names that there isn't."""
    for code in re.findall(r"`([^`]+)`", line):
        if code.startswith("rattle-kit"):
            continue
        code = re.sub(r'"[^"]*"', " ", code)
        for path in PATH.findall(code):
            bare = path.removeprefix("./").strip("/")
            if bare not in ("", "out") and "NAME" not in bare and not bare[0].isdigit() and not any(f"/{known}".endswith(f"/{bare}") for known in paths):
                yield path
        for name in NAME.findall(PATH.sub(" ", code)):
            if name not in words and not name.isupper():
                yield name
    for link in re.findall(r"\]\(([^)#]+)", line):
        if not (doc.parent / link).exists():
            yield link


def main():
    known = files()
    paths = {str(path.relative_to(TOP)) for path in known}
    sources = [file for file in known if file.is_file() and file.suffix != ".md" and "data" not in file.parts]
    words = set(NAME.findall("\n".join(file.read_text(errors="replace") for file in sources)))
    wrong = 0
    for doc in [TOP / "README.md", *sorted((TOP / "docs").glob("*.md"))]:
        for number, line in enumerate(doc.read_text().splitlines(), 1):
            for name in () if line.startswith("    ") else unknown(line, doc, paths, words):
                print(f"{doc.relative_to(TOP)}:{number}: {name}")
                wrong += 1
    sys.exit(wrong > 0)


if __name__ == "__main__":
    main()
