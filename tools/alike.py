#!/usr/bin/env python3
"""tools/alike.py [FOLDER]: groups of functions of crates/*/src that are alike but for names and numbers, one group a line, and how many functions that is.
A function's contract does not count, and one of fewer than 20 words is passed over."""
import os
import re
import subprocess
import sys

WORDS = {"let", "mut", "if", "else", "return", "match", "for", "in", "while", "loop", "break", "fn", "as", "self", "true", "false"}


def functions(text):
    """The name and the text of each function, without its contract."""
    lines = re.sub(r"//[^\n]*", "", text).split("\n")
    for number, line in enumerate(lines):
        start = re.match(r"( *)(?:pub(?:\([a-z]+\))? )?(?:const )?(?:extern \"C\" )?fn (\w+)", line)
        if not start:
            continue
        indent = start.group(1)
        head, at = [line], number
        while at < len(lines) and not lines[at].rstrip().endswith(";"):
            words = lines[at].strip()
            if lines[at] == indent + "{" or (words.endswith("{") and not re.match(r"(requires|ensures|ghost)\b", words)):
                break
            at += 1
            head.append(lines[at] if at < len(lines) else "")
        if at >= len(lines) or lines[at].rstrip().endswith(";"):
            continue
        body = []
        for rest in lines[at + 1 :]:
            if rest == indent + "}":
                break
            body.append(rest)
        plain = [h for h in head if not re.match(r"\s*(requires|ensures|ghost|×)", h)]
        yield start.group(2), "\n".join(plain + body)


def shape(text):
    """Its words, each name told by its place and each number as 0."""
    names, words = {}, []
    for word in re.findall(r"[A-Za-z_]\w*|\d\w*|b?\"[^\"]*\"|b'.'|[^\s\w]", text):
        if re.match(r"\d|b?\"|b'", word):
            words.append("0")
        elif re.match(r"[A-Za-z_]", word) and word not in WORDS:
            words.append("x%d" % names.setdefault(word, len(names)))
        else:
            words.append(word)
    return words


os.chdir(sys.argv[1] if len(sys.argv) > 1 else ".")
groups = {}
for path in subprocess.run(["git", "ls-files", "crates/*.rt"], capture_output=True, text=True, check=True).stdout.split():
    if "/src/" not in path or not os.path.exists(path):
        continue
    with open(path, encoding="utf-8") as file:
        for name, text in functions(file.read()):
            words = shape(text)
            if len(words) >= 20:
                groups.setdefault(" ".join(words), []).append(path.replace("crates/", "").replace("src/", "").replace(".rt", "") + " " + name)
alike = sorted((found for found in groups.values() if len(found) > 1), key=lambda found: (-len(found), found))
for found in alike:
    print(len(found), "; ".join(found))
print("functions", sum(len(found) for found in alike), "in", len(alike), "groups")
