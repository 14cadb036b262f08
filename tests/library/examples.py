"""Runs the examples of the library's page: `examples.py PAGE WORK LIBRARY TREE`.

Each block of C, Python or SQL is compiled and run, and must print what the page shows after it, and each file of the folder
`examples` beside the page what it says at its end. Those in a language that isn't there are skipped by name, and so are those with
pandas where it is missing.
"""

import glob
import importlib.util
import os
import re
import shutil
import subprocess
import sys

page, work, library, tree = sys.argv[1:]
with open(page, encoding="utf-8") as file:
    blocks = re.findall(r"^```(\w+)\n(.*?)^```$", file.read(), re.S | re.M)
for path in sorted(glob.glob(os.path.join(os.path.dirname(page), "examples", "*.*"))):
    with open(path, encoding="utf-8") as file:
        text = file.read()
    suffix = path.rpartition(".")[2]
    printed = re.search(r"(?:/\* |\"\"\")Prints:\n(.*?)(?:\*/|\"\"\")\n$", text, re.S)[1]
    blocks += [({"py": "python", "rs": "rust"}.get(suffix, suffix), text), ("text", printed)]
dublin = os.path.join(tree, "Europe/Dublin")


#: What each language is run by.
TOOLS = {"c": "cc", "cpp": "g++", "go": "go", "python": sys.executable, "rust": "rustc", "sqlite": "sqlite3"}


def run(*words, text=None, folder=None):
    done = subprocess.run(words, capture_output=True, text=True, input=text, cwd=folder)
    if done.returncode:
        sys.exit(f"{page}: {' '.join(words)}: status {done.returncode}\n{done.stderr}")
    return done.stdout


def write(name, text):
    path = os.path.join(work, name)
    with open(path, "w", encoding="utf-8") as file:
        file.write(text)
    return path


def text_after(i):
    return next(text for language, text in blocks[i + 1 :] if language == "text")


def flags():
    return run("pkg-config", "--cflags", "--libs", "pzic").split()


def run_block(language, text):
    program = os.path.join(work, "example")
    words = [tree if "pzic_tree" in text else dublin]
    strict = ["-Wall", "-Wextra", "-Werror", "-Wconversion", "-pedantic", "-o", program]
    if language == "c":
        run("cc", *strict, write("zone.c", text), *flags())
    elif language == "cpp":
        run("g++", "-std=c++17", *strict, write("zone.cpp", text), *flags())
    elif language == "go":
        run("go", "build", "-o", program, write("zone.go", text))
    elif language == "rust":
        source = write("zone.rs", text)
        run("rustc", "--edition", "2021", source, "-o", program, "-L", f"{library}/lib", "-l", "static=pzic")
    elif language == "python":
        return run(sys.executable, write("zone.py", text), tree)
    else:
        return run("sqlite3", text=text, folder=f"{library}/lib")
    return run(program, *words)


def is_missing(language, text):
    if language == "sqlite" and not os.path.exists(f"{library}/lib/pzic_sqlite.so"):
        return True
    return not shutil.which(TOOLS[language]) or ("import pandas" in text and not importlib.util.find_spec("pandas"))


for i, (language, text) in enumerate(blocks):
    if language not in TOOLS:
        continue
    if is_missing(language, text):
        print(f"skipped: an example for {language}: something that it needs isn't there")
        continue
    got = run_block(language, text)
    want = text_after(i)
    if got != want:
        sys.exit(f"{page}: {language}: got {got!r}, and not {want!r}")
    print(f"library: the example for {language}")
