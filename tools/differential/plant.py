#!/usr/bin/env python3
"""Shows that the comparison finds an error: plants one in a copy of the port, builds that without proof, and compares the fixed list.

    plant.py FOLDER [EDIT] [--grouped]

FOLDER has the original's source files. EDIT is one of the edits that the prover must refuse; without one it is the edit by which a grouped
LAST keeps the latest of tied rows. The copy is what is committed. It fails if the comparison does not end at a difference
within a minute, the building of the driver and of the port left out.
"""

import argparse
import os
import pathlib
import subprocess
import sys
import tempfile
import time

HERE = pathlib.Path(__file__).resolve().parent
TOP = HERE.parents[1]
LATEST_TIE = "crates/grouped/must-fail/keeps_the_latest_tie.edit"


def copy_repository(folder):
    """What is committed, in a folder of its own."""
    archive = subprocess.run(["git", "-C", TOP, "archive", "HEAD"], stdout=subprocess.PIPE, check=True)
    subprocess.run(["tar", "-x", "-C", folder], input=archive.stdout, check=True)


def plant(crate, edit):
    """Makes an edit's changes in a crate: after the line of its file, pairs of a text that stands there once and what replaces it."""
    file, old = None, None
    for line in edit.read_text().splitlines():
        word, _, text = line.partition(": ")
        if word == "file":
            file = crate / text.strip()
        elif word == "old":
            old = text
        elif word == "new":
            source = file.read_text()
            if source.count(old) != 1:
                sys.exit(f"not once in {file.name}: {old}")
            file.write_text(source.replace(old, text))


def program(folder, crate):
    """A program that builds and runs the crate without proof."""
    script = folder / "port"
    script.write_text(f"#!/bin/sh\ncd '{crate}' && exec rt try\n")
    script.chmod(0o755)
    return script


def main():
    parser = argparse.ArgumentParser(description=__doc__.splitlines()[0])
    parser.add_argument("folder")
    parser.add_argument("edit", nargs="?", default=LATEST_TIE)
    parser.add_argument("--grouped", action="store_true", help="leave out accumulators without groups")
    options = parser.parse_args()
    environment = dict(os.environ, ORIGINAL=str(pathlib.Path(options.folder).resolve()))
    subprocess.run(["cargo", "build", "--release", "--offline", "--quiet"], cwd=HERE, env=environment, check=True)
    built = pathlib.Path(os.environ.get("CARGO_TARGET_DIR", HERE / "target")).resolve() / "release"
    with tempfile.TemporaryDirectory() as folder:
        copy = pathlib.Path(folder, "copy")
        copy.mkdir()
        copy_repository(copy)
        edit = pathlib.PurePosixPath(options.edit)
        plant(copy / edit.parent.parent, TOP / edit)
        port = program(pathlib.Path(folder), copy / "crates/replay")
        # Once before the clock runs, so that the libraries below are built.
        subprocess.run([port], stdin=subprocess.DEVNULL, stdout=subprocess.DEVNULL, stderr=subprocess.DEVNULL)
        start = time.time()
        # The program is built anew for each run, and takes a bounded output: a run for each form, and none to make a scenario smaller.
        compare = [sys.executable, HERE / "compare.py", "--original", built / "driver", "--port", port, "--generate", built / "generate"]
        compare += ["--only", "fixed", "--as-found"]
        code = subprocess.run(compare + ["--grouped"] * options.grouped).returncode
        seconds = time.time() - start
    if code != 1:
        sys.exit("the planted error was not found")
    print(f"{edit.name}: found in {seconds:.0f} s")
    if seconds > 60:
        sys.exit("that is more than a minute")


if __name__ == "__main__":
    main()
