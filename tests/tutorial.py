#!/usr/bin/env python3
"""Runs docs/TUTORIAL.md: every command of its console blocks, in order, in an empty directory, and compares what each prints with the page.

    SAGEPLIERS_LIB_DIR=directory/of/libsagepliers.a SAGEPLIERS_BIN_DIR=directory/of/programs tests/tutorial.py

The package is installed into a temporary directory first. A command must end with status 0. Exit status 0 if all is as on the page, else 1. Needs make,
a C compiler, pkg-config and PARI/GP; needs.sh installs them.
"""

import os
import shutil
import subprocess
import sys
import tempfile

ROOT = os.path.dirname(os.path.dirname(os.path.abspath(__file__)))
PAGE = os.path.join(ROOT, "docs", "TUTORIAL.md")
LONGEST_RUN = 120  # seconds until a command that hangs is given up


def fail(text):
    print(f"tutorial.py: FAILED: {text}", file=sys.stderr)
    sys.exit(1)


def steps(page):
    """The commands of the console blocks with the lines printed after each, and the number of the command's line."""
    found = []
    inside = False
    for number, line in enumerate(page.splitlines(), 1):
        if line.startswith("```"):
            inside = line == "```console"
        elif inside and line.startswith("$ "):
            found.append((number, line[2:], []))
        elif inside:
            if not found:
                fail(f"line {number}: a console block starts without a command")
            found[-1][2].append(line)
    return found


def differences(page, directory, environment):
    """Runs the steps of a page, and says of each that printed something else or did not end with status 0."""
    told = []
    for number, command, lines in steps(page):
        done = subprocess.run(
            ["sh", "-c", command], cwd=directory, env=environment, stdin=subprocess.DEVNULL, stdout=subprocess.PIPE, stderr=subprocess.STDOUT,
            timeout=LONGEST_RUN, text=True,
        )
        if done.returncode != 0:
            told.append(f"line {number}: $ {command}\n  ended with status {done.returncode} and printed\n{done.stdout}")
        elif done.stdout != "".join(line + "\n" for line in lines):
            told.append(f"line {number}: $ {command}\n  printed\n{done.stdout}  and not\n" + "".join(line + "\n" for line in lines))
    return told


def given_directory(variable, names):
    """The directory that an environment variable names; it has files of these names."""
    text = os.environ.get(variable, "")
    if not text:
        fail(f"{variable} is not set")
    for name in names:
        if not os.path.isfile(os.path.join(text, name)):
            fail(f"{variable}: there is no {name} in {text}")
    return os.path.abspath(text)


def call(*command):
    done = subprocess.run(command, cwd=ROOT, stdout=subprocess.PIPE, stderr=subprocess.STDOUT, text=True)
    if done.returncode != 0:
        fail(f"{' '.join(command)}\n{done.stdout}")


def main():
    library = os.path.join(given_directory("SAGEPLIERS_LIB_DIR", ["libsagepliers.a"]), "libsagepliers.a")
    programs = given_directory("SAGEPLIERS_BIN_DIR", ["answer", "kernel", "verify", "push"])
    for tool in ("make", "cc", "pkg-config", "gp"):
        if shutil.which(tool) is None:
            fail(f"{tool} is missing; tests/needs.sh installs what the tests need")

    with open(PAGE, encoding="utf-8") as file:
        page = file.read()
    found = steps(page)
    dollars = sum(line.startswith("$ ") for line in page.splitlines())
    if len(found) != dollars or dollars < 20:
        fail(f"{dollars} lines of the page start with a dollar sign, and {len(found)} commands stand in console blocks")

    # A make that calls this script hands its variables on to the one below.
    os.environ.pop("MAKEFLAGS", None)
    with tempfile.TemporaryDirectory() as work:
        prefix = os.path.join(work, "prefix")
        directory = os.path.join(work, "empty")
        os.mkdir(directory)
        # RT=false: what is built already may not be built again.
        call("make", "RT=false", f"PREFIX={prefix}", f"LIBRARY={library}", f"BIN={programs}", f"BUILD={work}/build", "install")
        environment = dict(os.environ, LC_ALL="C.UTF-8", PATH=os.path.join(prefix, "bin") + os.pathsep + os.environ["PATH"])
        environment["PKG_CONFIG_PATH"] = os.path.join(prefix, "lib", "pkgconfig")
        environment["LD_LIBRARY_PATH"] = os.path.join(prefix, "lib")

        # A page that is wrong must be seen: another output, one line too few, a command that fails.
        for wrong in ("$ echo a\nb", "$ printf 'a\\nb\\n'\na", "$ false", "$ sagepliers-sheets show missing.bin"):
            if not differences(f"```console\n{wrong}\n```\n", directory, environment):
                fail(f"the comparison does not see what is wrong with {wrong!r}")

        told = differences(page, directory, environment)
        for text in told:
            print(text)
        if told:
            fail(f"{len(told)} of {len(found)} commands are not as on the page")
    print(f"tutorial: {len(found)} commands, all as on the page")


if __name__ == "__main__":
    main()
