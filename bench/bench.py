#!/usr/bin/env python3
"""Times goui, and Go beside it where `go` is installed, on inputs that are made by a seed.

For each input, at a quarter of its size and at the whole: the best wall time of some runs, MB/s,
seconds a package, peak memory as a multiple of the sources, and how time and memory grow for each
doubling of the bytes that are read and written: in a chain each linked file lists all packages
before it, so what is written grows faster than the sources. Go's parser reads the same files in one
process; `go build` starts with an empty cache.
Nothing here is proved: it is measured.
"""
import argparse
import contextlib
import math
import os
import shutil
import subprocess
import sys
import tempfile
import time

from inputs import INPUTS, made

TOP = os.path.dirname(os.path.dirname(os.path.realpath(__file__)))
PARSER = """package main

import (
	"fmt"
	"go/parser"
	"go/token"
	"os"
	"path/filepath"
	"strconv"
	"time"
)

func sources(folder string) (found [][]byte) {
	filepath.Walk(folder, func(path string, info os.FileInfo, err error) error {
		if filepath.Ext(path) == ".go" {
			text, _ := os.ReadFile(path)
			found = append(found, text)
		}
		return err
	})
	return found
}

func main() {
	runs, _ := strconv.Atoi(os.Args[1])
	all, best := sources(os.Args[2]), time.Hour
	for i := 0; i < runs; i++ {
		start := time.Now()
		for _, text := range all {
			files, mode := token.NewFileSet(), parser.SkipObjectResolution
			if _, err := parser.ParseFile(files, "a.go", text, mode); err != nil {
				fmt.Fprintln(os.Stderr, err)
				os.Exit(1)
			}
		}
		if spent := time.Since(start); spent < best {
			best = spent
		}
	}
	fmt.Println(best.Seconds())
}
"""


def timed(words, folder, env=None):
    """Runs a program. Returns its seconds, and its exit status with the last line that it says."""
    quiet = {"stdout": subprocess.DEVNULL, "stderr": subprocess.PIPE}
    start = time.perf_counter()
    ran = subprocess.run(words, cwd=folder, env=env, check=False, **quiet)
    spent = time.perf_counter() - start
    lines = ran.stderr.decode(errors="replace").splitlines()
    return spent, f"exit {ran.returncode} {lines[-1] if lines else ''}".strip()


def peak(words, folder):
    """The peak memory of a program in bytes, looked at each half millisecond.

    What `wait4` tells counts this program's own memory before the other begins.
    """
    quiet = {"stdout": subprocess.DEVNULL, "stderr": subprocess.DEVNULL}
    found = 1
    child = subprocess.Popen(words, cwd=folder, **quiet)
    while child.poll() is None:
        status = f"/proc/{child.pid}/status"
        with contextlib.suppress(OSError), open(status, encoding="utf-8") as lines:
            held = [int(line.split()[1]) for line in lines if line.startswith("VmHWM")]
            found = max([found, *held])
        time.sleep(0.0005)
    return found * 1024


def emptied(folder, *names):
    for name in names:
        shutil.rmtree(os.path.join(folder, name), ignore_errors=True)


def best_build(program, folder, path, runs):
    """The least seconds and the peak memory of a build from sources alone, and how it ended.

    The files that it wrote stay.
    """
    words, found = [program, "build", path], []
    for _ in range(runs):
        emptied(folder, "unit", "lib")
        found.append(timed(words, folder))
    emptied(folder, "unit", "lib")
    return min(spent for spent, _ in found), peak(words, folder), found[0][1]


def go_env(path, cache):
    """The environment in which `go` takes the packages under a folder's src/."""
    own = {"GO111MODULE": "off", "GOPATH": path, "GOCACHE": f"{cache}/cache", "GOFLAGS": ""}
    return {**os.environ, **own}


def go_parser(folder):
    """Builds the program that times Go's parser. Returns its path, or None where Go isn't there."""
    if not shutil.which("go"):
        return None
    source, program = os.path.join(folder, "parse.go"), os.path.join(folder, "parse")
    with open(source, "w", encoding="utf-8") as out:
        out.write(PARSER)
    words = ["go", "build", "-o", program, source]
    built = subprocess.run(words, cwd=folder, env=go_env(folder, folder), check=False)
    return program if built.returncode == 0 else None


def parse_seconds(parse, folder, runs):
    """The least seconds in which Go's parser reads the sources, or None where it refuses them."""
    words = [parse, str(runs), os.path.join(folder, "src")]
    ran = subprocess.run(words, capture_output=True, text=True, check=False)
    if ran.returncode:
        print(ran.stderr, file=sys.stderr)
        return None
    return float(ran.stdout)


def build_seconds(folder, path):
    """The seconds of `go build` with an empty cache, and how it ended."""
    with tempfile.TemporaryDirectory() as cache:
        return timed(["go", "build", path], folder, go_env(folder, cache))


def counted(folder, *names):
    """How many folders below these have files, and how many bytes the files have."""
    folders, size = 0, 0
    for top in names:
        for at, _, files in os.walk(os.path.join(folder, top)):
            folders += bool(files)
            size += sum(os.path.getsize(os.path.join(at, name)) for name in files)
    return folders, size


def measured(name, size, given, parse):
    """One row: an input at one size."""
    with tempfile.TemporaryDirectory(prefix="bench-") as folder:
        path = made(name, size, given.seed, folder)
        row = {"size": size}
        row["packages"], row["bytes"] = counted(folder, "src")
        found = best_build(given.program, folder, path, given.runs)
        row["seconds"], row["memory"], row["ended"] = found
        row["moved"] = row["bytes"] + counted(folder, "unit", "lib")[1]
        if parse:
            row["parser"] = parse_seconds(parse, folder, given.runs)
            row["go"], row["go ended"] = build_seconds(folder, path)
        return row


def shown(name, row):
    """Prints a row."""
    seconds, packages = row["seconds"], row["packages"]
    size, memory = row["bytes"] / 1e6, row["memory"] / 1e6
    print(f"{name} {row['size']} {INPUTS[name][2]}: {row['bytes']} bytes, ", end="")
    print(f"{packages} packages, {row['ended']}")
    print(f"  build {seconds:.3f} s, {size / seconds:.2f} MB/s, ", end="")
    print(f"{seconds / packages:.6f} s a package, ", end="")
    print(f"peak {memory:.1f} MB, {memory / size:.1f} times the sources")
    if row.get("parser"):
        spent = row["parser"]
        print(f"  Go's parser {spent:.3f} s, {size / spent:.2f} MB/s:", end="")
        print(f" a build has {spent / seconds:.2f} of its speed")
    if row.get("go"):
        print(f"  go build {row['go']:.3f} s ({row['go ended']}):", end="")
        print(f" a build has {row['go'] / seconds:.2f} of its speed")


def growth(name, quarter, whole):
    """Prints what time and memory are multiplied by for each doubling of what is moved."""
    doublings = math.log2(whole["moved"] / quarter["moved"])
    spent, held = ((whole[key] / quarter[key]) ** (1 / doublings) for key in ("seconds", "memory"))
    print(f"  at twice the {name}: {spent:.2f} times the time, {held:.2f} times the memory")


def options():
    kind = argparse.RawDescriptionHelpFormatter
    read = argparse.ArgumentParser(description=__doc__, formatter_class=kind)
    read.add_argument("--seed", type=int, default=1, help="the seed of the inputs (1)")
    read.add_argument("--runs", type=int, default=5, help="the runs of which the best counts (5)")
    read.add_argument("--scale", type=float, default=1.0, help="a factor on all sizes (1)")
    read.add_argument("--program", help="the program (what the script goui at the top builds)")
    read.add_argument("names", nargs="*", metavar="INPUT", help=f"{', '.join(INPUTS)} (all)")
    given = read.parse_args()
    if not set(given.names) <= set(INPUTS):
        read.error(f"the inputs are {', '.join(INPUTS)}")
    return given


def built():
    """The program, which the script at the top builds where it is missing or old."""
    words = [os.path.join(TOP, "goui")]
    subprocess.run(words, stdout=subprocess.DEVNULL, stderr=subprocess.DEVNULL, check=False)
    return os.path.join(TOP, "crates", "goui", "out", "goui")


def main():
    given = options()
    given.program = os.path.abspath(given.program or built())
    if not os.path.isfile(given.program):
        sys.exit("the program isn't there: build it with the script goui at the top")
    with tempfile.TemporaryDirectory(prefix="bench-go-") as folder:
        parse = go_parser(folder)
        for name in given.names or INPUTS:
            size = max(4, int(INPUTS[name][1] * given.scale))
            quarter = measured(name, size // 4, given, parse)
            whole = measured(name, size, given, parse)
            shown(name, quarter)
            shown(name, whole)
            growth(name, quarter, whole)


if __name__ == "__main__":
    main()
