"""Calls the prover over libraries that are built, without `rt`.

`rt ci` leaves the libraries in crates/NAME/out/rlib and marks none as the present one, so `rt check` and `rt lib` would prove
all of them again.
"""
import glob
import os
import shutil
import sys

TOP = os.path.dirname(os.path.dirname(os.path.realpath(__file__)))
PARTS = ("src", "specs", "proofs")


def text_of(path):
    with open(path, encoding="utf-8") as file:
        return file.read()


class Prover:
    """The prover, and the words of its command line, over the libraries that `rt ci` left in crates/*/out or, with a folder, those in it."""

    def __init__(self, folder=None):
        rt = shutil.which("rt") or sys.exit("the kit's command `rt` is not on the path")
        self.kit = os.path.dirname(os.path.dirname(os.path.realpath(rt)))
        self.built = {os.path.basename(it)[:-5]: it for it in glob.glob(f"{folder}/**/*.rlib", recursive=True)} if folder else None
        self.uses, self.is_static, self.fresh = {}, set(), {}
        for line in text_of(f"{TOP}/crates.txt").split("\n"):
            head, _, below = line.partition("#")[0].partition(":")
            if head.strip():
                self.uses[head.split()[0]] = below.split()
                self.is_static |= {head.split()[0]} if "staticlib" in head.split() else set()

    def library(self, name):
        """Returns the built library of a crate, if there is one that no file of the crate or of one below is newer than."""
        if name not in self.fresh:
            path = self.built.get(name) if self.built is not None else f"{TOP}/crates/{name}/out/rlib/{name}.rlib"
            is_there = path and os.path.isfile(f"{path}/format") and all(self.library(it) for it in self.uses[name] if it in self.uses)
            if is_there and self.built is None:
                files = [it for part in PARTS for it in glob.glob(f"{TOP}/crates/{name}/{part}/**", recursive=True)]
                is_there = os.stat(path).st_mtime >= max(os.stat(it).st_mtime for it in files if os.path.isfile(it))
            self.fresh[name] = os.path.abspath(path) if is_there else None
        return self.fresh[name]

    def below(self, name):
        """Returns the crates of the repository below one, each after those that it uses."""
        found = []
        for it in self.uses[name]:
            if it in self.uses:
                found += [below for below in [*self.below(it), it] if below not in found]
        return found

    def of_kit(self, name):
        return ["std", *[it for it in self.uses[name] if it not in self.uses]]

    def words(self, verb, name, folder):
        """Returns the words of a check or a build of a crate whose sources stand in the folder."""
        below, words = self.below(name), ["--crate-name", name]
        words += ["src/main.rt" if os.path.isfile(f"{folder}/src/main.rt") else "src/lib.rt"]
        kit = dict.fromkeys(self.of_kit(name) + [lib for it in below if not self.library(it) for lib in ["core", *self.of_kit(it)]])
        for it in kit:
            words += ["--extern", f"{it}={self.kit}/rlibs/{it}.rlib"]
        words += ["-L", f"dependency={self.kit}/rlibs"]
        for it in below:
            if self.library(it):
                words += ["--extern", f"{it}={self.library(it)}"] * (it in self.uses[name] or any(not self.library(up) for up in below))
                words += ["-L", f"dependency={os.path.dirname(self.library(it))}"]
            else:
                uses = dict.fromkeys(["core", *self.of_kit(it), *self.uses[it]])
                words += ["--lib", f"{it}:{','.join(uses)}={TOP}/crates/{it}/src/lib.rt"]
        words += ["--crate-type", "staticlib"] * (name in self.is_static)
        words += ["--antt-project", f"{self.kit}/rattle/logic/antt-project.json", "--logic-built", f"{self.kit}/logic_built"]
        return [f"{self.kit}/bin/rattle", verb, *words]
