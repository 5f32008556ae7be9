"""What the scripts of this folder share: the tree, the kit's rt, and the files that say from what a build was made."""
import hashlib
import importlib.machinery
import importlib.util
import os
import shutil
import subprocess
import sys

# The texts that an archive of tools/release begins with: from what each crate in it was made, and the sums of its files.
MADE_FROM, SUMS = "MADE-FROM", "SHA256SUMS"
ROOT = os.path.dirname(os.path.dirname(os.path.realpath(__file__)))


def kit():
    """Returns the kit's rt as a module. It is no interface of the kit, and may be another in the next one."""
    if not shutil.which("rt"):
        name = os.path.basename(sys.argv[0])
        sys.exit(f"{name}: the command rt of the Rattle kit is not on the PATH; README.md says what it is for")
    loader = importlib.machinery.SourceFileLoader("rt", os.path.realpath(shutil.which("rt")))
    module = importlib.util.module_from_spec(importlib.util.spec_from_loader("rt", loader))
    loader.exec_module(module)
    return module


def crates(rt):
    """Returns all crates, lowest first."""
    return rt.rtlib.crates_below(f"{ROOT}/crates")


def stamps(rt, those):
    """Returns for each of these crates, by name, the sum of the kit, of its sources and of those of all crates below."""
    rt.STAMPS.seen = {}
    try:
        return {it.name: it.stamp() for it in those}
    finally:
        rt.STAMPS.seen = None


def text_of(file):
    """Returns what a file holds, nothing where it is not there."""
    try:
        with open(file, encoding="utf-8", errors="replace") as it:
            return it.read()
    except OSError:
        return ""


def write(file, text):
    """Writes a file that others may read meanwhile: they find it as it was or whole."""
    with open(f"{file}.new", "w", encoding="utf-8") as it:
        it.write(text)
    os.replace(f"{file}.new", file)


def sum_of(file):
    """Returns a sum of what a file holds, `none` where it is not there."""
    if not os.path.isfile(file):
        return "none"
    with open(file, "rb") as it:
        return hashlib.sha256(it.read()).hexdigest()


def sources():
    """Returns the sum of what the programs are made of."""
    return subprocess.run([f"{ROOT}/tools/sources"], stdout=subprocess.PIPE, check=True, text=True).stdout.strip()


def mark(program, made_from):
    """Writes beside a program that it is made from the sources of this sum, for the script rawgrid, which compares."""
    write(f"{os.path.dirname(program)}/built", f"{made_from}\n{sum_of(program)}\n")


def is_marked(program, made_from):
    """Returns whether a program is one that is marked so."""
    return text_of(f"{os.path.dirname(program)}/built") == f"{made_from}\n{sum_of(program)}\n"


def formats(crate):
    """Returns a line for each library below a crate: its name, and a sum that is another where it was built otherwise."""
    return "".join(f"{it.name} {sum_of(f'{it.rlib}/format')}\n" for it in crate.below())


def mark_library(crate, stamp):
    """Says beside a library that it was built from these sources, which is what rt looks for, and over which libraries."""
    write(f"{crate.folder}/out/rlib/over", formats(crate))
    write(f"{crate.folder}/out/rlib/stamp", stamp)


def says_over(crate):
    """Returns whether a library says over which libraries it was built: those that rt builds over kept work do not."""
    return os.path.exists(f"{crate.folder}/out/rlib/over")


def is_built(crate, stamp):
    """Returns whether a library stands here that was built from these sources, and over the libraries below as they are
    here, so far as it says that: over any other, rattle refuses it."""
    has_stamp = os.path.isdir(crate.rlib) and text_of(f"{crate.folder}/out/rlib/stamp") == stamp
    return has_stamp and (not says_over(crate) or text_of(f"{crate.folder}/out/rlib/over") == formats(crate))


def files_of(crate, root=ROOT):
    """Returns the files that make up a built library or program, in order: a sum of each by its path below `out`, or below
    its folder `rlib`."""
    out = f"{root}/crates/{crate.name}/out"
    if crate.is_program:
        return {crate.name: sum_of(f"{out}/{crate.name}")} if os.path.isfile(f"{out}/{crate.name}") else {}
    walked = os.walk(f"{out}/rlib/{crate.name}.rlib")
    files = sorted(os.path.relpath(f"{at}/{name}", f"{out}/rlib") for at, _, names in walked for name in names)
    return {it: sum_of(f"{out}/rlib/{it}") for it in files}


def kit_name(rt):
    """Returns what names the kit."""
    return text_of(f"{rt.rtlib.KIT}/KIT-ID").strip()
