"""Runs a command of rt, but faster: kit.py WORD..

rt accepts a built library if the sum in its stamp is the sum over the sources of the crate and of all crates below it. rt of the
kit 13b computes such a sum anew for each chain of crates that leads down to a crate. From ca_cli there are thousands of chains,
which takes minutes. Here the sum of each crate is kept until rattle has run. Then the sums are computed anew, so a library gets no
stamp if one of its sources has changed while it was built.

rt builds a library with all its proofs, and keeps what it checked for the next check of the crate. If nothing is kept of a crate,
its library is built here as rt ci does it: from nothing, and with what other crates can cite, but without proofs. The crates above
load such a library much faster. It fits only the libraries over which it was built. rt doesn't know this, so here a library also
has a list of the sums of these libraries, and is built again if they have changed.
"""
import functools
import importlib.util
import os
import shlex
import shutil
import sys
import tempfile
from importlib.machinery import SourceFileLoader
from pathlib import Path


def build_without_proofs(rtlib):
    """Has rt build the libraries of which nothing is kept without their proofs."""
    crate_type = rtlib.Crate
    is_stamped, build_rlib = crate_type.is_built, crate_type.build_rlib

    def list_of(crate):
        return Path(crate.rlib).parent / "below"

    def sums_below(crate):
        return "".join(f"{it.name} {rtlib.sum_of(it.rlib + '/format')}\n" for it in crate.below())

    def is_built(crate):
        return is_stamped(crate) and rtlib.text_of(list_of(crate)) in (None, sums_below(crate))

    def build(crate, flags, anew):
        if anew or crate.is_built() or crate.has_kept():
            return build_rlib(crate, flags, anew)
        folder = Path(crate.rlib).parent
        shutil.rmtree(folder, ignore_errors=True)
        folder.mkdir(parents=True)
        words, stamp = crate.words(flags, keeps=False), crate.stamp()
        status = crate.call(rtlib.RATTLE, "build", *words, "--statements", "-o", crate.rlib)
        if status == 0 and stamp == crate.stamp():
            list_of(crate).write_text(sums_below(crate))
            (folder / "stamp").write_text(stamp)
        return status

    crate_type.is_built, crate_type.build_rlib = is_built, build


def keep_sums_until_rattle_runs(crate_type):
    """Has rt compute the sum of a crate once, and again after each run of rattle."""
    crate_type.stamp = functools.cache(crate_type.stamp)

    def forgetting(method):
        @functools.wraps(method)
        def run(crate, *words):
            try:
                return method(crate, *words)
            finally:
                crate_type.stamp.cache_clear()
        return run

    crate_type.call, crate_type.prove = forgetting(crate_type.call), forgetting(crate_type.prove)


def keep_modules(rtlib):
    """Has rt keep the module of a static library. For this, rattle gets a folder of tools whose clang is a script."""
    crate_type, tools = rtlib.Crate, Path(rtlib.KIT, "toolchain")
    call = crate_type.call

    def keeping(crate, *words):
        if "staticlib" not in words or str(tools) not in words:
            return call(crate, *words)
        with tempfile.TemporaryDirectory() as room:
            shutil.copytree(tools, room, copy_function=os.symlink, dirs_exist_ok=True)
            clang = Path(room, "bin", "clang")
            clang.unlink()
            kept = shlex.quote(str(Path(crate.folder, "out", "module.bc")))
            clang.write_text(f'#!/bin/sh\nfor it; do case $it in *.bc) cp "$it" {kept} || exit ;; esac; done\n'
                             f'exec {shlex.quote(str(tools / "bin" / "clang"))} "$@"\n')
            clang.chmod(0o755)
            return call(crate, *[room if it == str(tools) else it for it in words])

    crate_type.call = keeping


def module_of_rt():
    """rt as a module. Its attribute rtlib is the module by which it builds."""
    loader = SourceFileLoader("rt", os.path.realpath(shutil.which("rt")))
    rt = importlib.util.module_from_spec(importlib.util.spec_from_loader("rt", loader))
    loader.exec_module(rt)
    keep_sums_until_rattle_runs(rt.rtlib.Crate)
    build_without_proofs(rt.rtlib)
    keep_modules(rt.rtlib)
    return rt


if __name__ == "__main__":
    sys.exit(module_of_rt().main(sys.argv[1:]))
