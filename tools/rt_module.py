"""The toolchain's command rt as a module, for what the command has no words for."""
import importlib.util
import os
import shutil
import sys
import tempfile
from importlib.machinery import SourceFileLoader


def loaded():
    """Returns the command as a module."""
    path = os.path.realpath(shutil.which("rt") or sys.exit("the toolchain's command rt is not there"))
    sys.path.insert(0, os.path.dirname(path))
    loader = SourceFileLoader("rt", path)
    module = importlib.util.module_from_spec(importlib.util.spec_from_loader("rt", loader))
    loader.exec_module(module)
    return module


def built_for(root, program, target, jobs=1):
    """Proves a program over the libraries that the gate has left in this repository, and compiles it for the target by
    LLVM, in one run. The command itself would prove the libraries again. Returns its path, or None where that failed."""
    rt = loaded()
    rt.rtlib.guarded()
    crate = rt.Crate(f"{root}/crates/{program}", root, {})
    crate.said = {**crate.said, "cpu": target}
    os.makedirs(f"{crate.folder}/out", exist_ok=True)
    to = f"out/{program}-{target}"
    words = crate.words(["--jobs", str(jobs)], keeps=False)
    words += ["--toolchain", f"{rt.KIT}/toolchain", "--backend", "llvm", "-o", f"{to}.o"]
    with tempfile.TemporaryFile("a+", errors="replace") as crate.out:
        failed = crate.prove(["build", *words]) or crate.link(f"{to}.o", to)
        crate.out.seek(0)
        if failed:
            print(crate.out.read(), end="")
    return None if failed else f"{crate.folder}/{to}"
