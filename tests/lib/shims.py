"""The C files of tools/ that are loaded into the program by LD_PRELOAD."""
import os
import shutil
import subprocess

from lib.harness import TOP, Wrong


def shim_in(folder, name="refuse"):
    """The compiled C file of this name."""
    compiler = shutil.which("gcc") or shutil.which("clang")
    if not compiler:
        raise Wrong(f"neither gcc nor clang is there to compile {name}.c")
    shim = os.path.join(folder, f"{name}.so")
    source = os.path.join(TOP, "tools", f"{name}.c")
    subprocess.run([compiler, "-O2", "-shared", "-fPIC", "-o", shim, source, "-ldl"], check=True)
    return shim
