"""The programs that benches run, which are those that the launchers of bin/ start."""
import os
import subprocess
import sys

TOP = os.path.dirname(os.path.dirname(os.path.abspath(__file__)))


def program(name):
    """the path of a program itself, since its launcher takes time of its own"""
    found = subprocess.run([os.path.join(TOP, "bin", "where"), name], stdout=subprocess.PIPE, text=True, check=False)
    return found.stdout.rstrip("\n") or sys.exit(f"there is no program {name}")


def programs(names, folder):
    """programs by name: those of a folder, or those that the launchers start"""
    if not folder:
        return {name: program(name) for name in names}
    found = {name: os.path.join(os.path.abspath(folder), name) for name in names}
    for path in found.values():
        if not os.access(path, os.X_OK):
            sys.exit(f"there is no program {path}")
    return found
