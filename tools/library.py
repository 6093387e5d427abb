"""The proved library for Python: target/staticlib/libsmear_c.a made into a shared library, which ctypes loads; its
functions are those of crates/smear_c/include/smear.h. What is not built yet, or is older than that header, is built
first: the archive by `tools/build smear_c`, which proves it, and the shared library by the C compiler."""
import ctypes
import functools
import os
import subprocess
import sys

ROOT = os.path.dirname(os.path.dirname(os.path.abspath(__file__)))
HEADER = os.path.join(ROOT, "crates", "smear_c", "include", "smear.h")
ARCHIVE = os.path.join(ROOT, "target", "staticlib", "libsmear_c.a")
SHARED = os.path.join(ROOT, "target", "tools", "libsmear_c.so")
# how a function takes a picture: its bytes, how many these are, width, height and stride
PICTURE = [ctypes.c_char_p, *4 * [ctypes.c_size_t]]


class Failed(Exception):
    """What kept the library from being called."""


def run(*command):
    """Runs a command of the build; what it says goes to standard error."""
    try:
        done = subprocess.run(command, cwd=ROOT, stdin=subprocess.DEVNULL, stdout=sys.stderr, check=False)
    except FileNotFoundError:
        raise Failed(f"the library cannot be built: {command[0]} is not installed") from None
    if done.returncode != 0:
        raise Failed(f"the library cannot be built: {command[0]} failed")


def time_of(path):
    """When the file was written, in ns; 0 where it is not there."""
    return os.stat(path).st_mtime_ns if os.path.exists(path) else 0


def build():
    """Builds what is not built. An archive that is older than the header may take other arguments. A shared library has
    its archive's time, so that another archive makes it anew."""
    if time_of(ARCHIVE) < time_of(HEADER):
        print("building the library: tools/build smear_c", file=sys.stderr)
        run(os.path.join("tools", "build"), "smear_c")
    time = time_of(ARCHIVE)
    if time_of(SHARED) != time:
        # another tool may build it too, or load it: what has its name is whole
        made = f"{SHARED}.{os.getpid()}"
        os.makedirs(os.path.dirname(SHARED), exist_ok=True)
        run("cc", "-shared", "-o", made, "-Wl,--whole-archive", ARCHIVE, "-Wl,--no-whole-archive", "-lm")
        os.utime(made, ns=(time, time))
        os.replace(made, SHARED)


@functools.cache
def loaded():
    build()
    return ctypes.CDLL(SHARED)


def function(name, *types):
    """A function of the library, which returns the number of its refusal, or 0."""
    try:
        found = getattr(loaded(), name)
    except AttributeError:
        raise Failed(f"{ARCHIVE} has no {name}: it is an older one; build it with tools/build smear_c") from None
    found.argtypes, found.restype = types, ctypes.c_uint8
    return found
