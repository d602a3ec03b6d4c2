"""Compiles a crate without proof, by the quick path of `rt try`: for tools/build and tools/make-c.

What comes of it is optimised and has no sanitizer. It stops where an index is out of its range; what else `rt try` stops at, as at
a sum that goes wrong, is not looked at.
"""
import os
import pathlib
import re
import subprocess
import sys
import tempfile
import time

ROOT = pathlib.Path(__file__).resolve().parent.parent
OUT = ROOT / "out"
TARGET = "x86_64-unknown-linux-gnu"

# What is there for `rt try` alone: tests of addresses, values and sums, and what fills a variable before its first use.
TESTS = re.compile(r'^ *call void @"rattle-llvm-checks::\w+"\(.*\n|\bsanitize_address ', re.MULTILINE)
FILLS = re.compile(r"^(.* = alloca .*\n).*@llvm\.memset\.p0\.i64\(.*, i8 -86, .*\n", re.MULTILINE)


def stop(why):
    """Ends the tool that this is part of, with one line."""
    sys.exit(f"tools/{pathlib.Path(sys.argv[0]).name}: {why}")


def run(*words, **how):
    """Runs a command, which has to succeed."""
    ran = subprocess.run([str(word) for word in words], **how)
    if ran.returncode:
        stop(f"{words[0]} failed")
    return ran


def kit():
    """The folder of the toolchain."""
    return pathlib.Path(run("rt", "doc", text=True, capture_output=True).stdout.strip()).parent


def room():
    """A folder in out/ for one run alone: what it makes there is renamed, so a second run is not in its way."""
    try:
        OUT.mkdir(exist_ok=True)
        return tempfile.TemporaryDirectory(dir=OUT)
    except OSError as fault:
        stop(f"{OUT} can't be written: {fault.strerror}")


def catch_module(crate, words, kept):
    """Gives the module that `rt try` compiles of a crate a second name."""
    with tempfile.TemporaryDirectory(dir=kept.parent) as place, tempfile.TemporaryFile("w+") as said:
        env = {**os.environ, "TMPDIR": place}
        building = subprocess.Popen(["rt", "try", *words], cwd=crate, env=env, stdout=said, stderr=said)
        while building.poll() is None:
            for module in pathlib.Path(place).glob("*/*/module.bc"):
                # It is whole once it is compiled.
                if module.stat().st_size > 10**5 and any(module.parent.glob("module*.o*")):
                    os.link(module, kept)
                    building.terminate()
                    building.wait()
                    return
            time.sleep(0.01)
        said.seek(0)
        stop(f"rt try built nothing\n{said.read()}".rstrip())


def clang():
    """The words that begin a command of the toolchain's compiler."""
    return [kit() / "toolchain" / "bin" / "clang", f"--target={TARGET}", "-x", "ir"]


def read_module(crate, words, place):
    """The module that `rt try` with these words compiles of a crate, as a text."""
    catch_module(crate, words, place / "module.bc")
    run(*clang(), "-S", "-emit-llvm", "-O0", "-Xclang", "-disable-llvm-passes", "module.bc", "-o", "module.ll", cwd=place)
    return (place / "module.ll").read_text()


def unwatched(text):
    """A module without what is there for `rt try` alone."""
    return FILLS.sub(r"\1", TESTS.sub("", text))


def compile_module(place, text, made, *flags):
    """Compiles a module to the object file `made`."""
    (place / "module.ll").write_text(text)
    run(*clang(), "-c", "-O3", "-fPIC", "-ffunction-sections", "-fdata-sections", *flags, "module.ll", "-o", made, cwd=place)


def link(place, made, program):
    """Links an object file with what it needs of the toolchain to a program, as the proved one is."""
    tools = kit()
    words = ["--target", TARGET, "--toolchain", tools / "toolchain", "-o", program, made]
    run(tools / "bin" / "rattle-link", *words, tools / "c" / "libos_c.a", tools / "c" / "liblibc_c.a", cwd=place, stderr=subprocess.DEVNULL)
