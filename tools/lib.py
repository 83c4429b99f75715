"""What the Python tools share. The help of each is the text at its head. Their statuses are those of lib.sh: 0 all is as it should be, 1
something differs or is not proved, 2 it could not be tried, 64 wrong use."""
import os, shutil, signal, subprocess, sys

ROOT = os.path.dirname(os.path.dirname(os.path.realpath(__file__)))
TOOL = os.path.basename(sys.argv[0])


def say(text):
    print("%s: %s" % (TOOL, text), file=sys.stderr, flush=True)


def fail(text):
    say(text)
    sys.exit(2)


# The words that a tool was given, where they do not ask for its help.
def words(doc):
    if sys.argv[1:2] in (["-h"], ["--help"]):
        signal.signal(signal.SIGPIPE, signal.SIG_DFL)  # who reads the beginning alone is no fault
        print(doc.strip())
        sys.exit(0)
    return sys.argv[1:]


def wrong(doc, text):
    say(text)
    print(doc.strip(), file=sys.stderr)
    sys.exit(64)


# The folder to build in. rt keeps its own work in crates/NAME/out, and tools/library leaves the library in target/native; all else goes where
# SPHAIRUNE_WORK says.
def working():
    work = os.path.abspath(os.environ.get("SPHAIRUNE_WORK") or os.path.join(ROOT, "target"))
    try:
        os.makedirs(work, exist_ok=True)
    except OSError as why:
        fail("cannot write in %s (%s): name a folder to build in, SPHAIRUNE_WORK=FOLDER" % (work, why.strerror))
    return work


# The library to link: that of the folder which SPHAIRUNE_LIB names, as it is, or else it is proved and built.
def library():
    folder = os.environ.get("SPHAIRUNE_LIB")
    if not folder:
        status = subprocess.run([os.path.join(ROOT, "tools", "library")], stdout=sys.stderr).returncode
        if status:
            sys.exit(status)
        folder = os.path.join(ROOT, "target", "native")
    path = os.path.join(os.path.abspath(folder), "libsphairune.a")
    if not os.path.isfile(path):
        fail("no %s: SPHAIRUNE_LIB names the folder of a library built before" % path)
    return path


def needs_rt():
    if not shutil.which("rt"):
        fail("no rt on the path: put the bin folder of the Rattle kit there")
