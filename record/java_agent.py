"""The agent that records Java programs: what compiles it, its folder, and what is missing for it."""
from __future__ import annotations

import functools
import glob
import os
import shutil
import subprocess
import sys
import tempfile

import built

HERE = os.path.dirname(os.path.realpath(__file__))
SOURCES = os.path.join(HERE, "jvm")
# Where Debian's package libasm-java has the two parts of ASM that are needed.
ASM = "/usr/share/java/asm.jar"
ASM_COMMONS = "/usr/share/java/asm-commons.jar"

# javac runs for seconds only: it takes less memory so.
LIGHT = ("-J-XX:+UseSerialGC", "-J-XX:TieredStopAtLevel=1")


class Unbuildable(Exception):
    """Why there is no agent."""


def tool(name: str) -> str:
    """The path of a program of the JDK: that of JAVA_HOME, or else that of PATH."""
    home = os.environ.get("JAVA_HOME")
    if home and os.access(os.path.join(home, "bin", name), os.X_OK):
        return os.path.join(home, "bin", name)
    found = shutil.which(name)
    if not found:
        package = "openjdk-17-jre-headless" if name == "java" else "openjdk-17-jdk-headless"
        raise Unbuildable(f"there is no program {name}: install {package}")
    return found


def is_java(program: str) -> bool:
    """Whether a word of the command line is the program java, whose programs record/java records."""
    return os.path.basename(program) == "java"


def choose(program: str) -> None:
    """From here on java is this one, if the word names it by its path."""
    if "/" in program:
        os.environ["JAVA_HOME"] = os.path.dirname(os.path.dirname(os.path.abspath(program)))


def packaged() -> str | None:
    """The jar that a package has beside the sources."""
    jar = os.path.join(SOURCES, "planecarmine.jar")
    return jar if os.path.exists(jar) else None


def run(command: list[str]) -> None:
    """Runs a step of the build, and repeats what it says if it fails."""
    done = subprocess.run(command, stdin=subprocess.DEVNULL, capture_output=True, check=False)
    if done.returncode:
        sys.stderr.write(done.stderr.decode(errors="replace")[:4000])
        raise Unbuildable(f"the agent was not compiled: {os.path.basename(command[0])} ended with {done.returncode}")


def make(jar: str, names: str) -> int:
    """Compiles the agent, and puts it into a jar with ASM. The jar will have one of the names."""
    javac, java, jars = tool("javac"), tool("java"), f"{ASM}:{ASM_COMMONS}"
    with tempfile.TemporaryDirectory(prefix="record") as folder:
        agent, shade = os.path.join(folder, "agent"), os.path.join(folder, "shade")
        sources = sorted(glob.glob(os.path.join(SOURCES, "src", "planecarmine", "*.java")))
        run([javac, *LIGHT, "-nowarn", "--release", "17", "-encoding", "UTF-8", "-cp", ASM, "-d", agent, *sources])
        run([javac, *LIGHT, "--release", "17", "-cp", jars, "-d", shade, os.path.join(SOURCES, "shade", "Shade.java")])
        table = os.path.join(SOURCES, "library.txt")
        run([java, "-cp", f"{shade}:{jars}", "Shade", jar, agent, ASM, table, names])
    return 0


def jar_path(otherwise: str) -> str:
    """The path of the agent's jar, which is compiled once. If nothing can be kept, it is in the folder `otherwise`."""
    ready = packaged()
    if ready:
        return ready
    javac = tool("javac")
    for file in (ASM, ASM_COMMONS):
        if not os.path.exists(file):
            raise Unbuildable(f"there is no {file}: install libasm-java")
    pattern = os.path.join(SOURCES, "**", "*")
    sources = sorted(path for path in glob.glob(pattern, recursive=True) if os.path.isfile(path))
    sources += [ASM, ASM_COMMONS]
    names = f"planecarmine-{built.key_of(sources, [javac])}.jar planecarmine.jar"
    made = built.built("planecarmine.jar", sources, [javac], functools.partial(make, names=names), otherwise)
    if not made:
        raise Unbuildable("the agent can't be kept")
    return made
