"""The C programs of this folder: compiles them, and has `most` tell the most memory that a command holds at once."""
import pathlib
import subprocess

HERE = pathlib.Path(__file__).resolve().parent


def built(folder, name):
    """Compiles a program into a folder, and returns where it is. It needs a C compiler, `cc`."""
    program = f"{folder}/{name}"
    subprocess.run(["cc", "-std=gnu11", "-O2", "-Wall", "-Wextra", "-pthread", "-o", program, HERE / f"{name}.c"], check=True)
    return program


def watched(folder, command):
    """Returns the words that run a command by the program `most` of a folder."""
    return [f"{folder}/most", f"{folder}/most.told", *command]


def told(folder):
    """Returns the bytes that the last such command of the folder held at most."""
    return int(pathlib.Path(folder, "most.told").read_text()) * 1024


def most_held(folder, command, source, target):
    """Runs a command from a file to a file, and returns the bytes that it held at most."""
    with open(source, "rb") as given, open(target, "wb") as taken:
        subprocess.run(watched(folder, command), stdin=given, stdout=taken, check=True)
    return told(folder)
