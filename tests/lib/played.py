"""What is common to the scripts that compare a house with plain lists."""
import pathlib
import subprocess

from lib.sent import PATIENCE


def spelled(word):
    """An argument as a script spells it."""
    if word is None or word == "":
        return "-"
    if isinstance(word, int):
        return str(word)
    return "".join(c if c.isalnum() else f"%{ord(c):02x}" if c.isascii() else c for c in word)


def compared(command, lines):
    """Plays a script by a command, and compares: `lines` are its lines, each with its answer or None for a line that has none."""
    script = "\n".join(line for line, _ in lines)
    result = subprocess.run([str(pathlib.Path(command[0]).resolve()), *command[1:]], input=script.encode(), capture_output=True,
                            timeout=PATIENCE)
    expected = [pair for pair in lines if pair[1] is not None]
    printed = result.stdout.decode().splitlines()
    wrong = [(line, answer, got) for (line, answer), got in zip(expected, printed) if answer != got]
    for line, answer, got in wrong[:5]:
        print(f"{line}\n  expected {answer}\n  got      {got}")
    print(f"{len(printed)} of {len(expected)} answers, {len(wrong)} wrong")
    return 1 if wrong or len(printed) != len(expected) or result.returncode != 0 else 0
