#!/usr/bin/env python3
"""Does what deploy/gateway/README.md says, in a folder that has bin/auction, deploy/ and examples/: readme_debian.sh runs it.

Each block of commands runs as it stands, but for the token of a program, which is the one that the line before has printed. Prints
lines of a name and what was printed, of which package.py knows what they have to be.
"""
import os
import pathlib
import re
import subprocess

TEXT = pathlib.Path("deploy/gateway/README.md").read_text()
BLOCKS = re.findall(r"^```sh\n(.*?)^```$", TEXT, re.M | re.S)
PRINTED = re.search(r"^```text\n(house: .*?)^```$", TEXT, re.M | re.S)[1]


def block(word):
    """The block of commands that has a word, which is in no other."""
    found = [text for text in BLOCKS if word in text]
    assert len(found) == 1, (word, found)
    return found[0]


def run(text):
    """How commands end, and what they print."""
    result = subprocess.run(["sh", "-e"], input=text, stdout=subprocess.PIPE, stderr=subprocess.STDOUT, text=True,
                            env={**os.environ, "PATH": "/usr/bin:/bin"})
    return result.returncode, result.stdout


def say(name, value):
    print(f"readme, {name}: {value}", flush=True)


def first_house():
    status, printed = run(block("first_bids.sh"))
    say("two commands", status)
    say("first bids", PRINTED in printed)
    status, printed = run(block("dora"))
    say("an account", f"{status} {'dora 4' in printed}")
    program, ask = re.fullmatch(r"(.*\n)(cd .*\n.*\n)", block("Bearer TOKEN"), re.S).groups()
    status, printed = run(program)
    say("a token", status)
    status, printed = run(ask.replace("TOKEN", printed.split()[-1]))
    say("a program", f"{status} {'clock' in printed}")
    say("stopped", run("sh deploy/gateway/stop.sh city")[0])


def own_house():
    """A house that was made with other bands before the first start."""
    os.rename("city", "before")
    say("made first", run(block("--rate 500"))[0])
    status, printed = run("sh deploy/gateway/start.sh bin/auction city")
    say("served, and not open", f"{status} {'until now' in printed}")
    say("stopped again", run("sh deploy/gateway/stop.sh city")[0])


def region():
    status, printed = run(block("tarn.localhost\n"))
    say("several houses", f"{status} {printed.count(':8443: names and passwords')}")
    say("all stopped", run("sh deploy/gateway/stop.sh region")[0])


if __name__ == "__main__":
    first_house()
    own_house()
    region()
