"""What start.sh finds: houses that other users of the machine could read, what a run of it left that was killed, and a house
that was away for days."""
import os
import signal
import stat
import subprocess
import time

from lib.checks import check
from lib.confined import NOBODY, as_nobody
from lib.gateway_run import PATH, Gateway
from lib.serving import exchange, held_port, message
from parts.gateway_cases import as_another_user

OPENED = "start.sh: other users could read files in houses/localhost until now"
REFUSED = "start.sh: others may read houses/localhost, and its owner alone can shut it: it isn't served"


def make_open(gateway):
    """A house that its user has opened to others, where start.sh looks for it."""
    house = gateway.house()
    words = ["--bands", gateway.bands, "--rate", "1000", "--zone", "UTC0"]
    for command in (["mkdir", "-p", house], [gateway.program, "init", house / "house", *words]):
        subprocess.run(command, check=True, preexec_fn=as_nobody, umask=0o022, stdout=subprocess.DEVNULL)
    check("as it is made", open_to_others(house), ["localhost"])
    for file in house.iterdir():
        file.chmod(0o644)
    return house


def open_to_others(folder):
    """A folder and the files in it for which others than its user have any right."""
    files = [folder, *folder.iterdir()]
    return sorted(file.name for file in files if not file.is_symlink() and stat.S_IMODE(file.stat().st_mode) & 0o077)


def open_houses(program, folder):
    """A house that others could read is shut before it is served. One of another owner isn't served."""
    with held_port() as port, held_port() as house_port:
        gateway = Gateway(program, folder, port, house_port)
        house = make_open(gateway)
        check("made open", open_to_others(house), ["house", "house-wal", "localhost"])
        try:
            status, _, error = gateway.start()
            check("an open house is served", (status, error.strip()), (0, OPENED))
            check("and is shut", open_to_others(house), [])
        finally:
            gateway.stop()
        if os.geteuid() == 0:
            of_another_owner(gateway, house)


def of_another_owner(gateway, house):
    """Who runs the gateway can't shut the house that is another's."""
    os.chown(house / "house", 0, 0)
    os.chmod(house / "house", 0o644)
    os.chown(house, NOBODY, NOBODY)
    status, _, error = gateway.start()
    check("another's open house", (status, error.splitlines()[-1:]), (1, [REFUSED]))
    with as_another_user():
        check("another user", os.access(house / "house", os.R_OK, effective_ids=True), False)


def command(gateway):
    """What the queue answers to a command of whoever runs the house."""
    words = ["curl", "-s", "--unix-socket", gateway.house() / "run" / "queue.sock", "-X", "POST", "-H", "x-member: 0", "http://house/close"]
    return subprocess.run(words, preexec_fn=as_nobody, capture_output=True, text=True).stdout


def away(program, folder):
    """A house that was away for three days takes no command until somebody says that the clock is right."""
    with held_port() as port, held_port() as house_port:
        gateway = Gateway(program, folder, port, house_port)
        house = make_open(gateway)
        words = [gateway.program, "serve", house / "house", "--port", str(house_port), "--count", "1"]
        server = subprocess.Popen(words, preexec_fn=as_nobody, stdout=subprocess.PIPE, text=True)
        server.stdout.readline()
        exchange(house_port, message("POST", "/close", 0, int(time.time()) - 3 * 86_400))
        server.communicate()
        try:
            status, _, error = gateway.start()
            check("away for three days", (status, "localhost takes no command: the clock of the house is" in error), (1, True))
            check("a command", command(gateway), '{"error":"gateway","why":"clock"}')
            for day, wanted in ("2020-01-01", 1), (time.strftime("%Y-%m-%d"), 0):
                check(f"it is {day}", gateway.script("clock_is_right.sh", house, day)[0], wanted)
            check("a command then", command(gateway), '{"sold":0,"unsold":0}')
            gateway.stop()
            status, lines, error = gateway.script("clock_is_right.sh", house)
            check("not served", (status, lines, error.splitlines()[-1:]), (1, [], ["clock_is_right.sh: the house isn't served"]))
            check("started again", gateway.start()[::2], (0, ""))
        finally:
            gateway.stop()


def half_started(program, folder):
    """A start that was killed when it had let one of four in is ended by the next."""
    with held_port() as port, held_port() as house_port:
        gateway = Gateway(program, folder, port, house_port)
        words = ["sh", gateway.scripts / "start.sh", gateway.program, gateway.folder]
        process = subprocess.Popen(words, preexec_fn=as_nobody, start_new_session=True, stdout=subprocess.DEVNULL,
                                   env={**os.environ, "PATH": PATH, "PORT": str(port), "HOUSE_PORT": str(house_port)})
        begun = gateway.house() / "passwords.begun"
        gateway.wait(lambda: begun.exists() and begun.read_text())
        os.killpg(process.pid, signal.SIGKILL)
        process.wait()
        try:
            check("started again", gateway.start()[0], 0)
            check("all are let in", [line.split() for line in gateway.account("list")[1]],
                  [["house", "0"], ["ana", "1"], ["ben", "2"], ["cid", "3"]])
            gateway.stop()
            others_numbers(gateway)
        finally:
            gateway.stop()


def others_numbers(gateway):
    """Numbers that a machine left which ended may be another process's by now, which goes on."""
    other = subprocess.Popen(["sleep", "600"], preexec_fn=as_nobody, start_new_session=True)
    for file in (gateway.folder / "run" / "nginx.pid", gateway.house() / "run" / "house.pid"):
        subprocess.run(["tee", file], input=f"{other.pid}\n", text=True, check=True, preexec_fn=as_nobody, stdout=subprocess.DEVNULL)
    check("stopped beside another's number", gateway.stop()[0], 0)
    check("started beside another's number", gateway.start()[0], 0)
    check("the other process goes on", other.poll(), None)
    other.kill()
    other.wait()
