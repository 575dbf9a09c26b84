#!/usr/bin/env python3
"""Makes the Debian package and tries it: `package.py PROGRAM FOLDER [DEBIAN]`.

build.sh of deploy/package makes it in FOLDER, twice the same bytes. lintian has to say nothing of it, where lintian is there.
Each file that nginx's files include is in it. Each link of the documents in the package leads to a file of it, and bash completes
what the program's help has.

Where a superuser runs this, and debootstrap and systemd-nspawn are there, a plain Debian boots that has no more than what the
package names, and debian/plain_debian.sh tries the package there: an older one is installed, which lacks a line of nginx's files;
two cities are set up, members sign in by the form and bid through nginx, the house ends in three ways, and timers close an item,
list all items and have a member mailed. One house has a full disk for a moment and is then damaged, beside the other, and its
watch, its alarm and Debian's Prometheus tell. The newer package is installed over the older one, has to run at once, and lets
those in who signed in by the browser's own window; a clock that was far ahead, and one that is days behind, let no command
through, until a copy is restored, or somebody says that the clock is right; a city is taken over from a server that ends; a copy
is taken; and the package is removed, installed again and purged. Then such a Debian that never had a house boots, and
debian/fresh_debian.sh restores the city from the copy, whose members sign in as before. In a third one a new user does what the
page of the gateway says, without the package. How many seconds an operator's steps took is printed. DEBIAN is the folder of that
Debian; one that isn't there is made from Debian's archive, in some minutes, and kept. The last line is 'N checks, M wrong'.

Promise: none
"""
import os
import pathlib
import re
import shutil
import subprocess
import sys
import tempfile

from lib.checks import RUN, check, verdict
from lib.places import ROOT
from lib.sent import PATIENCE

PACKAGES = ("systemd,systemd-sysv,dbus,adduser,nginx-light,haproxy,apache2-bin,apache2-utils,sqlite3,curl,openssl,python3,iproute2,procps,"
            "prometheus")
UNIT = """[Unit]
After=multi-user.target
[Service]
Type=exec
ExecStart=/bin/sh -c "sh /trial/SCRIPT >> /trial/printed 2>&1; systemctl poweroff"
"""
PRICE = '"price":500'
HOME, FORM = "https://lindow.example/", "https://lindow.example/sign-in.html"
HOUSES = "/var/lib/auction/fell/house /var/lib/auction/lindow/house /var/lib/auction/mere/house /var/lib/auction/tarn/house "
WANTED = {
    "installed": "0", "set up lindow": "0", "set up tarn": "0", "members of lindow": "house 0 ana 1 ben 2 ",
    "members of tarn": "house 0 ana 1 ben 2 ", "certificate of lindow": "CA:FALSE", "certificate of tarn": "CA:FALSE",
    "category": '{"category":1}', "item": '{"item":1}', "due": '{"item":2}',
    "bid": '{"count":1,"floor":550,"leader":2,"price":500}', "another page": '{"error":"gateway","why":"foreign"}',
    "no sign-in": '{"error":"gateway","why":"sign-in"}', "another city": '{"error":"gateway","why":"sign-in"}',
    "the form": FORM, "a wrong password": f"{FORM}#wrong", "nobody": "", "signed in": HOME, "ben": '"member":2',
    "a password of his own": f"{FORM}#changed", "out by it": "", "in by it": HOME, "signed out": FORM, "ben is out": "",
    "the list, to nobody": '{"error":"gateway","why":"sign-in"}', "an address": "201", "a mail to": "ben@lindow.example",
    "its link": "https://lindow.example/#/item/3", "beside silent connections": "0", "shut again": "700",
    "another user, the queue": "7", "another user, the house": "7", "the sign-in answers the queue": "0",
    "another user, the sign-in": "7", "another user, house": "1", "another user, accounts": "1", "another user, key.pem": "1",
    "another user, addresses": "2", "the house sees": "lindow",
    "after SIGTERM": PRICE, "after SIGKILL": PRICE, "after its count": PRICE, "closed by the timer": '"state":"unsold"',
    "a full disk": '{"error":"store"}', "its line": "status 500 to POST /items after: store", "with room again": "0",
    "the house said": "auction: file: Store",
    "a damaged house": "failed", "the other city": PRICE, "alerts": "1", "series": "11", "waited in vain": None,
    "the watch failed too": "0", "alarms": "1", "started with wrong words": "1",
    "header of the older package": "0", "upgraded": "0", "the same auction@lindow": "1", "the same auction-queue@lindow": "1",
    "the same auction@tarn": "1", "program that runs": "/usr/bin/auction", "behind a link": "kept",
    "in its place": "https://lindow.example", "header of the newer package": "1",
    "after the upgrade": PRICE, "an old password": "https://fell.example/", "is the same member's": '"member":1', "failed": "",
    "removed": "0", "nginx after it": "0", "active after it": "",
    "installed again": "0", "after it": PRICE, "purged": "0", "left": "/var/backups/auction /var/lib/auction ",
    "a clock ahead": '{"error":"gateway","why":"clock"}', "a read meanwhile": "200", "the watch says": "no command is let through",
    "restored after it": "0", "a command after it": "201", "days behind": '{"error":"gateway","why":"clock"}',
    "both clocks": "1", "another day": "1", "the right day": "0", "a command then": "201",
    "taken over": "0", "not before the other one ended": "0", "a command after the take-over": "201",
    "copied": "success", "its age": "the newest copy is 0 minutes old",
    "a copy has": "./accounts ./house ./page/addresses/2 ./page/notices.json ./settings/cert.pem ./settings/city.json "
                  "./settings/host ./settings/key.pem ./settings/site.conf ",
    "fresh, installed": "0", "fresh, restored": "0", "fresh, the price": PRICE,
    "fresh, a bid": '{"count":2,"floor":550,"leader":2,"price":500}', "fresh, no sign-in": '{"error":"gateway","why":"sign-in"}',
    "fresh, owner": "auction 600", "fresh, rights": "auction-sign-in:auction-sign-in 600 root:root 600 ",
    "fresh, signed in": HOME, "fresh, ben": '"member":2', "fresh, his address": "ben@lindow.example", "fresh, restored again": "0",
    "fresh, the price again": PRICE, "fresh, a third time": "is there already", "fresh, over a link": "is a link",
    "fresh, killed by its filter": "0", "fresh, failed": "",
    "the houses": HOUSES, "end": "",
    "readme, two commands": "0", "readme, first bids": "True", "readme, an account": "0 True", "readme, a token": "0",
    "readme, a program": "0 True", "readme, stopped": "0", "readme, made first": "0", "readme, served, and not open": "0 False",
    "readme, stopped again": "0", "readme, several houses": "0 3", "readme, all stopped": "0",
}
LINK = re.compile(r"\]\((?!https?:)([^)#\s]+)(?:#[^)\s]*)?\)")
FENCED = re.compile(r"^```.*?^```$", re.M | re.S)
MOST_EXPOSED = 1.5
WEB = ROOT / "tests" / "web"
SCRIPTS = ["plain_debian.sh", "fresh_debian.sh", "readme_debian.sh"]
INCLUDED = re.compile(r"^ *include (auction/[^;]+);", re.M)


def build(program, folder, tree=ROOT, **settings):
    subprocess.run(["sh", tree / "deploy" / "package" / "build.sh", program, folder], env=os.environ | settings, check=True,
                   stdout=subprocess.DEVNULL)
    return max(pathlib.Path(folder).glob("auction_*.deb"), key=lambda file: file.stat().st_mtime)


def built(program, folder):
    """The package, which is made twice."""
    package = build(program, folder)
    with tempfile.TemporaryDirectory() as other:
        check("the same bytes", package.read_bytes() == build(program, other).read_bytes(), True)
    return package


def build_older(program, folder):
    """A package of an older version, whose servers do not say to whom a browser may name a page."""
    with tempfile.TemporaryDirectory() as name:
        tree = pathlib.Path(name)
        for part in ("bench", "deploy", "docs", "examples"):
            shutil.copytree(ROOT / part, tree / part, ignore=shutil.ignore_patterns("plain"))
        for file in ("README.md", "CHANGELOG.md", "CONTRIBUTING.md", "crates.txt"):
            shutil.copy(ROOT / file, tree)
        servers = tree / "deploy" / "gateway" / "server.conf"
        servers.write_text("".join(line for line in servers.read_text().splitlines(True) if "Referrer-Policy" not in line))
        build(program, folder, tree, VERSION="0.9", SOURCE_DATE_EPOCH="0")


def has_page(package):
    """All files of the page are in the package."""
    listing = subprocess.run(["dpkg-deb", "--contents", package], capture_output=True, text=True, check=True).stdout
    packed = set(re.findall(r" \./usr/share/auction/page/(\S*[^/\s])$", listing, re.M))
    page = ROOT / "deploy" / "gateway" / "page"
    files = {str(file.relative_to(page)) for file in page.rglob("*") if file.is_file()}
    check("the page", packed, files)


def has_documents(package):
    """The documents are in the package, and each of their links leads to another file of it."""
    with tempfile.TemporaryDirectory() as name:
        subprocess.run(["dpkg-deb", "--extract", package, name], check=True)
        folder = pathlib.Path(name).resolve() / "usr" / "share" / "doc" / "auction"
        pages = sorted(folder.rglob("*.md"))
        check("documents", {"RUNNING.md", "HTTP.md"} <= {page.name for page in pages}, True)
        for page in pages:
            for target in LINK.findall(FENCED.sub("", page.read_text())):
                check(f"{page.relative_to(folder)} to {target}", (page.parent / target).exists(), True)


def completed(*words):
    result = subprocess.run(["bash", WEB / "parts" / "completion.sh", "auction", *words], capture_output=True, text=True)
    return set(result.stdout.split())


def has_completion(program):
    """bash completes each command and each option that the program's help has."""
    commands = set(re.findall(r"^  ([a-z]+)  ", helped(program), re.M))
    check("commands", completed(""), commands | {"--version", "--help"})
    for command in commands - {"help"}:
        check(f"options of {command}", completed(command, "--"), set(re.findall(r"^ +(?:-\w, )?(--[a-z]+)", helped(program, command), re.M)))


def helped(program, *words):
    return subprocess.run([program, *words, "--help"], capture_output=True, text=True, check=True).stdout


def has_servers(package):
    """Whatever nginx's files include is in the package, and the folder that they name leads to it."""
    with tempfile.TemporaryDirectory() as name:
        subprocess.run(["dpkg-deb", "--extract", package, name], check=True)
        share, link = pathlib.Path(name) / "usr" / "share" / "auction", pathlib.Path(name) / "etc" / "nginx" / "auction"
        check("the folder that nginx includes from", os.readlink(link), "/usr/share/auction/nginx")
        texts = [file.read_text() for file in (share / "site.conf", *(share / "nginx").iterdir())]
        included = {file for text in texts for file in INCLUDED.findall(text)}
        check("what nginx includes", included - {f"auction/{file.name}" for file in (share / "nginx").iterdir()}, set())


def lint(package):
    result = subprocess.run(["lintian", "--fail-on", "warning,error", package], capture_output=True, text=True)
    check("lintian", (result.returncode, result.stdout), (0, ""))


def make_debian(place):
    result = subprocess.run(["debootstrap", "--variant=minbase", f"--include={PACKAGES}", "bookworm", place,
                             "http://deb.debian.org/debian"], stdout=subprocess.DEVNULL)
    if result.returncode != 0:
        shutil.rmtree(place, ignore_errors=True)


def has_debian(place):
    """Whether there is a plain Debian at a place, which is made where nothing is, with all that the package needs."""
    if os.geteuid() != 0 or not shutil.which("systemd-nspawn"):
        print("not installed: that needs a superuser and systemd-nspawn")
        return False
    if not place.exists() and shutil.which("debootstrap"):
        make_debian(place)
    lists = place / "var" / "lib" / "dpkg" / "info"
    lacking = [package for package in PACKAGES.split(",") if not (lists / f"{package}.list").exists()]
    if lacking:
        print(f"not installed: {place} lacks {', '.join(lacking)}; debootstrap makes one where nothing is, from Debian's archive")
    return not lacking


def boot(debian, trial, script):
    """Runs a script in a Debian that forgets it all afterwards, but for what is in the folder of the trial."""
    (trial / "trial.service").write_text(UNIT.replace("SCRIPT", script))
    subprocess.run(["systemd-nspawn", "--quiet", "--boot", "--private-network", "--volatile=overlay", "--register=no",
                    "--keep-unit", f"--directory={debian}", f"--bind={trial}:/trial",
                    f"--bind-ro={trial}/trial.service:/etc/systemd/system/trial.service", "systemd.wants=trial.service"],
                   stdin=subprocess.DEVNULL, capture_output=True, timeout=2 * PATIENCE)


def tried(debian, program, package):
    """What the scripts tell: one tries the package, one restores its copy where no house was, and one tries the gateway."""
    with tempfile.TemporaryDirectory() as name:
        trial = pathlib.Path(name)
        build_older(program, trial / "older")
        (trial / "newer").mkdir()
        shutil.copy(package, trial / "newer")
        for part in ("deploy", "examples"):
            shutil.copytree(ROOT / part, trial / "repository" / part)
        (trial / "repository" / "bin").mkdir()
        shutil.copy(program, trial / "repository" / "bin")
        for file in (WEB / "debian").iterdir():
            shutil.copy(file, trial)
        for script in SCRIPTS:
            boot(debian, trial, script)
        file = trial / "printed"
        return file.read_text() if file.exists() else "it did not boot"


def judge(text):
    """Compares what was printed with what has to be."""
    printed = dict(re.findall(r"^([^:\n]+): ?(.*)$", text, re.M))
    for name, wanted in WANTED.items():
        check(name, printed.get(name), wanted)
    for unit in ("auction", "auction-queue", "auction-sign-in", "auction-close", "auction-catalogue"):
        exposure = printed.get(f"exposure of {unit}")
        print(f"{unit}: exposure {exposure}")
        check(f"exposure of {unit}", exposure is not None and float(exposure) < MOST_EXPOSED, True)
    for name, seconds in printed.items():
        if name.startswith("seconds of "):
            print(f"{name.removeprefix('seconds of ')}: {seconds} s")
    if RUN.wrong():
        print(text)


def main():
    package = built(*sys.argv[1:3])
    print(f"{package}: {package.stat().st_size} bytes")
    has_page(package)
    has_servers(package)
    has_documents(package)
    has_completion(sys.argv[1])
    if shutil.which("lintian"):
        lint(package)
    else:
        print("lintian is missing, so nobody read the package")
    debian = pathlib.Path((sys.argv[3:] + [f"{sys.argv[2]}/debian"])[0])
    if has_debian(debian):
        judge(tried(debian, sys.argv[1], package))
    return verdict()


if __name__ == "__main__":
    sys.exit(main())
