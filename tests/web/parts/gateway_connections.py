"""connections.nft in a network of its own, where nft is there: how many connections of an address get in."""
import json
import pathlib
import shutil
import subprocess
import sys

from lib.checks import check
from lib.places import ROOT

RULES = ROOT / "deploy" / "gateway" / "connections.nft"
PATH = "/usr/sbin:/usr/bin:/sbin:/bin"
NETWORK = ["unshare", "--user", "--map-root-user", "--net", sys.executable, pathlib.Path(__file__).with_name("let_in.py")]
# How many get in, and how many more are tried.
MOST, MORE = 100, 3


def connections():
    """An address has a hundred at once, those beyond are dropped, and another address isn't held up."""
    if not shutil.which("nft", path=PATH):
        print("no nft, so nobody counted connections by address")
        return
    result = subprocess.run([*NETWORK, RULES, str(MOST), str(MORE)], capture_output=True, text=True, timeout=60)
    check("connections by address", json.loads(result.stdout or "null"),
          {"127.0.0.1": MOST, "127.0.0.2": 1, "::1": MOST, "127.0.0.1 once they have ended": MORE})
    if result.returncode != 0:
        print(result.stderr)
