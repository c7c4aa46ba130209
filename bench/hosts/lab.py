"""The hosts of tests/hosts, with an upstream that says when its records were made, and sites whose clocks can be moved."""

import mmap
import os
import struct
import subprocess
import sys
import time
from pathlib import Path

ROOT = Path(__file__).resolve().parents[2]
sys.path.insert(0, str(ROOT / "tests"))
from hosts_parts.fleet import ADDRESSES, PLACE, PORT, PROVIDER, ROOM, SITE_USER, Fleet

HERE = Path(__file__).resolve().parent
HOSTS = tuple(ADDRESSES)
# Whose cable can be cut. Host d lies behind two routers.
CABLES = ("a", "b", "c", "provider")
# The ports of a host: of its front, for clients and for its site, of the site, and of WireGuard.
PORTS = (53, 5301, PORT, 51820)
TOOLS = "ip nft wg wg-quick dnsdist openssl cc nsenter setpriv unshare".split()


def why_not():
    """Why no hosts can be made here, if so."""
    if os.getuid() != 0:
        return "needs root"
    for tool in TOOLS:
        if subprocess.run(["sh", "-c", f"command -v {tool}"], stdout=subprocess.DEVNULL, check=False).returncode:
            return f"no {tool}"
    if not Path("/dev/net/tun").exists():
        return "no /dev/net/tun"
    tried = subprocess.run("unshare -mnpf --mount-proc nft list ruleset".split(), capture_output=True, check=False)
    return "namespaces or nftables may not be used here" if tried.returncode else None


def enter():
    """Runs this program again in namespaces of its own, which end with it, and nothing of them stays."""
    os.environ["PATH"] += ":/usr/sbin"
    if "INSIDE" not in os.environ:
        why = why_not()
        if why:
            print(f"skipped: {why}")
            sys.exit(0)
        os.environ["INSIDE"] = "yes"
        words = "unshare -mnpf --kill-child --mount-proc".split()
        os.execvp(words[0], [*words, sys.executable, "-B", *sys.argv])
    subprocess.run("mount -t tmpfs tmpfs /run".split(), check=True)


class Clock:
    """The clock of a host's site: since when it is ahead by how many seconds."""

    def __init__(self, path):
        self.path, self.history = path, [(0, 0)]
        path.write_bytes(bytes(8))
        with open(path, "r+b") as file:
            self.octets = mmap.mmap(file.fileno(), 8)

    def set(self, ahead, is_told=True):
        if is_told:
            self.history.append((time.time(), ahead))
        struct.pack_into("=q", self.octets, 0, ahead)


class Hosts(Fleet):
    """The hosts, with all but their sites."""

    def __init__(self, program, clients):
        super().__init__(program)
        library = str(ROOM / "ahead.so")
        subprocess.run(["cc", "-O2", "-shared", "-fPIC", "-o", library, ROOT / "bench/hostile/ahead.c"], check=True)
        self.clocks = {host: Clock(ROOM / f"{host}.clock") for host in HOSTS}
        self.env = {host: {**os.environ, "LD_PRELOAD": library, "CLOCK_AHEAD": str(self.clocks[host].path)}
                    for host in HOSTS}
        for address in clients:
            self.hosts["client"].run(f"ip address add {address}/24 dev eth0")

    def python(self, place, name, *words):
        """Begins a program of this folder."""
        self.hosts[place].begin(Path(name).stem, [sys.executable, "-B", HERE / name, *words])

    def _begin_provider(self):
        self.python("provider", "upstream.py", PROVIDER, ROOM / "provider.pem", ROOM / "provider.key")

    def begin_site(self, name, ahead=None):
        words = [self.program, "serve", "--config", "/etc/dnsfleet/site.toml", "--key", os.urandom(32).hex()]
        words += ["--turns", "4294967295", "--report", "1"]
        self.hosts[name].begin("site", words, SITE_USER, env=self.env[name])

    def look(self, place, name, *words):
        """Begins to look for something at a place, as watch.py does. What is given waits until it is there, and gives the
        moment at which it was."""
        path = self.hosts[place].begin(name, [sys.executable, "-B", HERE / "watch.py", *words])

        def wait():
            self.hosts[place].programs.pop(name).wait()
            return float(path.read_text(encoding="ascii").split()[-1])

        return wait

    def known(self, host):
        """Begins to look for the known names at a site."""
        return self.look(host, "look", "known", "127.0.0.1", PORT)

    def new(self, host):
        """Begins to look for an answer to a new name at the front of a host."""
        return self.look("client", f"look-{host}", "new", ADDRESSES[host], 53)

    def forge(self, host, octets):
        """Sends a site a frame from root's place."""
        self.hosts[host].run([sys.executable, "-B", HERE / "watch.py", "forge", octets.hex(), PLACE, PORT])
