"""Hosts on a wire. Each has a network and files of its own, and one process enters any of them."""

import contextlib
import ctypes
import os
import subprocess
import time
from pathlib import Path

_NETWORK = 0x40000000  # CLONE_NEWNET
_libc = ctypes.CDLL(None, use_errno=True)
_own = os.open("/proc/self/ns/net", os.O_RDONLY)

# What is waited for may take so many seconds.
PATIENCE = 40


def _enter(network):
    """Goes to another network. Sockets and programs that are begun there stay there."""
    if _libc.setns(network, _NETWORK):
        raise OSError(ctypes.get_errno(), "setns")


def wait_for(wanted, look, seconds=PATIENCE):
    """Looks until what is wanted is there, for so many seconds at most. Gives what was seen last."""
    end = time.monotonic() + seconds
    while (seen := look()) != wanted and time.monotonic() < end:
        time.sleep(0.2)
    return seen


class Host:
    """A network with an interface eth0, and files of its own in a few folders."""

    def __init__(self, name, log):
        self.name, self._log, self.programs = name, log, {}
        self.holder = subprocess.Popen(["unshare", "-mn", "sleep", "infinity"]).pid
        mine = os.readlink("/proc/self/ns/net")
        if wait_for(True, lambda: os.readlink(f"/proc/{self.holder}/ns/net") != mine) is not True:
            raise OSError(f"no network for host {name}")
        self.network = os.open(f"/proc/{self.holder}/ns/net", os.O_RDONLY)
        self.run("ip link set lo up")

    @contextlib.contextmanager
    def inside(self):
        """Here, sockets and processes belong to this host's network."""
        _enter(self.network)
        try:
            yield
        finally:
            _enter(_own)

    def _words(self, words, user=None):
        """A command on this host. A user of it has a right below root's: to bind any port."""
        given = words.split() if isinstance(words, str) else list(map(str, words))
        right = ["--inh-caps=-all,+net_bind_service", "--ambient-caps=+net_bind_service"]
        as_user = ["setpriv", f"--reuid={user}", f"--regid={user}", "--clear-groups", *right] if user else []
        return ["nsenter", "-t", str(self.holder), "-m", "-n", "--", *as_user, *given]

    def run(self, words, given="", fails=False):
        """Runs a command on this host, and gives what it prints. It may fail only where that is said."""
        ran = subprocess.run(self._words(words), input=given, capture_output=True, text=True, timeout=60, check=False)
        if ran.returncode and not fails:
            raise OSError(f"host {self.name}: {words}: {ran.stderr}")
        return ran.stdout

    def fails(self, words):
        """Whether a command fails on this host."""
        return subprocess.run(self._words(words), capture_output=True, timeout=60, check=False).returncode != 0

    def begin(self, name, words, user=None, **more):
        """Begins a program on this host. What it prints goes to a file of its name, which is given."""
        path = Path(self._log) / f"{self.name}.{name}"
        with open(path, "ab") as log:
            self.programs[name] = subprocess.Popen(self._words(words, user), stdout=log, stderr=log, **more)
        return path

    def end(self, name):
        """Ends a program of this host."""
        child = self.programs.pop(name)
        child.kill()
        child.wait()

    def as_user(self, user, does):
        """What a function gives, a short text, where a user without rights calls it on this host."""
        reader, writer = os.pipe()
        child = os.fork()
        if child == 0:
            try:
                _enter(self.network)
                os.setgroups([])
                os.setresgid(user, user, user)
                os.setresuid(user, user, user)
                os.write(writer, does().encode())
            finally:
                os._exit(0)
        os.close(writer)
        os.waitpid(child, 0)
        with os.fdopen(reader) as said:
            return said.read()

    def mac(self, interface="eth0"):
        """The address of an interface on its wire."""
        return bytes.fromhex(self.run(f"ip -o link show {interface}").split("ether ")[1].split()[0].replace(":", ""))


def here(words):
    """Runs a command where the wire is, outside of all hosts."""
    subprocess.run(words.split(), check=True, timeout=60, stdout=subprocess.DEVNULL)


class Wire:
    """A bridge, with hosts on it."""

    def __init__(self, log):
        self._log, self.hosts, self.cables = log, {}, {}
        here("ip link set lo up")
        here("ip link add wire type bridge")
        here("ip link set wire up")

    def host(self, name, *addresses):
        """A host at an address of the wire, or at none."""
        made = self.hosts[name] = Host(name, self._log)
        self.cables[name] = f"to-{name}"
        here(f"ip link add to-{name} type veth peer name eth0 netns {made.holder}")
        here(f"ip link set to-{name} master wire up")
        for address in addresses:
            made.run(f"ip address add {address} dev eth0")
        made.run("ip link set eth0 up")
        return made

    def cut(self, name):
        """Takes a host's cable out."""
        here(f"ip link set {self.cables[name]} down")

    def heal(self, name):
        """Puts a host's cable in again."""
        here(f"ip link set {self.cables[name]} up")
