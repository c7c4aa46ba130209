#!/usr/bin/env python3
"""Memory by time, where names come at a rate and live for some seconds. See README.md."""

import argparse
import multiprocessing
import os
import random
import re
import select
import shutil
import subprocess
import sys
import tempfile
import time
from pathlib import Path

sys.dont_write_bytecode = True
sys.path.insert(0, str(Path(__file__).resolve().parent.parent / "serve"))

import run as serve

HOST = "127.0.0.1"
# None of the names that resolvers answer for by themselves, as those below test.
ZONE = "churn.example"
# Where the zone's server listens, and those that are measured.
PORTS = {"nsd": 15311, "dnsfleet": 15313, "peer": 15314, "unbound": 15315, "dnsmasq": 15316}
HOUR = 3600
# How many times a second questions are handed to the client, and how many of these times may be made up for at once.
TICKS = 1000
MADE_UP = 2
# The names that dnsmasq holds at most.
DNSMASQ_NAMES = 150_000


def write(folder, name, text):
    path = os.path.join(folder, name)
    with open(path, "w") as file:
        file.write(text)
    return path


def nsd_words(folder, ttls):
    """The zone's server: below each label tN every name has an address with a TTL of N seconds."""
    lines = [f"$ORIGIN {ZONE}.", f"@ {HOUR} SOA ns hostmaster 1 3600 600 86400 300", f"@ {HOUR} NS ns",
             f"ns {HOUR} A 198.18.0.1"]
    lines += [f"*.t{ttl} {ttl} A 198.18.0.2" for ttl in ttls]
    write(folder, f"{ZONE}.zone", "\n".join(lines) + "\n")
    return serve.nsd_words(folder, ZONE, PORTS["nsd"])


def unbound_words(folder):
    text = f"""server:
  interface: {HOST}
  port: {PORTS["unbound"]}
  num-threads: 1
  do-daemonize: no
  username: ""
  chroot: ""
  directory: "{folder}"
  pidfile: ""
  use-syslog: no
  logfile: "{folder}/unbound.log"
  access-control: 127.0.0.0/8 allow
  do-not-query-localhost: no
  module-config: "iterator"
  minimal-responses: yes
  msg-cache-size: 128m
  rrset-cache-size: 128m
  outgoing-range: 4096
  num-queries-per-thread: 2048
remote-control:
  control-enable: no
forward-zone:
  name: "."
  forward-addr: {HOST}@{PORTS["nsd"]}
"""
    return ["unbound", "-d", "-c", write(folder, "unbound.conf", text)]


def dnsmasq_words(folder):
    return ["dnsmasq", "--keep-in-foreground", "--conf-file=/dev/null", "--no-resolv", "--no-hosts", "--pid-file",
            "--user=" + (os.environ.get("USER") or "root"), "--group=", "--bind-interfaces",
            f"--listen-address={HOST}", f"--port={PORTS['dnsmasq']}", f"--cache-size={DNSMASQ_NAMES}",
            "--dns-forward-max=1000", f"--server={HOST}#{PORTS['nsd']}", "--log-facility=" + folder + "/dnsmasq.log"]


def site_words(program, folder, own, other):
    text = f'listen = "{HOST}:{PORTS[own]}"\nupstreams = ["{HOST}:{PORTS["nsd"]}"]\n'
    text += f'peers = ["{HOST}:{PORTS[other]}"]\n'
    return [program, "serve", "--config", write(folder, f"{own}.toml", text), "--key", os.urandom(32).hex(), "--turns",
            "4294967295"]


class Server:
    """A running server."""

    def __init__(self, words):
        self.process = subprocess.Popen(words, stdout=subprocess.DEVNULL)

    def memory(self):
        """Memory that is resident, in MiB."""
        with open(f"/proc/{self.process.pid}/status") as file:
            return int(re.search(r"VmRSS:\s+(\d+)", file.read()).group(1)) / 1024

    def end(self):
        self.process.terminate()
        self.process.wait()


def feed(pipe, rate, seconds, ttls, seed):
    """Writes so many questions a second for new names of one length, each below the label of one of the TTLs. What it
    or the reader was late for is left out, but for a few thousandths of a second's: else more than a site may have open
    would come in at once."""
    words, tick = random.Random(seed), 0
    began = time.monotonic()
    try:
        while tick < seconds * TICKS:
            numbers = range(rate * tick // TICKS, rate * (tick + 1) // TICKS)
            text = "".join(f"n{number:08d}.t{words.choice(ttls)}.{ZONE} A\n" for number in numbers)
            time.sleep(max(0, began + tick / TICKS - time.monotonic()))
            pipe.write(text.encode())
            pipe.flush()
            tick = max(tick + 1, int((time.monotonic() - began) * TICKS) - MADE_UP)
        pipe.close()
    except BrokenPipeError:
        pass


def ask(port, rate, seconds, ttls, sample, every):
    """Asks for so many new names a second, and calls `sample` with the seconds so far. Gives what dnsperf says."""
    words = ["dnsperf", "-s", HOST, "-p", str(port), "-c", "1", "-T", "1", "-q", "1000"]
    # A file, since dnsperf has a line for each question that is lost, and waits where nobody reads them.
    with tempfile.TemporaryFile() as told:
        client = subprocess.Popen(words, stdin=subprocess.PIPE, stdout=told, stderr=subprocess.STDOUT)
        names = multiprocessing.Process(target=feed, args=(client.stdin, rate, seconds, ttls, 1))
        names.start()
        client.stdin.close()
        try:
            began = time.monotonic()
            for second in range(every, seconds + 1, every):
                time.sleep(max(0, began + second - time.monotonic()))
                sample(second)
            names.join()
            client.wait()
        finally:
            client.kill()
        told.seek(0)
        return told.read().decode()


def hex_of(name):
    """The octets of a name in full, in hexadecimal digits."""
    return "".join(f"{len(label):02x}{label.encode().hex()}" for label in name.split(".")) + "00"


def lines_of(second, rate, first, ttls, words):
    """Lines of a script: site 0 learns so many new names in a second, and site 1 takes each in from a frame."""
    zones = {ttl: (hex_of(f"t{ttl}.{ZONE}"), f"{ttl:08x}") for ttl in ttls}
    for number in range(first, first + rate):
        zone, life = zones[words.choice(ttls)]
        name = f"096e{f'{number:08d}'.encode().hex()}{zone}"
        yield f"learn 0 {second} 000085000001000100000000{name}00010001c00c00010001{life}0004c6120002\n"
        yield f"frame 1 {second} 44470200010303{second:016x}{life}{name}000100010004c6120002\n"


class Script:
    """A script of two sites that runs. Its moments are those that it is handed, whatever the machine can do."""

    def __init__(self, program):
        self.process = subprocess.Popen([program, "script"], stdin=subprocess.PIPE, stdout=subprocess.PIPE)
        os.set_blocking(self.process.stdout.fileno(), False)
        self.told = b""
        self.write(["sites 2\n"])

    def read(self):
        """What was printed since; only the end of it is kept."""
        printed = self.process.stdout.read() or b""
        self.told = (self.told + printed)[-100:]
        return printed.count(b"\n")

    def write(self, lines):
        """Writes lines, and reads what they print, until each line but `sites` has printed one."""
        wanted = sum(not line.startswith("sites") for line in lines)
        for at in range(0, len(lines), 200):
            self.process.stdin.write("".join(lines[at : at + 200]).encode())
            self.process.stdin.flush()
            wanted -= self.read()
        while wanted > 0:
            select.select([self.process.stdout], [], [], 1)
            printed = self.read()
            wanted -= printed
            if printed == 0 and self.process.poll() is not None:
                sys.exit(f"the script has ended with {self.process.returncode}")

    def memory(self):
        return Server.memory(self)

    def end(self):
        self.process.stdin.close()
        while self.process.poll() is None:
            self.read()


def hand_in(program, rate, seconds, ttls, every):
    """Rows of the seconds, and the memory of a script whose two sites take in so many new names a second, exactly."""
    script, words, rows = Script(program), random.Random(1), []
    for second in range(1, seconds + 1):
        script.write(["tick 0 {0}\n".format(second), "tick 1 {0}\n".format(second)])
        script.write(list(lines_of(second, rate, second * rate, ttls, words)))
        if second % every == 0 or second in (1, 2, 3, 5):
            rows.append((second, script.memory()))
    script.end()
    return rows


def report_script(options, live, ttls):
    """Prints what a script of two sites holds by the seconds that it is handed."""
    held = hand_in(options.program, live, 1, [HOUR], 1)[-1][1]
    print(f"\na script of two sites: {held:.0f} MiB with {live} names that live for an hour at each\n")
    print("| Seconds | both sites MiB |\n|---|---|")
    for second, memory in hand_in(options.program, options.rate, options.seconds, ttls, options.every):
        print(f"| {second} | {memory:.0f} |", flush=True)


def said(text):
    """The questions, those that were lost, those with another code than 0, how many were answered a second, the slowest
    answer in milliseconds, and the mean one in microseconds. What was lost counts as no answer."""
    def number(pattern):
        found = re.search(pattern, text)
        return float(found.group(1)) if found else float("nan")

    return (number(r"Queries sent:\s+(\d+)"), number(r"Queries lost:\s+(\d+)"),
            number(r"Queries completed:\s+(\d+)") - number(r"Response codes:\s+NOERROR (\d+)"),
            number(r"Queries per second:\s+([\d.]+)"), 1000 * number(r"Average Latency.*max ([\d.]+)"),
            1e6 * number(r"Average Latency \(s\):\s+([\d.]+)"))


def start(name, options, folder):
    if name == "dnsfleet":
        return {"dnsfleet": Server(site_words(options.program, folder, "dnsfleet", "peer")),
                "peer": Server(site_words(options.program, folder, "peer", "dnsfleet"))}
    return {name: Server({"unbound": unbound_words, "dnsmasq": dnsmasq_words}[name](folder))}


def measure(name, options, folder, rate, seconds, ttls, every):
    """Rows of the seconds and the memory of each server that runs, the memory behind the last answer, and what dnsperf
    says."""
    servers = start(name, options, folder)
    rows = []
    try:
        time.sleep(1)
        text = ask(PORTS[name], rate, seconds, ttls, lambda second: rows.append(
            (second, *[server.memory() for server in servers.values()])), every)
        last = [server.memory() for server in servers.values()]
    finally:
        for server in servers.values():
            server.end()
    return list(servers), rows, last, said(text)


def main():
    parser = argparse.ArgumentParser(description=__doc__)
    parser.add_argument("--program", default="crates/dnsfleet/out/dnsfleet")
    parser.add_argument("--rate", type=int, default=40_000, help="new names a second")
    parser.add_argument("--seconds", type=int, default=60)
    parser.add_argument("--ttl", default="3", help="of the names, in seconds: one, or the least and the greatest as 1-60")
    parser.add_argument("--every", type=int, default=10, help="seconds between two rows")
    parser.add_argument("--servers", default="dnsfleet,unbound,dnsmasq")
    parser.add_argument("--script", action="store_true", help="hand all names in by a script, at its own moments, in "
                        "place of asking for them: needs no other tool")
    options = parser.parse_args()
    least, _, most = options.ttl.partition("-")
    ttls = list(range(int(least), int(most or least) + 1))
    live = round(options.rate * sum(ttls) / len(ttls))
    options.program = os.path.abspath(options.program)
    if options.script:
        print(f"{options.rate} new names a second, TTL {options.ttl} s: {live} live at a time")
        report_script(options, live, ttls)
        return
    names = [name for name in options.servers.split(",") if name == "dnsfleet" or shutil.which(name)]
    for tool in ("nsd", "dnsperf"):
        if not shutil.which(tool):
            sys.exit(f"{tool} is not installed")
    print(f"{options.rate} new names a second, TTL {options.ttl} s: {live} live at a time")
    with tempfile.TemporaryDirectory() as folder:
        os.chmod(folder, 0o755)
        upstream = Server(nsd_words(folder, sorted({*ttls, HOUR})))
        try:
            time.sleep(1)
            for name in names:
                report(name, options, folder, live, ttls)
        finally:
            upstream.end()


def report(name, options, folder, live, ttls):
    """Prints what a server holds by time, behind what it takes to hold as many names as live for an hour."""
    if name == "dnsmasq" and live > DNSMASQ_NAMES:
        print(f"\ndnsmasq: it holds {DNSMASQ_NAMES} names at most, and {live} live")
        return
    fill = max(1, round(live / options.rate))
    servers, _, last, told = measure(name, options, folder, round(live / fill), fill, [HOUR], fill)
    sent, lost, other, *_ = told
    held = ", ".join(f"{server} {memory:.0f} MiB" for server, memory in zip(servers, last))
    print(f"\n{held} with {sent - lost - other:.0f} names that live for an hour, of {live} that were asked for\n")
    servers, rows, _, told = measure(name, options, folder, options.rate, options.seconds, ttls, options.every)
    sent, lost, other, rate, slowest, mean = told
    print("| Seconds | " + " | ".join(f"{server} MiB" for server in servers) + " |")
    print("|---" * (len(servers) + 1) + "|")
    for row in rows:
        print(f"| {row[0]} | " + " | ".join(f"{memory:.0f}" for memory in row[1:]) + " |")
    print(f"\n{sent:.0f} questions, {rate:.0f} answers a second, {lost:.0f} lost, {other:.0f} with another code than 0;"
          f" of those that came the slowest answer {slowest:.0f} ms, the mean one {mean:.0f} us", flush=True)


if __name__ == "__main__":
    main()
