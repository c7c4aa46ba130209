#!/usr/bin/env python3
"""Measures `dnsfleet serve` beside a bare UDP echo, nsd, unbound and dnsmasq. See README.md."""

import argparse
import os
import random
import re
import shutil
import signal
import statistics
import subprocess
import sys
import tempfile
import time

HERE = os.path.dirname(os.path.abspath(__file__))
ZONE = "bench.example"
TTL = 86400
# Where the zone's server listens; the sites' upstream, and one of those measured.
PORTS = {"nsd": 5311, "echo": 5312, "dnsfleet": 5313, "unbound": 5314, "dnsmasq": 5315}
ORDER = ["echo", "dnsfleet", "nsd", "unbound", "dnsmasq"]
TICKS = os.sysconf("SC_CLK_TCK")


def name_of(number):
    return f"n{number:06d}.{ZONE}."


def address_of(number):
    # 198.18.0.0/15 is kept for measurements (RFC 2544).
    return f"198.{18 + number // 65536}.{number // 256 % 256}.{number % 256}"


def write(path, text):
    with open(path, "w") as file:
        file.write(text)
    return path


def write_names(folder, count, mixed=False):
    """The questions, for dnsperf and load. Mixed, each letter is a capital or not by chance, as resolvers send it (0x20)."""
    chance = random.Random(count)
    spell = (lambda text: "".join(map(chance.choice, zip(text, text.upper())))) if mixed else str
    path = os.path.join(folder, f"names-{count}{'-mixed' if mixed else ''}")
    return write(path, "".join(f"{spell(name_of(i))} A\n" for i in range(count)))


def write_zone(folder, count):
    lines = [
        f"$ORIGIN {ZONE}.",
        f"$TTL {TTL}",
        f"@ SOA ns hostmaster 1 3600 600 {TTL} 300",
        "@ NS ns",
        "ns A 198.19.255.255",
    ]
    lines += [f"{name_of(i)} A {address_of(i)}" for i in range(count)]
    write(os.path.join(folder, f"{ZONE}.zone"), "\n".join(lines) + "\n")


def nsd_words(folder, zone=ZONE, port=PORTS["nsd"]):
    conf = f"""server:
  ip-address: 127.0.0.1
  port: {port}
  server-count: 1
  username: ""
  chroot: ""
  zonesdir: "{folder}"
  pidfile: ""
  database: ""
  xfrdfile: "{folder}/xfrd"
  zonelistfile: "{folder}/zones"
  logfile: "{folder}/nsd.log"
  rrl-ratelimit: 0
  minimal-responses: yes
remote-control:
  control-enable: no
zone:
  name: "{zone}"
  zonefile: "{zone}.zone"
"""
    return ["nsd", "-d", "-c", write(os.path.join(folder, "nsd.conf"), conf)]


def unbound_words(folder):
    conf = f"""server:
  interface: 127.0.0.1
  port: {PORTS["unbound"]}
  num-threads: 1
  do-daemonize: no
  username: ""
  chroot: ""
  directory: "{folder}"
  pidfile: ""
  use-syslog: no
  logfile: "{folder}/unbound.log"
  access-control: 127.0.0.0/8 allow
  do-not-query-localhost: no
  module-config: "iterator"
  minimal-responses: yes
  msg-cache-size: 256m
  rrset-cache-size: 256m
remote-control:
  control-enable: no
forward-zone:
  name: "."
  forward-addr: 127.0.0.1@{PORTS["nsd"]}
"""
    return ["unbound", "-d", "-c", write(os.path.join(folder, "unbound.conf"), conf)]


def dnsmasq_words(folder):
    return [
        "dnsmasq", "--keep-in-foreground", "--conf-file=/dev/null", "--no-resolv", "--no-hosts", "--pid-file",
        "--user=" + (os.environ.get("USER") or "root"), "--group=", "--bind-interfaces",
        "--listen-address=127.0.0.1", f"--port={PORTS['dnsmasq']}", "--cache-size=150000",
        "--dns-forward-max=1000", f"--server=127.0.0.1#{PORTS['nsd']}", "--log-facility=" + folder + "/dnsmasq.log",
    ]


def site_words(program, folder):
    conf = f'listen = "127.0.0.1:{PORTS["dnsfleet"]}"\nupstreams = ["127.0.0.1:{PORTS["nsd"]}"]\nsweep = 0\n'
    path = write(os.path.join(folder, "site.toml"), conf)
    return [program, "serve", "--config", path, "--key", "00" * 32, "--turns", "4294967295"]


def children(pid):
    """The process and all below it."""
    found = [pid]
    for at in found:
        try:
            with open(f"/proc/{at}/task/{at}/children") as file:
                found += [int(word) for word in file.read().split()]
        except FileNotFoundError:
            pass
    return found


def cpu_seconds(pid):
    total = 0
    for at in children(pid):
        try:
            with open(f"/proc/{at}/stat") as file:
                fields = file.read().rsplit(")", 1)[1].split()
        except FileNotFoundError:
            continue
        total += int(fields[11]) + int(fields[12])
    return total / TICKS


def resident(pid):
    total = 0
    for at in children(pid):
        try:
            with open(f"/proc/{at}/status") as file:
                found = re.search(r"VmRSS:\s+(\d+)", file.read())
        except FileNotFoundError:
            continue
        total += int(found.group(1)) if found else 0
    return total


class Servers:
    def __init__(self, folder, cpu):
        self.folder = folder
        self.cpu = cpu
        self.running = {}

    def start(self, name, words):
        if self.cpu is not None:
            words = ["taskset", "-c", self.cpu] + words
        log = open(os.path.join(self.folder, name + ".out"), "wb")
        self.running[name] = subprocess.Popen(words, stdin=subprocess.DEVNULL, stdout=log, stderr=log, cwd=self.folder)
        time.sleep(0.3)

    def check(self, name):
        if self.running[name].poll() is not None:
            with open(os.path.join(self.folder, name + ".out")) as file:
                sys.exit(f"{name} has ended: {file.read()}")

    def stop_all(self):
        for process in self.running.values():
            if process.poll() is None:
                process.send_signal(signal.SIGTERM)
        for process in self.running.values():
            try:
                process.wait(5)
            except subprocess.TimeoutExpired:
                process.kill()


def field(text, label):
    found = re.search(re.escape(label) + r":\s+([0-9.]+)", text)
    return float(found.group(1)) if found else 0.0


def dnsperf(server, data, extra, cpus, bound):
    words = ["dnsperf", "-s", "127.0.0.1", "-p", str(PORTS[server]), "-d", data, "-c", "1", "-T", "1", "-t", "2"] + extra
    if cpus is not None:
        words = ["taskset", "-c", cpus] + words
    done = subprocess.run(words, stdout=subprocess.PIPE, stderr=subprocess.STDOUT, text=True, timeout=bound)
    text = done.stdout
    return {
        "sent": field(text, "Queries sent"),
        "completed": field(text, "Queries completed"),
        "lost": field(text, "Queries lost"),
        "rate": field(text, "Queries per second") / 1000,
        "latency": field(text, "Average Latency (s)"),
        "good": float(m.group(1)) if (m := re.search(r"NOERROR (\d+)", text)) else 0.0,
        "text": text,
    }


def fill(server, data, count, cpus):
    """Asks for each name, until all of a pass are answered at once."""
    began = time.monotonic()
    for _ in range(5):
        seen = dnsperf(server, data, ["-n", "1", "-q", "20"], cpus, 600)
        if seen["good"] == count and seen["lost"] == 0:
            return time.monotonic() - began
    sys.exit(f"{server} can't be filled:\n{seen['text']}")


def measure(server, pid, data, seconds, cpus):
    before = cpu_seconds(pid)
    seen = dnsperf(server, data, ["-l", str(seconds), "-q", "50"], cpus, seconds + 30)
    seen["cpu"] = (cpu_seconds(pid) - before) * 1e6 / max(1.0, seen["completed"])
    if seen["good"] != seen["completed"]:
        sys.exit(f"{server} answers otherwise:\n{seen['text']}")
    return seen


def press(server, pid, data, seconds, cpus, folder):
    """The same with a client that keeps 200 questions open and is faster than any server."""
    words = [os.path.join(folder, "load"), str(PORTS[server]), data, str(seconds), "200"]
    if cpus is not None:
        words = ["taskset", "-c", cpus] + words
    before = cpu_seconds(pid)
    text = subprocess.run(words, stdout=subprocess.PIPE, text=True, timeout=seconds + 30, check=True).stdout
    spent = cpu_seconds(pid) - before
    replies, good, lost, took = re.match(r"replies (\d+) good (\d+) lost (\d+) seconds ([\d.]+)", text).groups()
    if replies != good:
        sys.exit(f"{server} answers otherwise: {text}")
    return {
        "rate": int(replies) / float(took) / 1000,
        "lost": int(lost),
        "cpu": spent * 1e6 / max(1, int(replies)),
    }


def rounds(servers, names, data, options, one):
    seen = {name: [] for name in names}
    for _ in range(options.rounds):
        for name in names:
            servers.check(name)
            pid = servers.running[name].pid
            seen[name].append(one(name, pid, data, options.seconds, options.client_cpus))
    return seen


def table(title, names, seen, servers):
    echo_rates = [one["rate"] for one in seen["echo"]]
    echo_cpu = statistics.median(one["cpu"] for one in seen["echo"])
    print(f"\n{title}\n")
    print("| Server | k/s greatest | middle | CPU us least | middle | rate / echo greatest | middle | echo CPU / CPU | lost | RSS MiB |")
    print("|---|---|---|---|---|---|---|---|---|---|")
    for name in names:
        rates = [one["rate"] for one in seen[name]]
        cpus = [one["cpu"] for one in seen[name]]
        lost = sum(one["lost"] for one in seen[name])
        middle = statistics.median(rates)
        print(
            f"| {name} | {max(rates):.1f} | {middle:.1f} | {min(cpus):.2f} | {statistics.median(cpus):.2f} | "
            f"{max(rates) / max(echo_rates):.2f} | {middle / statistics.median(echo_rates):.2f} | "
            f"{echo_cpu / statistics.median(cpus):.2f} | {lost:.0f} | {resident(servers.running[name].pid) / 1024:.1f} |"
        )
    sys.stdout.flush()


def idle(servers, names, seconds):
    print(f"\nProcessor milliseconds of {seconds} idle seconds:")
    before = {name: cpu_seconds(servers.running[name].pid) for name in names}
    time.sleep(seconds)
    for name in names:
        print(f"  {name} {1000 * (cpu_seconds(servers.running[name].pid) - before[name]):.0f}")


def options_of():
    words = argparse.ArgumentParser(description=__doc__)
    words.add_argument("--program", help="the built dnsfleet; without it only the others are measured")
    words.add_argument("--names", default="1000,100000", help="how many names, as a list (1000,100000)")
    words.add_argument("--mixed-case", action="store_true", help="ask for names in mixed case as well")
    words.add_argument("--rounds", type=int, default=7, help="alternating rounds for each list of names (7)")
    words.add_argument("--seconds", type=int, default=2, help="seconds of one measure (2)")
    words.add_argument("--server-cpu", help="pin each server to these processors, as taskset -c")
    words.add_argument("--client-cpus", help="pin dnsperf to these processors")
    words.add_argument("--without", default="", help="servers to leave out, as a list")
    return words.parse_args()


def end_servers_when_ended():
    """A request to end raises an exit, so that what is running is ended too."""
    signal.signal(signal.SIGTERM, lambda number, _: sys.exit(128 + number))


def wanted(name, words):
    if shutil.which(words[0]) is None:
        print(f"{name} is not installed, and left out")
        return False
    return True


def start_all(servers, options):
    folder = servers.folder
    for name in ("echo", "load"):
        subprocess.run(["cc", "-O2", "-o", os.path.join(folder, name), os.path.join(HERE, name + ".c")], check=True)
    left_out = options.without.split(",")
    words = {
        "nsd": nsd_words(folder),
        "echo": [os.path.join(folder, "echo"), str(PORTS["echo"])],
        "unbound": unbound_words(folder),
        "dnsmasq": dnsmasq_words(folder),
    }
    if options.program:
        words["dnsfleet"] = site_words(os.path.abspath(options.program), folder)
    for name, line in words.items():
        if name not in left_out and wanted(name, line):
            servers.start(name, line)
    time.sleep(2)
    for name in servers.running:
        servers.check(name)
    return [name for name in ORDER if name in servers.running]


def main():
    end_servers_when_ended()
    options = options_of()
    counts = [int(word) for word in options.names.split(",")]
    folder = tempfile.mkdtemp(prefix="dnsfleet-bench-")
    servers = Servers(folder, options.server_cpu)
    try:
        write_zone(folder, max(counts))
        names = start_all(servers, options)
        for count in counts:
            data = write_names(folder, count)
            for name in names:
                took = fill(name, data, count, options.client_cpus)
                print(f"{name}: {count} names asked once, and answered, in {took:.1f} s")
            sys.stdout.flush()
            asked = {f"{count} names": data}
            if options.mixed_case:
                asked[f"{count} names in mixed case"] = write_names(folder, count, True)
            for what, data in asked.items():
                seen = rounds(servers, names, data, options, measure)
                table(f"{what}, dnsperf, {options.rounds} rounds of {options.seconds} s", names, seen, servers)
                seen = rounds(servers, names, data, options, lambda *words: press(*words, folder))
                table(f"{what}, load, {options.rounds} rounds of {options.seconds} s", names, seen, servers)
        idle(servers, names, 5)
    finally:
        servers.stop_all()
        shutil.rmtree(folder, ignore_errors=True)


if __name__ == "__main__":
    main()
