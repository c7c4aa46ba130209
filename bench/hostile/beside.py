"""What the trials of days.py run: a site that reports, clients that ask, an upstream that answers, and flooders."""

import array
import importlib.util
import multiprocessing
import os
import select
import socket
import struct
import subprocess
import sys
import time
from pathlib import Path
from types import SimpleNamespace

sys.dont_write_bytecode = True
HERE = Path(__file__).resolve().parent


def job(name):
    """The module of another job. They are all called `run`."""
    found = importlib.util.spec_from_file_location(name, HERE.parent / name / "run.py")
    module = importlib.util.module_from_spec(found)
    found.loader.exec_module(module)
    return module


churn, catchup = job("churn"), job("catchup")
HOST = catchup.HOST
# SO_TIMESTAMPNS of socket(7), which Python's module does not name.
SO_TIMESTAMPNS = 35
# The seconds between two reports of a site, and those behind its last question in which a paced client takes answers.
REPORT, LATE = 1, 1
# How many seconds' questions a paced client makes up for at once where it was late.
MADE_UP = 0.005
# How many datagrams a flooder sends between two looks at the clock.
AT_ONCE = 500
# The address of all names, here and in the zone of bench/churn.
ADDRESS = 0xC6120002


def row(*cells):
    print("| " + " | ".join(map(str, cells)) + " |", flush=True)


def head(*cells):
    row(*cells)
    print("|" + "---|" * len(cells))


class Bound:
    """How many seconds of a piece are left."""

    def __init__(self, seconds):
        self.end = time.monotonic() + seconds

    def left(self):
        return max(0, self.end - time.monotonic())


def build(folder, source, *words):
    """The path of a C program, made from its source in bench."""
    made = os.path.join(folder, Path(source).stem)
    subprocess.run(["cc", "-O2", "-Wall", *words, "-o", made, str(HERE.parent / source)], check=True)
    return made


def question(name, recursion=True):
    """A question for the address of a name that is written with dots."""
    return catchup.question(0, bytes.fromhex(churn.hex_of(name)), recursion)


def numbered(octets, number):
    """A question with a number as its identifier."""
    return (number & 0xFFFF).to_bytes(2, "big") + octets[2:]


def is_right(reply, asked):
    """Whether a reply is there, and answers a question with the one address."""
    return (reply is not None and reply[2] >= 128 and catchup.is_answered(reply)
            and reply[12 : len(asked)].lower() == asked[12:] and reply[-4:] == struct.pack("!I", ADDRESS))


def word_of(reply, asked):
    """What became of a question: `answer`, its code such as `code 2`, or `none`."""
    if reply is None:
        return "none"
    return "answer" if is_right(reply, asked) else f"code {reply[3] & 15}"


def memory_of(server):
    """Memory that is resident, in MiB."""
    return churn.Server.memory(server)


def dropped_by_system(server):
    """How many datagrams the system dropped at the socket of a server."""
    return catchup.Site.dropped(server)


class Drops:
    """How many datagrams the system dropped at the socket of a server in each phase of a trial."""

    def __init__(self, server):
        self.server, self.phases, self.so_far = server, [], dropped_by_system(server)

    def end_phase(self):
        before, self.so_far = self.so_far, dropped_by_system(self.server)
        self.phases.append(self.so_far - before)


class Site(catchup.Site):
    """A running site that prints a report each second."""

    def __init__(self, options, folder, port, upstreams, peers=(), sweep=0, **more):
        def listed(ports):
            return "[" + ", ".join(f'"{HOST}:{it}"' for it in ports) + "]"

        text = f'listen = "{HOST}:{port}"\nupstreams = {listed(upstreams)}\npeers = {listed(peers)}\nsweep = {sweep}\n'
        words = [options.program, "serve", "--config", churn.write(folder, f"{port}.toml", text), "--key",
                 os.urandom(32).hex(), "--turns", "4294967295", "--report", str(REPORT)]
        self.port, self.printed = port, Path(folder) / f"{port}.out"
        with open(self.printed, "wb") as out:
            self.process = subprocess.Popen(words, stdin=subprocess.DEVNULL, stdout=out, stderr=out, **more)
        while b"\n" not in self.printed.read_bytes() and self.process.poll() is None:
            time.sleep(0.02)
        if not self.printed.read_bytes().startswith(b"listening"):
            self.end()
            sys.exit(f"no site listens at {port}: {self.printed.read_text()}")

    def counts(self):
        """The counts of a report of all that came before this call, if nothing comes meanwhile."""
        time.sleep(REPORT + 0.5)
        if self.process.poll() is not None:
            sys.exit(f"the site has ended with {self.process.returncode}: {self.printed.read_text()[-1000:]}")
        words = self.printed.read_text().splitlines()[-1].split()
        return dict(zip(words[::2], map(int, words[1::2])))


def ask_all(port, questions, most=50, wait=4):
    """The reply to each question, or None, and the seconds that it took. So many are open at a time."""
    asker = catchup.bound(0)
    asker.connect((HOST, port))
    found, since, at = [(None, wait)] * len(questions), {}, 0
    while at < len(questions) or since:
        while at < len(questions) and len(since) < most and at & 0xFFFF not in since:
            since[at & 0xFFFF] = at, time.monotonic()
            asker.send(numbered(questions[at], at))
            at += 1
        ready, _, _ = select.select([asker], [], [], 0.05)
        now = time.monotonic()
        if ready:
            reply = asker.recv(600)
            place, began = since.pop(int.from_bytes(reply[:2], "big"), (None, now))
            if place is not None:
                found[place] = reply, now - began
        while since and now - next(iter(since.values()))[1] > wait:
            since.pop(next(iter(since)))
    asker.close()
    return found


def take_one(asker, since, seen):
    """Takes a reply, and notes when it came by the system's clock if it is right."""
    reply, parts, _, _ = asker.recvmsg(600, 64)
    seconds, rest = struct.unpack("@ll", parts[0][2][:16])
    sent, asked = since.pop(int.from_bytes(reply[:2], "big"), (None, None))
    if sent is None:
        return
    if is_right(reply, asked):
        seen.waits.append((seconds * 1_000_000_000 + rest - sent) / 1e6)
    else:
        seen.other += 1


def ask_paced(port, questions, rate, ended, told):
    """Asks so many questions a second, whether they are answered or not, until that has ended."""
    asker = catchup.bound(0)
    asker.setsockopt(socket.SOL_SOCKET, SO_TIMESTAMPNS, 1)
    asker.connect((HOST, port))
    seen = SimpleNamespace(asked=0, other=0, seconds=0, waits=array.array("d"))
    since, due, end = {}, time.monotonic(), None
    began = due
    while end is None or (since and time.monotonic() < end):
        now = time.monotonic()
        if end is None and now >= due:
            octets = questions[seen.asked % len(questions)]
            since[seen.asked & 0xFFFF] = time.time_ns(), octets
            asker.send(numbered(octets, seen.asked))
            seen.asked, seen.seconds, due = seen.asked + 1, now - began, max(due, now - MADE_UP) + 1 / rate
            end = now + LATE if ended.is_set() else None
        ready, _, _ = select.select([asker], [], [], max(0, due - now) if end is None else 0.05)
        if ready:
            take_one(asker, since, seen)
    told.put(seen)


class Client:
    """A client in a process of its own that asks so many questions a second. The time of an answer is from just before
    the question is sent to the moment at which the system had the reply, so what the client is late for does not count."""

    def __init__(self, port, questions, rate):
        self.ended, self.told = multiprocessing.Event(), multiprocessing.Queue()
        words = (port, questions, rate, self.ended, self.told)
        self.process = multiprocessing.Process(target=ask_paced, args=words, daemon=True)
        self.process.start()

    def end(self):
        """What it asked, in which time, how many other replies came than right ones, and the milliseconds of the right
        ones: sorted, the slowest, and within which 99.9 % of them came."""
        self.ended.set()
        seen = self.told.get(timeout=60)
        self.process.join()
        seen.waits = sorted(seen.waits, reverse=True)
        count = len(seen.waits)
        seen.slowest, seen.most = (seen.waits[0], seen.waits[count // 1000]) if count else (float("nan"),) * 2
        return seen


def answer_queries(upstream):
    """Answers each query for a name such as l00300n0001.test with an address that lives for 300 seconds, and no query for
    a name that begins otherwise."""
    while True:
        query, asker = upstream.recvfrom(2000)
        if query[13:14].lower() == b"l":
            reply = catchup.reply_to(query, ADDRESS)
            upstream.sendto(reply[:-10] + struct.pack("!I", int(query[14:19])) + reply[-6:], asker)


class Upstream:
    """An upstream in a process of its own."""

    def __init__(self, port):
        upstream = catchup.bound(port)
        upstream.settimeout(None)
        self.process = multiprocessing.Process(target=answer_queries, args=(upstream,), daemon=True)
        self.process.start()
        upstream.close()

    def end(self):
        self.process.terminate()
        self.process.join()


def flood(port, source, made, seconds, told):
    """Sends what is made of each number to a port, from an address of its own, and tells how many a second."""
    flooder = socket.socket(socket.AF_INET, socket.SOCK_DGRAM)
    flooder.bind((f"127.0.0.{2 + source}", 0))
    flooder.connect((HOST, port))
    sent, began = 0, time.monotonic()
    while time.monotonic() < began + seconds:
        for number in range(sent, sent + AT_ONCE):
            try:
                flooder.send(made(number))
            except OSError:
                pass
        sent += AT_ONCE
    told.put(sent / (time.monotonic() - began))


class Flooders:
    """Flooders in processes of their own, one for each maker of datagrams."""

    def __init__(self, port, makers, seconds):
        self.told = multiprocessing.Queue()
        self.processes = [multiprocessing.Process(target=flood, args=(port, source, made, seconds, self.told), daemon=True)
                          for source, made in enumerate(makers)]
        for process in self.processes:
            process.start()

    def end(self):
        """How many datagrams they sent a second, together."""
        sent = sum(self.told.get(timeout=60) for _ in self.processes)
        for process in self.processes:
            process.join()
        return sent
