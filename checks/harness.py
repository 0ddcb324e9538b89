"""What the scripts beside it share that run the built program: checks that are counted, ports, programs, clients, and what listens."""
import json
import os
import random
import re
import signal
import socket
import struct
import subprocess
import sys
import tempfile
import threading
import time
import traceback

ROOT = os.path.dirname(os.path.dirname(os.path.realpath(__file__)))
HERE = "127.0.0.1"
WAIT = 30       # seconds that a start, an end or an answer may take
PAUSE = 0.01    # seconds between two looks at what is waited for
TRIES = 5       # how often ports are picked anew, where another program took one in the meantime
TOTALS = 13     # lines that a server without outlets writes at its end

# A line of the log: its level, its event, and what is told of it by names. A value is in quotes where it has spaces, and escaped.
LOG_LINE = re.compile(r"(info|warn|error) ([a-z_]+)((?: [a-z_]+=(?:\"(?:[^\"\\]|\\.)*\"|(?:[^\s\"\\]|\\.)*))*)")
LOG_PAIR = re.compile(r" ([a-z_]+)=(?:\"((?:[^\"\\]|\\.)*)\"|(\S*))")
ESCAPES = {"n": "\n", "r": "\r", "t": "\t"}

program = ""    # the built program, which `run` sets
tally = {"passed": 0, "failed": 0, "left out": 0}
started = []
picked = set()


# --- checks ---

def holds(name, fact, told=""):
    tally["passed" if fact else "failed"] += 1
    if not fact:
        print(f"{name}: {told}"[:2000], flush=True)


def same(name, wanted, got):
    """Two texts or numbers that are to be one."""
    holds(name, wanted == got, f"wanted\n{str(wanted)[:900]}\n{name}: got\n{str(got)[:900]}")


def lies(name, least, number, most):
    holds(name, least <= number <= most, f"{number} is not from {least} to {most}")


def left_out(count, what, name):
    """For want of something so many checks can't be run."""
    tally["left out"] += count
    print(f"left out, for want of {what}: {name}", flush=True)


def within(seconds, fact):
    """Waits until something holds, and says whether it did in that time."""
    end = time.monotonic() + seconds
    while not fact():
        if time.monotonic() > end:
            return False
        time.sleep(PAUSE)
    return True


def tried(part, *words):
    """Runs a part; a fault in it is a check that failed, and the others go on."""
    try:
        part(*words)
    except Exception:
        holds(part.__name__, False, traceback.format_exc()[-1500:])


def handle(handler):
    """Handles the signals that end what runs here. One that has a handler here is none that a program started from here has to ignore."""
    for it in (signal.SIGTERM, signal.SIGINT, signal.SIGHUP, signal.SIGQUIT):
        signal.signal(it, handler)


def run(built, parts, count):
    """Runs the parts on the built program, in a folder that goes, and ends all that they started. The last line says how many checks
    passed and failed, and the status is 1 where one failed, or where there aren't as many as there have to be. A count of None is of a
    script whose words say how many there are."""
    global program
    program = os.path.realpath(built or os.path.join(ROOT, "crates/statsd/out/statsd"))
    if not os.access(program, os.X_OK):
        sys.exit(f"{os.path.basename(sys.argv[0])}: {program} isn't built")
    for it in ("STATSD_STOP", "STATSD_LOG", "LISTEN_PID", "LISTEN_FDS"):
        os.environ.pop(it, None)
    os.environ["STATSD_PROGRAM"] = program
    handle(lambda *_: sys.exit(130))
    with tempfile.TemporaryDirectory() as room:
        os.chdir(room)
        try:
            parts()
        finally:
            handle(signal.SIG_IGN)
            for it in started:
                it.kill()
            os.chdir(ROOT)
    ran = tally["passed"] + tally["failed"]
    if count is not None and ran + tally["left out"] != count:
        holds("checks", False, f"of {count} checks {ran} ran, and {tally['left out']} were left out by name")
    print(f"{tally['passed']} passed, {tally['failed']} failed")
    return 1 if tally["failed"] else 0


# --- files ---

def read(name):
    try:
        with open(name, encoding="utf-8", errors="replace") as file:
            return file.read()
    except FileNotFoundError:
        return ""


def read_end(name, size=4096):
    """So many bytes of a file's end, which may be long."""
    try:
        with open(name, "rb") as file:
            file.seek(max(0, os.path.getsize(name) - size))
            return file.read().decode(errors="replace")
    except FileNotFoundError:
        return ""


def write(name, text=""):
    with open(name, "w", encoding="utf-8") as file:
        file.write(text)


def toml(value):
    """A value as settings have it."""
    if isinstance(value, dict):
        return "{ " + ", ".join(f"{key} = {toml(it)}" for key, it in value.items()) + " }"
    if isinstance(value, (list, tuple)):
        return "[" + ", ".join(map(toml, value)) + "]"
    return json.dumps(value)


def is_of_log(line):
    """Whether a line of standard error is one of the log's, well made or not."""
    return line.partition(" ")[0] in ("info", "warn", "error")


def without_log(text):
    """What was written to standard error besides the log."""
    return "\n".join(it for it in text.split("\n") if not is_of_log(it))


def unescaped(value):
    """A value of the log as it was before it was escaped, each byte a character."""
    return re.sub(r"\\(x[0-9a-f]{2}|.)", lambda it: chr(int(it[1][1:], 16)) if len(it[1]) > 1 else ESCAPES.get(it[1], it[1]), value)


def log_line(line):
    """A line of the log as (level, event, what is told by names); none where it isn't made like one."""
    found = LOG_LINE.fullmatch(line)
    if not found or not (line.isascii() and line.isprintable()):
        return None
    pairs = LOG_PAIR.findall(found[3])
    return found[1], found[2], {name: unescaped(quoted or plain) for name, quoted, plain in pairs}


def write_settings(name, settings):
    write(f"{name}.toml", "".join(f"{key} = {toml(value)}\n" for key, value in settings.items()))


# --- ports ---

def free_port():
    """A port that nobody has, for datagrams and for connections, and that wasn't given here before."""
    for _ in range(1000):
        port = random.randrange(20000, 32000)
        if port in picked:
            continue
        try:
            with socket.socket() as tcp, socket.socket(socket.AF_INET, socket.SOCK_DGRAM) as udp:
                tcp.bind((HERE, port))
                udp.bind((HERE, port))
            picked.add(port)
            return port
        except OSError:
            continue
    sys.exit("no free port was found")


def opens(port):
    """Whether a connection to a port can be made."""
    try:
        socket.create_connection((HERE, port), WAIT).close()
        return True
    except OSError:
        return False


def table(kind):
    """The lines of the kernel's table of sockets, `udp` or `tcp`, in words."""
    with open(f"/proc/net/{kind}", encoding="ascii") as lines:
        return [line.split() for line in list(lines)[1:]]


def sockets(port):
    """The sockets that take datagrams at a port: how many bytes wait in each to be read, and how many datagrams were dropped there."""
    return [(int(it[4].split(":")[1], 16), int(it[12])) for it in table("udp") if int(it[1].split(":")[1], 16) == port]


def is_read(*ports):
    return not any(waiting for port in ports for waiting, _ in sockets(port))


def are_read(*ports):
    """Waits until no datagram to these ports waits to be read."""
    return within(WAIT, lambda: is_read(*ports))


def dropped(port):
    """How many datagrams the kernel has dropped at a port, or -1 where nothing takes any."""
    found = sockets(port)
    return sum(it for _, it in found) if found else -1


# --- programs ---

class Program:
    """What a command started, in a group of its own, with its output in NAME.out and NAME.err. The file NAME.stop is its stop file,
    unless the environment has another one; None takes a variable away."""

    def __init__(self, name, command, environment=None, **more):
        self.name, self.stop_file, self.status = name, f"{name}.stop", None
        self.port = self.admin = self.lines = 0
        if os.path.exists(self.stop_file):
            os.remove(self.stop_file)
        variables = {**os.environ, "STATSD_STOP": self.stop_file, **(environment or {})}
        variables = {key: value for key, value in variables.items() if value is not None}
        with open(f"{name}.out", "wb") as out, open(f"{name}.err", "wb") as err:
            more = {"stdin": subprocess.DEVNULL, "stdout": out, "stderr": err, "start_new_session": True, **more}
            self.process = subprocess.Popen(command, env=variables, **more)
        started.append(self)

    def has_ended(self):
        if self.status is None and os.waitid(os.P_PID, self.process.pid, os.WEXITED | os.WNOHANG | os.WNOWAIT):
            # what it has left behind in its group ends too, as long as the group's number is its own
            self.signal_group(signal.SIGKILL)
            self.status = self.process.wait()
        return self.status is not None

    def ends(self):
        """How it ends by itself."""
        if not within(WAIT, self.has_ended):
            self.kill()
            self.status = f"none in {WAIT} seconds"
        return self.status

    def stop(self):
        """Ends it by its stop file."""
        write(self.stop_file)
        return self.ends()

    def kill(self):
        if not self.has_ended():
            self.signal_group(signal.SIGKILL)
            self.status = self.process.wait()

    def signal(self, number):
        if not self.has_ended():
            os.kill(self.process.pid, number)

    def signal_group(self, number):
        try:
            os.killpg(self.process.pid, number)
        except (ProcessLookupError, PermissionError):
            pass

    def out(self):
        return read(f"{self.name}.out")

    def err(self):
        """What it wrote to standard error, without the log."""
        return without_log(read(f"{self.name}.err"))

    def log(self, event=None):
        """The whole lines of its log, or those of an event, as (level, event, what is told by names); one that isn't made like a line
        of a log has the event `malformed`."""
        lines = [it for it in read(f"{self.name}.err").split("\n")[:-1] if is_of_log(it)]
        lines = [log_line(it) or ("", "malformed", {"line": it}) for it in lines]
        return [it for it in lines if event in (None, it[1])]

    def said(self):
        """What it wrote to standard error besides its log, and how it ended."""
        return f"{self.err().strip()}, exit {self.status}"

    def totals(self, count=TOTALS):
        """Its last lines, what it wrote to standard error besides its log, and how it ended, on one line."""
        return f"{' '.join(self.out().splitlines()[-count:])} {self.err()}exit {self.status}"

    def numbers(self):
        """The numbers of its last lines, by their names."""
        lines = [it.split() for it in read_end(f"{self.name}.out").splitlines()[-TOTALS - 2:]]
        return {it[0]: int(it[1]) for it in lines if len(it) == 2 and it[1].isdigit()}

    def total(self, what):
        """A number of its last lines, or -1 where they don't have it."""
        return self.numbers().get(what, -1)


def begin(name, form="serve", command=None, environment=None, **more):
    """A server, or a proxy, by the settings in NAME.toml; the command is the program itself where none is named."""
    return Program(name, [*(command or [program]), form, f"{name}.toml"], environment, **more)


def settle(name, streams=False, **settings):
    """Writes a server's settings to NAME.toml, on ports that nobody has, and gives them."""
    lines = {"tcp_port": free_port()} if streams else {}
    settings = {"port": free_port(), "mgmt_port": free_port(), "address": HERE, "mgmt_address": HERE, **lines, **settings}
    write_settings(name, settings)
    return settings


def serve(name, command=None, environment=None, streams=False, **settings):
    """A server that listens by these settings, with a port for lines where `streams` says so. Another program may take a port in the
    meantime; then it is tried again with others."""
    for _ in range(TRIES):
        it = settle(name, streams, **settings)
        server = begin(name, "serve", command, environment)
        server.port, server.admin, server.lines = it["port"], it["mgmt_port"], it.get("tcp_port", 0)
        within(WAIT, lambda: server.has_ended() or all(opens(port) for port in (server.admin, server.lines) if port))
        if not server.has_ended() or not re.search("open fault (packets 0|door|streams)", server.err()):
            break
    return server


def relay(name, nodes, command=None, environment=None, receivers=2, **settings):
    """A proxy before these nodes, whose receivers are all there, at a port that nobody had, and whose other ports are open, where it has some."""
    for _ in range(TRIES):
        port = free_port()
        write_settings(name, {"port": port, "address": HERE, "receivers": receivers, **settings, "nodes": nodes})
        proxy = begin(name, "proxy", command, environment)
        proxy.port, proxy.admin, proxy.lines = port, settings.get("proxy_mgmt_port"), settings.get("tcp_port")
        doors = [it for it in (proxy.lines, proxy.admin) if it]
        within(WAIT, lambda: proxy.has_ended() or len(sockets(port)) == receivers and all(opens(it) for it in doors))
        if not proxy.has_ended() or "open fault packets 0" not in proxy.err():
            break
    return proxy


def named(names, server=""):
    """The words that run a program with a table of names of its own, in the file `names`, and a name server; none where this
    machine can't."""
    write(names)
    write(f"{names}.resolv", f"nameserver {server}\n" if server else "")
    hold = f"mount --bind {names} /etc/hosts && mount --bind {names}.resolv /etc/resolv.conf"
    command = ["unshare", "--map-root-user", "--mount", "sh", "-c", f'{hold} && exec "$@"', "sh"]
    try:
        if subprocess.run([*command, "true"], stderr=subprocess.DEVNULL, timeout=WAIT).returncode == 0:
            return command
    except OSError:
        pass
    return None


# --- clients ---

class Client:
    """A connection to an admin port, or to one for lines."""

    def __init__(self, port, text=""):
        self.rest = b""
        self.socket = socket.create_connection((HERE, port), WAIT)
        self.socket.setsockopt(socket.IPPROTO_TCP, socket.TCP_NODELAY, 1)
        self.say(text)

    def say(self, text):
        self.socket.sendall(text.encode())
        return self

    def half_close(self):
        self.socket.shutdown(socket.SHUT_WR)
        return self

    def hear(self, count=None):
        """So many lines of what it is told, or all up to the end of the connection, which is closed then."""
        try:
            while count is None or self.rest.count(b"\n") < count:
                got = self.socket.recv(65536)
                if not got:
                    break
                self.rest += got
        except socket.timeout:
            self.rest += f"nothing more in {WAIT} seconds\n".encode()
        except ConnectionError:
            pass
        if count is None:
            self.close()
        lines = self.rest.splitlines(keepends=True)
        self.rest = b"".join(lines[count:]) if count is not None else b""
        return b"".join(lines[:count]).decode()

    def is_closed(self):
        """Whether the other end has closed the connection."""
        try:
            self.socket.setblocking(False)
            return self.socket.recv(1, socket.MSG_PEEK) == b""
        except BlockingIOError:
            return False
        except ConnectionError:
            return True
        finally:
            self.socket.settimeout(WAIT)

    def close(self):
        self.socket.close()


def ask(port, text):
    """What an admin port answers to a line, up to the end of the connection."""
    return Client(port, f"{text}\nquit\n").hear()


def told(port, command):
    """What a server has of each counter or gauge, by the command that asks for them."""
    return dict(line.rsplit(": ", 1) for line in ask(port, command).splitlines() if ": " in line)


def send(port, *datagrams):
    """Sends datagrams from one socket, ten before they are read."""
    with socket.socket(socket.AF_INET, socket.SOCK_DGRAM) as client:
        client.connect((HERE, port))
        for i, it in enumerate(datagrams):
            client.send(it.encode())
            if i % 10 == 9:
                are_read(port)


class Sender(threading.Thread):
    """A client that sends a line over and over until it is over, or so many times: ten datagrams before they are read at the first port,
    and at what stands behind it."""

    def __init__(self, line, *ports, count=None):
        super().__init__(daemon=True)
        self.line, self.ports, self.count = line.encode(), ports, count
        self.sent, self.over = 0, threading.Event()
        self.start()

    def run(self):
        with socket.socket(socket.AF_INET, socket.SOCK_DGRAM) as client:
            client.connect((HERE, self.ports[0]))
            while self.sent != self.count and not self.over.is_set():
                try:
                    client.send(self.line)
                except ConnectionRefusedError:
                    # (nobody takes any more; the send itself was none)
                    self.over.wait(PAUSE)
                    continue
                self.sent += 1
                if self.sent % 10 == 0:
                    self.over.wait(PAUSE)
                    within(5, lambda: is_read(*self.ports) or self.over.is_set())

    def end(self):
        """Ends it, and says how many it has sent."""
        self.over.set()
        self.join(WAIT)
        return self.sent


class Pour(threading.Thread):
    """A client that sends a line over and over until it is over or the server leaves, and says how many it has sent."""

    def __init__(self, port, line):
        super().__init__(daemon=True)
        self.client, self.line, self.sent, self.over = Client(port), line, 0, threading.Event()
        self.start()

    def run(self):
        try:
            while not self.over.is_set():
                self.client.say(self.line)
                self.sent += 1
                if self.sent % 50 == 0:
                    self.over.wait(PAUSE)
        except OSError:
            pass
        self.client.close()


# --- what listens ---

class Graphite(threading.Thread):
    """A Graphite that takes what each connection brings, takes one connection a second, of which one waits (slow), closes each at once
    (closes), breaks each off once something came (resets), takes all and never ends its side (stays), or reads nothing (stalls). It
    listens at a port, or where that is 0 at one that nobody has."""

    def __init__(self, manner, port=0):
        super().__init__(daemon=True)
        self.manner, self.got, self.held, self.over = manner, b"", [], threading.Event()
        self.door = socket.socket()
        self.door.setsockopt(socket.SOL_SOCKET, socket.SO_REUSEADDR, 1)
        self.door.setsockopt(socket.SOL_SOCKET, socket.SO_RCVBUF, 4096)
        self.door.bind((HERE, port))
        self.door.listen(0 if manner == "slow" else 16)
        self.port = self.door.getsockname()[1]
        self.start()

    def run(self):
        while not self.over.is_set():
            try:
                peer = self.door.accept()[0]
                self.held.append(peer)
                if self.manner != "stalls":
                    self.take(peer)
            except OSError:
                continue

    def take(self, peer):
        peer.settimeout(WAIT)
        if self.manner == "stays":
            peer = peer.dup()
        with peer:
            while self.manner != "closes":
                got = peer.recv(65536)
                if self.manner == "resets":
                    peer.setsockopt(socket.SOL_SOCKET, socket.SO_LINGER, struct.pack("ii", 1, 0))
                    break
                if not got:
                    break
                self.got += got
        if self.manner == "slow":
            self.over.wait(1)

    def text(self):
        return self.got.decode()

    def texts(self):
        """How many whole texts of flushes it has."""
        return len(re.findall(r"^statsd\.numStats .*\n", self.text(), re.M))

    def end(self):
        self.over.set()
        self.door.shutdown(socket.SHUT_RDWR)
        self.join(WAIT)
        for it in [self.door, *self.held]:
            it.close()


class Door(threading.Thread):
    """A door before an admin port, which hands on what comes through it and counts its clients, one after another."""

    def __init__(self, admin):
        super().__init__(daemon=True)
        self.admin, self.clients = admin, 0
        self.listener = socket.create_server((HERE, 0))
        self.port = self.listener.getsockname()[1]
        self.start()

    def run(self):
        while True:
            peer = self.listener.accept()[0]
            try:
                with peer, socket.create_connection((HERE, self.admin), WAIT) as other:
                    back = threading.Thread(target=self.hand_on, args=(other, peer), daemon=True)
                    back.start()
                    self.hand_on(peer, other)
                    back.join(WAIT)
            except OSError:
                pass
            self.clients += 1

    @staticmethod
    def hand_on(one, other):
        try:
            while True:
                got = one.recv(4096)
                if not got:
                    break
                other.sendall(got)
            other.shutdown(socket.SHUT_WR)
        except OSError:
            pass
