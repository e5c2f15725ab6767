"""What the scripts of this folder share: a server that runs over a folder, nginx, clients that ask often, a remote repository, files that
are known by their number, and figures."""

import functools
import hashlib
import http.server
import os
import re
import socket
import subprocess
import sys
import threading
import time

HERE = os.path.dirname(os.path.abspath(__file__))
PROGRAM = os.path.join(HERE, "..", "crates", "mvnrepod", "out", "mvnrepod")
DIGESTS = os.path.join(HERE, "..", "crates", "maven_cases", "out", "maven_cases")

NGINX = """
worker_processes 4;
pid {room}/nginx.pid;
error_log {room}/nginx.log;
daemon off;
events {{ worker_connections 768; }}
http {{
    sendfile on;
    tcp_nopush on;
    access_log off;
    types {{ application/octet-stream jar; }}
    client_body_temp_path {room}/temp;
    proxy_temp_path {room}/temp;
    fastcgi_temp_path {room}/temp;
    uwsgi_temp_path {room}/temp;
    scgi_temp_path {room}/temp;
    {servers}
}}
"""


def free_port():
    with socket.socket() as it:
        it.bind(("127.0.0.1", 0))
        return it.getsockname()[1]


def has_socket(pid, links):
    """Whether a process, or one that it has begun, has one of these sockets open."""
    try:
        with open(f"/proc/{pid}/task/{pid}/children", encoding="ascii") as it:
            pids = [pid, *map(int, it.read().split())]
        return any(os.readlink(f"/proc/{each}/fd/{it}") in links for each in pids for it in os.listdir(f"/proc/{each}/fd"))
    except OSError:
        # A file was closed, or the process has ended, since it was listed.
        return False


def listens(port, pid):
    """Whether it is this process that listens to the port, and not another one to which the system has given it meanwhile."""
    with open("/proc/net/tcp", encoding="ascii") as it:
        rows = [row.split() for row in it]
    return has_socket(pid, {f"socket:[{row[9]}]" for row in rows if row[3] == "0A" and row[1].endswith(f":{port:04X}")})


def wait_for(port, process):
    """Waits until the process listens to the port, and ends the script if it has ended before."""
    for _ in range(2000):
        if listens(port, process.pid):
            return
        if process.poll() is not None:
            sys.exit(f"the server ended with {process.returncode}: {process.stderr.read().decode()}")
        time.sleep(0.005)
    sys.exit("the server does not listen")


def begin(program, settings, data, port, through=()):
    """A server over the folder `data`, which listens; it is started by the words of `through`, if there are some."""
    if not os.access(program, os.X_OK):
        sys.exit(f"no program at {program}; --help says how it is built")
    server = subprocess.Popen([*through, os.path.abspath(program), "serve", settings, data, str(port)], stderr=subprocess.PIPE)
    wait_for(port, server)
    return server


def begin_nginx(room, port, servers):
    """nginx with these blocks of servers, one of which listens to the port; what it writes lies in the folder `room`."""
    os.chmod(room, 0o755)
    os.makedirs(os.path.join(room, "temp"), exist_ok=True)
    text = os.path.join(room, "nginx.conf")
    with open(text, "w", encoding="ascii") as it:
        it.write(NGINX.format(room=room, servers=servers))
    nginx = subprocess.Popen(["nginx", "-p", room, "-c", text], stderr=subprocess.PIPE)
    wait_for(port, nginx)
    return nginx


def build_asks(room):
    """Compiles asks.c into a folder."""
    subprocess.run(["cc", "-O2", "-D_GNU_SOURCE", "-pthread", "-o", os.path.join(room, "asks"), os.path.join(HERE, "asks.c")], check=True)


def asked_often(room, port, method, path, links, seconds, file, pause=0):
    """What asks.c says: answers, wrong ones, seconds, and the longest wait."""
    words = [os.path.join(room, "asks"), str(port), path, method, str(links), str(seconds), str(pause), file]
    said = subprocess.run(words, capture_output=True, check=False).stdout.decode()
    if not said:
        sys.exit(f"{method} {path} at port {port}: no answer")
    answers, wrong, spent, longest = said.split()
    return int(answers), int(wrong), float(spent), float(longest)


def got_often(port, path, links, seconds):
    """How many GETs a second are answered, by wrk, and for how many seconds it asked: for longer if none was answered in the time."""
    for _ in range(6):
        words = ["wrk", "-t", str(min(links, 2)), "-c", str(links), "-d", f"{seconds}s", "--timeout", "10s", f"http://127.0.0.1:{port}{path}"]
        said = subprocess.run(words, capture_output=True, check=True).stdout.decode()
        if "Non-2xx" in said or "Socket errors" in said:
            break
        if rate := float(re.search(r"Requests/sec:\s*([0-9.]+)", said)[1]):
            return rate, seconds
        seconds *= 2
    sys.exit(f"GET {path} over {links} at port {port}:\n{said}")


def copy_of_debian(folder):
    """Copies the repository of Debian's packages, and writes the SHA-1 of each file beside it."""
    os.makedirs(folder, exist_ok=True)
    subprocess.run(["cp", "-rL", "/usr/share/maven-repo/.", folder], check=True)
    for at, _, names in os.walk(folder):
        for name in names:
            write_side(os.path.join(at, name))


def write_side(path):
    with open(path, "rb") as file, open(path + ".sha1", "w", encoding="ascii") as side:
        side.write(hashlib.sha1(file.read()).hexdigest())


class Remote:
    """A plain server of a folder's files, which keeps the paths that it was asked for, each with its status, and can be stopped."""

    def __init__(self, folder):
        self.folder, self.port, self.asked, self.server = folder, free_port(), [], None

    def start(self):
        class Handler(http.server.SimpleHTTPRequestHandler):
            def log_request(handler, code="-", *_):
                self.asked.append((handler.path, int(code)))

            def log_message(handler, *_):
                pass

        handler = functools.partial(Handler, directory=self.folder)
        self.server = http.server.ThreadingHTTPServer(("127.0.0.1", self.port), handler)
        threading.Thread(target=self.server.serve_forever, daemon=True).start()

    def stop(self):
        self.server.shutdown()
        self.server.server_close()


def body_of(seed, length):
    """Bytes that are random to look at, and the same each time."""
    return hashlib.shake_128(str(seed).encode()).digest(length)


def memory(pid, name):
    with open(f"/proc/{pid}/status", encoding="ascii") as it:
        return next(int(line.split()[1]) for line in it if line.startswith(name + ":"))


def resident(pid):
    """How many KiB of memory a process has resident."""
    return memory(pid, "VmRSS")


def peak(pid):
    """How many KiB a process had resident at most since `forget_peak`, or since it began."""
    return memory(pid, "VmHWM")


def forget_peak(pid):
    with open(f"/proc/{pid}/clear_refs", "w", encoding="ascii") as it:
        it.write("5")


def processor(pid):
    """The seconds of processor that a process and its children have had."""
    with open(f"/proc/{pid}/task/{pid}/children", encoding="ascii") as it:
        pids, spent = [pid, *map(int, it.read().split())], 0
    for each in pids:
        with open(f"/proc/{each}/stat", encoding="ascii") as it:
            spent += sum(map(int, it.read().rpartition(")")[2].split()[11:13]))
    return spent / os.sysconf("SC_CLK_TCK")


class Figures:
    """Figures beside what is wanted of them. The script that looked at them ends with 1 if one is missed."""

    def __init__(self):
        self.missed = []

    def look(self, what, holds, wanted):
        print(f"{'ok    ' if holds else 'MISSED'} {what} (wanted: {wanted})", flush=True)
        if not holds:
            self.missed.append(what)

    def end(self):
        print(f"missed {len(self.missed)}, load {os.getloadavg()[0]:.1f}")
        sys.exit(1 if self.missed else 0)
