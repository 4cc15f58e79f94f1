"""What test_links tries of reconnect: commands of the shell, and the program's client."""
import email.utils
import os
import re
import signal
import subprocess
import time

from links_tried import HERE, check, peers, run
from peers import Server, within

LINE = re.compile(r"(\w{3}, .* GMT): (.*)")
SHORT = ["--first", "0.1", "--longest", "0.4"]


def notices(said):
    """The lines on standard error, without their moments, which must be there."""
    matches = [LINE.fullmatch(line) for line in said.splitlines()]
    is_dated = all(match and email.utils.parsedate(match[1]) for match in matches)
    return [match[2] for match in matches] if is_dated else said


def try_statuses():
    """When it goes on, and when it ends."""
    words = {2: "the words are no command", 3: "a text has a bad line or is too long"}
    for status, text in {**words, 6: "a difference was found"}.items():
        got = run("reconnect", "sh", "-c", f"exit {status}")
        is_so = notices(got[2]) == [f"attempt 1: status {status}, {text}; the last"]
        check(f"reconnect ends at status {status}", got[0] == status and is_so, got)
    got = run("reconnect", *SHORT, "--most", "5", "sh", "-c", "exit 4")
    pauses = re.findall(r"in ([0-9.]+) s", got[2])
    is_so = got[0] == 4 and len(notices(got[2])) == 5
    check("reconnect goes on at status 4, and ends by --most", is_so, got)
    check("its pauses double, up to the longest", pauses == ["0.1", "0.2", "0.4", "0.4"], pauses)
    begun = time.time()
    got = run("reconnect", *SHORT, "--most", "3", "sh", "-c", "exit 8")
    check("and it keeps them", time.time() - begun >= 0.3, time.time() - begun)
    got = run("reconnect", *SHORT, "--most", "3", "sh", "-c", "exit 0")
    pauses = re.findall(r"in ([0-9.]+) s", got[2])
    check("they start anew behind status 0", (got[0], pauses) == (0, ["0.1", "0.1"]), got)
    got = run("reconnect", "--most", "1", "sh", "-c", "kill -9 $$")
    is_so = notices(got[2]) == ["attempt 1: ended by signal 9; the last"]
    check("a signal that ends the command alone is told", got[0] == 137 and is_so, got)
    got = run("reconnect", "/nowhere/tase", "client")
    check("a command that can't be started", got[0] == 127 and "can't be started" in got[2], got)


def try_signals(folder):
    """A signal ends it, and all that the command has started."""
    for number in (signal.SIGHUP, signal.SIGINT, signal.SIGTERM):
        mark = f"{folder}/mark-{number}"
        script = f"sleep 1000 & echo $! $$ >{mark}; wait"
        words = [f"{HERE}/reconnect", "sh", "-c", script]
        tried = subprocess.Popen(words, stderr=subprocess.DEVNULL)
        within(30, lambda: os.path.exists(mark) and os.path.getsize(mark) > 0)
        tried.send_signal(number)
        status = tried.wait(30)
        with open(mark) as text:
            children = text.read().split()
        gone = within(5, lambda: not any(is_running(it) for it in children))
        is_so = gone and status == 128 + number
        check(f"signal {number.name} ends it and its command", is_so, (status, gone))
    words = [f"{HERE}/reconnect", "--first", "1000", "--longest", "1000", "sh", "-c", "exit 4"]
    tried = subprocess.Popen(words, stderr=subprocess.PIPE, text=True)
    line = tried.stderr.readline()
    tried.terminate()
    _, rest = tried.communicate(timeout=30)
    said = notices(line + rest)
    is_so = tried.returncode == 143 and said[1:] == ["ended by SIGTERM"]
    check("a signal ends its pause", is_so, said)


def is_running(process):
    """Whether a process is there and not over."""
    try:
        with open(f"/proc/{process}/stat") as text:
            return text.read().rsplit(")", 1)[1].split()[0] != "Z"
    except OSError:
        return False


def try_client(tase, folder):
    """A client calls a server that isn't there yet, and plays its script once it is."""
    port = peers.free_port()
    with open(f"{folder}/tables", "w") as text:
        text.write(peers.TABLES)
    client = [tase, "client", "tables", "script", "--connect", f"127.0.0.1:{port}"]
    with open(f"{folder}/shown", "w") as shown, open(f"{folder}/told", "w") as told:
        words = [f"{HERE}/reconnect", *SHORT, *client]
        tried = subprocess.Popen(words, cwd=folder, stdout=shown, stderr=told)
    failing, done = "status 4, something outside failed", "status 0, all was done"
    try:
        has_failed = within(60, lambda: failing in told_in(folder))
        check("no server: the client's status is told", has_failed)
        server = Server(tase, folder, peers.TABLES, port=port)
        check("a server comes", server.listens(60))
        check("its script is played then", within(60, lambda: done in told_in(folder)))
    finally:
        tried.terminate()
    check("a signal ends it", tried.wait(30) == 143)
    with open(f"{folder}/shown") as shown:
        check("what the client shows is on standard output", "reply identify\n" in shown.read())
    check("the server ends", server.end(60) == 0)


def told_in(folder):
    with open(f"{folder}/told") as told:
        return told.read()


def try_reconnect(tase, folder):
    try_statuses()
    try_signals(folder)
    try_client(tase, folder)
