#!/bin/sh
# Kills grid_keeper between and within its calls, and starts it again over the same database.
#
# Usage: examples/kill_and_reopen.sh PROGRAM [TIMES]    PROGRAM is grid_keeper as it was built; TIMES is 100 where it is left out
#
# Each time the program is started over the database, and killed at a random time: while it makes its hub again, or once it was asked for
# a session or to end one. At each start it has to come up over what was kept: each session whose start was answered is in its slot, and
# none whose end was answered. A last start ends by itself, with status 0. Status 0: all that was so; 1: it was not, and it is said what
# was lost; 2: wrong arguments.
#
# The nodes are in memory and begin anew at each start, so that the first ids that they give may be those of sessions that run: such a
# start is refused, and tried again.
exec python3 - "$@" <<'END'
import json
import os
import random
import select
import subprocess
import sys
import tempfile
import time

if len(sys.argv) not in (2, 3) or not os.access(sys.argv[1], os.X_OK):
    print("usage: kill_and_reopen.sh PROGRAM [TIMES]", file=sys.stderr)
    sys.exit(2)
program = os.path.abspath(sys.argv[1])
times = int(sys.argv[2]) if len(sys.argv) > 2 else 100
SLOTS = 8
# How long the program may take to come up and tell its status, in seconds.
LONGEST = 600.0
# How long a request may take before the program is killed, as a multiple of the time that a status takes.
PATIENCE = [0.0, 0.5, 2.0, 5.0, 50.0]
room = tempfile.TemporaryDirectory()
words = [program, "--keep", os.path.join(room.name, "turns.db"), "play", "chrome", str(SLOTS)]
random.seed(7)
START = json.dumps({"capabilities": {"alwaysMatch": {"browserName": "chrome"}}}).encode()


def request(method, path, body=b""):
    head = f"{method} {path} HTTP/1.1\r\nHost: hub\r\nContent-Length: {len(body)}\r\n\r\n"
    return head.encode() + body


class Run:
    def __init__(self):
        self.process = subprocess.Popen(words, stdin=subprocess.PIPE, stdout=subprocess.PIPE, bufsize=0)
        self.left = b""

    def ask(self, asked, seconds=LONGEST):
        """The value that is answered, or None where nothing was answered in that time."""
        self.process.stdin.write(asked)
        until = time.monotonic() + seconds
        while True:
            head, found, rest = self.left.partition(b"\r\n\r\n")
            if found:
                lengths = [line for line in head.split(b"\r\n") if line.lower().startswith(b"content-length:")]
                length = int(lengths[0].split(b":")[1])
                if len(rest) >= length:
                    self.left = rest[length:]
                    return json.loads(rest[:length])
            wait = until - time.monotonic()
            if wait <= 0 or not select.select([self.process.stdout], [], [], wait)[0]:
                return None
            more = os.read(self.process.stdout.fileno(), 65536)
            if not more:
                sys.exit(f"the program ended by itself with status {self.process.wait()}")
            self.left += more

    def sessions(self):
        """The sessions that the hub shows in its slots."""
        answer = self.ask(request("GET", "/status"))
        if answer is None:
            sys.exit(f"the program told no status in {LONGEST} seconds")
        nodes = answer["value"]["nodes"]
        slots = [slot for node in nodes for alike in node["slots"] for slot in alike["states"]]
        if len(slots) != SLOTS:
            sys.exit(f"the hub lists {nodes}")
        return {slot["session"] for slot in slots if slot["session"]}

    def start(self, seconds):
        """The id of a new session, or None where nothing was answered in that time."""
        while True:
            answer = self.ask(request("POST", "/session", START), seconds)
            if answer is None:
                return None
            if "sessionId" in answer["value"]:
                return answer["value"]["sessionId"]

    def kill(self):
        self.process.kill()
        self.process.wait()


def reopened(turn, kept, starting, ending):
    """The program, started again, with the sessions that run: those that were answered, but for one whose end was not answered, and
    with one more whose start was not."""
    run = Run()
    there = run.sessions()
    if not kept - {ending} <= there or len(there - kept) > (1 if starting else 0):
        sys.exit(f"start {turn}: the hub has {sorted(there)} where {sorted(kept)} were answered")
    return run, there


kept, starting, ending = set(), False, None
early, unanswered, found, gone = 0, 0, 0, 0
coming_up = 0.0
for turn in range(times):
    if random.random() < 0.2:
        # It is killed before it has come up, so what was asked last is still open.
        run = Run()
        time.sleep(coming_up * random.random())
        run.kill()
        early += 1
        continue
    began = time.monotonic()
    run, there = reopened(turn, kept, starting, ending)
    coming_up = time.monotonic() - began
    found += len(there - kept)
    gone += len(kept - there)
    kept, starting, ending = there, False, None
    asked_at = time.monotonic()
    run.sessions()
    seconds = random.choice(PATIENCE) * random.random() * (time.monotonic() - asked_at)
    if len(kept) < SLOTS and (not kept or random.random() < 0.6):
        session = run.start(seconds)
        starting = session is None
        if session is not None:
            kept.add(session)
    else:
        ending = random.choice(sorted(kept))
        if run.ask(request("DELETE", f"/session/{ending}"), seconds) is not None:
            kept.discard(ending)
            ending = None
    unanswered += starting or ending is not None
    run.kill()
run, there = reopened(times, kept, starting, ending)
run.process.stdin.close()
if run.process.wait(LONGEST) != 0:
    sys.exit(f"the last run ended with status {run.process.returncode}")
print(f"killed {times} times, {early} of them before it had come up and {unanswered} before an answer: all that was answered was there.")
print(f"Of the {unanswered} calls {found} starts and {gone} ends had been kept.")
END
