#!/usr/bin/env python3
"""Kills a hub that keeps a journal again and again, and looks whether anything was forgotten.

Usage: bench/kills/run.py HUB NODE CHECK [KILLS]    programs of grid_hub, grid_node_main and grid_check_main; 200 kills

A load runs all the while: clients create sessions on three nodes in memory, send commands and end them, some leave while they
wait, and one registered node never answers. The hub is ended by SIGKILL at random moments and started again over its file.
After each start: the journal is legal up to its end, no slot has two sessions, each node that runs is listed once under the
number that it had, and every session that a client was told of and has not ended answers a command.
"""
import http.client
import json
import os
import random
import shutil
import signal
import subprocess
import sys
import tempfile
import threading
import time

HOST = "127.0.0.1"
PORT = int(os.environ.get("PORT", "4480"))
NODES, SLOTS, CLIENTS = 3, 8, 12
NEW = json.dumps({"capabilities": {"alwaysMatch": {"browserName": "chrome"}}})


def ask(method, path, body=None, limit=30.0):
    """Returns the status and the body's value, or None where the hub gave no whole answer."""
    link = http.client.HTTPConnection(HOST, PORT, timeout=limit)
    try:
        link.request(method, path, body, {"Content-Type": "application/json"} if body else {})
        reply = link.getresponse()
        return reply.status, json.loads(reply.read() or b"{}").get("value")
    except (OSError, http.client.HTTPException, ValueError):
        return None
    finally:
        link.close()


class Farm:
    """What the clients know."""

    def __init__(self):
        self.lock = threading.Lock()
        # Sessions that a client was told of and has not asked to end.
        self.live = set()
        self.ended = threading.Event()
        self.pausing = threading.Event()
        self.counts = dict.fromkeys(("created", "commands", "deleted", "left"), 0)

    def count(self, what):
        with self.lock:
            self.counts[what] += 1


def leave_early():
    """Asks for a session and goes without an answer."""
    link = http.client.HTTPConnection(HOST, PORT, timeout=5)
    try:
        link.request("POST", "/session", NEW, {"Content-Type": "application/json"})
        time.sleep(random.random() * 0.02)
    except OSError:
        pass
    finally:
        link.close()


def client(farm):
    while not farm.ended.is_set():
        if farm.pausing.is_set():
            time.sleep(0.01)
            continue
        if random.random() < 0.05:
            leave_early()
            farm.count("left")
            continue
        made = ask("POST", "/session", NEW)
        if made is None or made[0] != 200:
            time.sleep(0.01)
            continue
        session = made[1]["sessionId"]
        with farm.lock:
            farm.live.add(session)
            farm.counts["created"] += 1
        for _ in range(random.randrange(6)):
            if ask("GET", f"/session/{session}/url") is not None:
                farm.count("commands")
        if random.random() < 0.2:
            # It is kept over the next kill.
            time.sleep(random.random())
        with farm.lock:
            # Whether an end that got no answer was done is not known.
            farm.live.discard(session)
        if ask("DELETE", f"/session/{session}") is not None:
            farm.count("deleted")


class Hub:
    def __init__(self, program, journal, log):
        self.program, self.journal, self.log, self.process = program, journal, log, None

    def start(self):
        words = [self.program, "--host", HOST, "--port", str(PORT), "--journal", self.journal, "--session-request-timeout", "20"]
        begun = time.monotonic()
        self.process = subprocess.Popen(words, stderr=self.log)
        while time.monotonic() - begun < 60:
            told = ask("GET", "/status", limit=5)
            if told is not None and told[0] == 200:
                return told[1], time.monotonic() - begun
            if self.process.poll() is not None:
                sys.exit(f"the hub ended with status {self.process.returncode}")
            time.sleep(0.005)
        sys.exit("the hub did not come up in a minute")

    def kill(self):
        self.process.send_signal(signal.SIGKILL)
        self.process.wait()


def checked(program, journal, folder):
    """Returns what the check says of a copy of the journal."""
    copy = os.path.join(folder, "copy")
    shutil.copyfile(journal, copy)
    with open(copy, "rb") as it:
        return subprocess.run([program, "check"], stdin=it, capture_output=True, text=True).stdout.strip()


def look(status, farm, known, faults):
    """Looks at the hub's status: each slot and each node once, under the number that it had."""
    names, sessions = {}, []
    for node in status["nodes"]:
        names.setdefault(node["name"], []).append(node["node"])
        sessions += [it["session"] for group in node["slots"] for it in group["states"] if it["session"]]
    if len(sessions) != len(set(sessions)):
        faults.append(f"a session has two slots: {sessions}")
    for name, numbers in names.items():
        if len(numbers) > 1:
            faults.append(f"node {name} is listed as {numbers}")
        if known.setdefault(name, numbers[0]) != numbers[0]:
            faults.append(f"node {name} was {known[name]} and is {numbers[0]}")


def main():
    hub_program, node_program, check_program = sys.argv[1:4]
    kills = int(sys.argv[4]) if len(sys.argv) > 4 else 200
    folder = tempfile.mkdtemp()
    journal, log = os.path.join(folder, "journal"), open(os.path.join(folder, "log"), "w")
    hub, farm, faults, known, nodes, opened = Hub(hub_program, journal, log), Farm(), [], {}, [], []
    try:
        hub.start()
        for number in range(NODES):
            words = [node_program, "--hub", f"{HOST}:{PORT}", "--port", str(PORT + 1 + number), "--name", f"n{number}", "--slots", str(SLOTS)]
            nodes.append(subprocess.Popen(words, stderr=subprocess.DEVNULL))
        while len((ask("GET", "/status") or (0, {"nodes": []}))[1]["nodes"]) < NODES:
            time.sleep(0.05)
        threads = [threading.Thread(target=client, args=(farm,), daemon=True) for _ in range(CLIENTS)]
        for it in threads:
            it.start()
        for kill in range(kills):
            time.sleep(0.05 + random.random() * 0.6)
            hub.kill()
            before = checked(check_program, journal, folder)
            if not before.startswith(("legal", "cut")):
                faults.append(f"kill {kill}: behind the kill the journal is {before}")
            with farm.lock:
                alive = set(farm.live)
            farm.pausing.set()
            status, seconds = hub.start()
            opened.append(seconds)
            look(status, farm, known, faults)
            # Those that their clients have not asked to end meanwhile.
            for session in alive:
                told = ask("GET", f"/session/{session}/url")
                with farm.lock:
                    is_live = session in farm.live
                if is_live and (told is None or told[0] != 200):
                    faults.append(f"kill {kill}: session {session} answers {told}")
            after = checked(check_program, journal, folder)
            if not after.startswith("legal"):
                faults.append(f"kill {kill}: behind the start the journal is {after}")
            farm.pausing.clear()
            if faults:
                break
        farm.ended.set()
        for it in threads:
            it.join(40)
        last = ask("GET", "/status")[1]
        look(last, farm, known, faults)
        print(f"{len(opened)} kills; {farm.counts}; the hub was up after {max(opened):.2f} s at most, "
              f"{sorted(opened)[len(opened) // 2]:.3f} s in the middle; journal of {os.path.getsize(journal)} bytes, {checked(check_program, journal, folder)}")
    finally:
        farm.ended.set()
        for it in nodes:
            it.kill()
            it.wait()
        if hub.process and hub.process.poll() is None:
            hub.kill()
        log.close()
        if faults:
            print("\n".join(faults))
            print(f"left in {folder}")
        else:
            shutil.rmtree(folder)
    sys.exit(1 if faults else 0)


main()
