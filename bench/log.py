"""Whether each line of a log as JSON is an object that says what happened, while a client asks and a stranger floods.

    bash bench/run log [SECONDS]

A server runs with `--log json`. For SECONDS, 60 where they are left out, `osc client` posts its token and asks, again and again, and another socket sends unprotected
requests as fast as it can: by turns one that is refused, and a GET of an open path. Then each line but `listening on` has to be an object with the members of its level and
a time that doesn't go back; each request of the client has to be served under the token's id; of one second at most 20 refusals and 20 sent lines are told, and told and
left out they have to be as many as the server sent. No line may have the key, the secret, the token or the payload in it. The status is 1 where something isn't so. It needs
the port 5983 of this machine."""
import collections
import datetime
import json
import pathlib
import socket
import sys
import tempfile
import threading
import time

from lib import HOST, KEY, SECRET, Holder, Server, given

PORT, ID, PAYLOAD = 5983, "a1b2", "5ec2e7"
# The members of the lines of each level; of a line of how many were left out they are others.
MEMBERS = {
    "served": {"code", "level", "method", "path", "peer", "time", "token"},
    "refused": {"code", "level", "peer", "time", "why"},
    "sent": {"code", "level", "peer", "time"},
}
LEFT_OUT = {"left_out", "level", "time", "what"}
KINDS = {"refused": "refusals without a context", "sent": "sent lines"}
MOST = 20


def flood(ends, sent):
    """Sends unprotected GETs until then, and counts them and their answers."""
    with socket.socket(socket.AF_INET, socket.SOCK_DGRAM) as out:
        out.setblocking(False)
        number = 0
        while time.monotonic() < ends:
            number += 1
            try:
                # GET /e is refused, GET /o is open.
                out.sendto(bytes([0x50, 1, number >> 8 & 255, number & 255, 0xB1, 0x65 if number % 2 else 0x6F]), (HOST, PORT))
                sent["asked"] += 1
            except BlockingIOError:
                pass
            try:
                while out.recv(2048):
                    sent["answered"] += 1
            except BlockingIOError:
                pass


def client(holder, ends):
    """How many requests were asked and answered until then."""
    asked = 0
    while time.monotonic() < ends:
        asked += holder.ask("PUT", "/e", "--payload", PAYLOAD).startswith("c1 answer 2.0")
    return asked


def wrong_of(lines, told):
    """What isn't so of these lines."""
    wrong, counts, seconds, left_out, newest = [], collections.Counter(), collections.Counter(), collections.Counter(), ""
    for line in lines:
        try:
            said = json.loads(line)
        except ValueError:
            wrong.append(f"no object: {line[:200]}")
            continue
        level = said.get("level")
        counts[level] += 1
        if level not in MEMBERS or set(said) not in (MEMBERS[level], LEFT_OUT if level in KINDS else MEMBERS[level]):
            wrong.append(f"other members: {line[:200]}")
            continue
        datetime.datetime.strptime(said["time"], "%Y-%m-%dT%H:%M:%S.%fZ")
        if said["time"] < newest:
            wrong.append(f"a time that goes back: {line[:200]}")
        newest = said["time"]
        if "left_out" in said:
            left_out[level] += said["left_out"]
            counts[level] -= 1
            if said["what"] != KINDS[level]:
                wrong.append(f"another kind was left out: {line[:200]}")
        elif level in KINDS:
            seconds[level, said["time"][:19]] += 1
        elif level == "served" and (said["token"], said["path"], said["method"]) != (ID, "/e", "PUT"):
            wrong.append(f"not whom and what was served: {line[:200]}")
    if counts["served"] != told["client"]:
        wrong.append(f"{counts['served']} lines of requests that were served, and the client asked {told['client']}")
    if max(seconds.values(), default=0) > MOST:
        wrong.append(f"{max(seconds.values())} lines of one kind in one second")
    # Each request of the client is after a post, whose answer is sent too.
    answers = sum(counts[level] + left_out[level] for level in KINDS) - told["client"]
    if not told["answered"] <= answers <= told["asked"] + 2:
        wrong.append(f"{answers} answers to the stranger are told or left out, of {told['asked']} requests with {told['answered']} answers")
    print(f"{len(lines)} lines: {counts['served']} served; told and left out: {counts['refused']} and {left_out['refused']} refused, {counts['sent']} and {left_out['sent']} sent")
    return wrong


def main():
    seconds = given(60.0)
    with tempfile.TemporaryDirectory() as work:
        holder = Holder(pathlib.Path(work), PORT, "/e:GET+PUT", ID)
        with Server(pathlib.Path(work), PORT, 'open = ["/o"]', words=["--log", "json"]) as server:
            told = collections.Counter()
            ends = time.monotonic() + seconds
            stranger = threading.Thread(target=flood, args=(ends, told))
            stranger.start()
            told["client"] = client(holder, ends)
            stranger.join()
            time.sleep(1.5)
            # The next line of a later second tells how many of each kind were left out before.
            with socket.socket(socket.AF_INET, socket.SOCK_DGRAM) as out:
                out.sendto(bytes([0x50, 1, 0, 0, 0xB1, 0x65]), (HOST, PORT))
            time.sleep(0.5)
        text = server.said()
    lines = text.splitlines()
    wrong = [] if lines and lines[0].startswith("listening on ") else ["no line `listening on`"]
    wrong += wrong_of(lines[1:], told)
    wrong += [f"a line has `{secret[:8]}..` in it" for secret in (KEY, SECRET, holder.token, PAYLOAD) if secret in text]
    if not told["client"]:
        wrong.append("the client was never answered")
    for line in wrong[:20]:
        print(f"log: {line}", file=sys.stderr)
    sys.exit(1 if wrong else 0)


main()
