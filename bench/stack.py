"""The most stack that each call of the library for C can take, by its code: whatever comes, and not only what `c_size` measures.

    bash bench/run stack [PREFIX [TARGET]]

The library that is installed below PREFIX, or the one that scripts/install makes, is linked with all its calls (c_size_nodes.c) and taken apart by objdump. What a
function takes is what its own code pushes and takes off the stack pointer, and then the most of any call in it. Functions that call each other in a circle
count as often as such a circle can turn: TURNS, for arrays and maps in one another end at 8 levels, and a sort halves what is left. A call through a register
counts as one of each function whose address the caller's code names. What malloc and free of the C library take isn't known here, and comes on top; so does
a function that the program hands in. A jump through a register is taken as one within its function.

Each call is told with its bytes, the greatest first; then the way down of the first, and the greatest frames. TARGET is x86_64, armv7 or
thumbv7em. The status is 1 where a call takes more than the header says, of x86_64."""
import pathlib
import re
import subprocess
import sys
import tempfile

from lib import ROOT, fail

TURNS = 10
TOLD = 12
# Of each target: the compiler, the tools' prefix, and what a call itself puts on the stack.
TARGETS = {
    "x86_64": (["cc"], "", 8),
    "armv7": (["arm-linux-gnueabihf-gcc"], "arm-linux-gnueabihf-", 0),
    "thumbv7em": (["bash", "examples/lock/m4/cc"], "arm-none-eabi-", 0),
}
HEAD = re.compile(r"([0-9a-f]+) <(.*)>:$")
LINE = re.compile(r"\s*([0-9a-f]+):\s+(\S+)\s*(.*)$")
PLACE = re.compile(r"(?:\S+, )*([0-9a-f]+) <")


def functions_of(file, objdump):
    """Each function's first place, with its name and its lines: place, word, what follows."""
    said = subprocess.run([objdump, "-d", "--no-show-raw-insn", "-w", file], stdout=subprocess.PIPE, text=True, check=True).stdout
    found, lines = {}, []
    for line in said.split("\n"):
        head, it = HEAD.match(line), LINE.match(line)
        if head:
            lines = []
            found[int(head[1], 16)] = head[2], lines
        elif it:
            lines.append((int(it[1], 16), it[2], re.split(r"\s[@;]\s", it[3])[0].strip()))
    return found


class Frame:
    """What a function itself takes, whom it calls, and whom it jumps to as its last act."""

    def __init__(self, lines, known):
        self.bytes, self.calls, self.jumps, self.blind = 0, set(), set(), False
        self.known = known

    def goes_to(self, word, words, is_call):
        place = PLACE.match(words)
        if place:
            (self.calls if is_call else self.jumps).add(int(place[1], 16))
        elif is_call:
            self.blind = True


class X86(Frame):
    def __init__(self, lines, known):
        super().__init__(lines, known)
        probed = None
        for word, words in [(word, words) for _, word, words in lines]:
            less = re.match(r"\$0x([0-9a-f]+),%rsp$", words)
            end = re.match(r"-0x([0-9a-f]+)\(%rsp\),%r11$", words)
            if word == "push":
                self.bytes += 8
            elif word == "lea" and end:
                # (what follows is a loop that takes a page each time, down to there)
                probed = int(end[1], 16)
                self.bytes += probed
            elif word == "sub" and less:
                self.bytes += 0 if probed and less[1] == "1000" else int(less[1], 16)
            elif word == "cmp" and words == "%r11,%rsp":
                probed = None
            elif word == "add" and less and len(less[1]) == 16:
                self.bytes += (1 << 64) - int(less[1], 16)
            elif word.startswith("call") or word.startswith("j"):
                self.goes_to(word, words, word.startswith("call"))
            elif word == "lea" and (named := re.search(r"# ([0-9a-f]+) <[^+]*>$", words)):
                if int(named[1], 16) in known:
                    self.calls.add(int(named[1], 16))


class Arm(Frame):
    LESS = re.compile(r"sp, (?:sp, )?#(\d+)$")

    def __init__(self, lines, known):
        super().__init__(lines, known)
        values, blind = {}, False
        for word, words in [(word.removesuffix(".w").removesuffix(".n"), words) for _, word, words in lines]:
            if word in ("push", "vpush", "stmdb") and (word != "stmdb" or words.startswith("sp!")):
                self.bytes += (8 if "{d" in words else 4) * self.registers(words)
            elif word in ("str", "strd") and (less := re.search(r"\[sp, #-(\d+)\]!", words)):
                self.bytes += int(less[1])
            elif word in ("sub", "subw") and (less := self.LESS.match(words)):
                self.bytes += int(less[1])
            elif word in ("sub", "subw") and re.match(r"sp, (?:sp, )?[a-z]", words):
                self.bytes += values[words.split(", ")[-1]]
            elif word in ("mov", "movs", "movw") and (set_to := re.match(r"(\w+), #(\d+)", words)):
                values[set_to[1]] = int(set_to[2])
            elif word == "movt" and (upper := re.match(r"(\w+), #(\d+)", words)):
                values[upper[1]] = values.get(upper[1], 0) + (int(upper[2]) << 16)
                self.names(values[upper[1]])
            elif word == ".word":
                self.names(int(words, 16))
            elif word in ("bl", "blx"):
                blind = blind or not PLACE.match(words)
                self.goes_to(word, words, True)
            elif re.match(r"b(eq|ne|cs|cc|mi|pl|vs|vc|hi|ls|ge|lt|gt|le|hs|lo)?$|cbn?z$", word):
                self.goes_to(word, words, False)
        self.blind = blind and not self.calls

    def names(self, value):
        """A number that is a function's place, with the bit that says Thumb."""
        if value & 1 and value - 1 in self.known:
            self.calls.add(value - 1)

    @staticmethod
    def registers(words):
        count = 0
        for part in re.search(r"\{(.*)\}", words)[1].split(", "):
            ends = [{"sp": 13, "lr": 14, "pc": 15, "ip": 12, "fp": 11, "sl": 10}.get(it) or int(it.lstrip("rds")) for it in part.split("-")]
            count += ends[-1] - ends[0] + 1
        return count


class Depths:
    """The most that each function can take, with what it calls."""

    def __init__(self, functions, frames, of_call):
        self.functions, self.frames, self.of_call = functions, frames, of_call
        self.most, self.next, self.circles = {}, {}, []
        self.order, self.lowest, self.way, self.on_way = {}, {}, [], set()

    def of(self, place):
        """Tarjan's: circles are found from below."""
        if place not in self.order:
            self.walk(place)
        return self.most[place]

    def outs(self, place):
        it = self.frames[place]
        jumps = {to for to in it.jumps if to in self.frames and to != place}
        return [(to, True) for to in sorted(it.calls) if to in self.frames] + [(to, False) for to in sorted(jumps)]

    def walk(self, place):
        self.order[place] = self.lowest[place] = len(self.order)
        self.way.append(place)
        self.on_way.add(place)
        for to, _ in self.outs(place):
            if to not in self.order:
                self.walk(to)
                self.lowest[place] = min(self.lowest[place], self.lowest[to])
            elif to in self.on_way:
                self.lowest[place] = min(self.lowest[place], self.order[to])
        if self.lowest[place] == self.order[place]:
            at = self.way.index(place)
            circle = self.way[at:]
            del self.way[at:]
            self.on_way -= set(circle)
            self.closed(circle)

    def closed(self, circle):
        """What the functions of a circle take, or one that is in none."""
        is_circle = len(circle) > 1 or circle[0] in self.frames[circle[0]].calls
        own = sum(self.frames[it].bytes + self.of_call for it in circle) * TURNS if is_circle else 0
        if is_circle:
            self.circles.append(circle)
        beyond, to = 0, None
        for place in circle:
            for out, is_call in self.outs(place):
                if out not in circle:
                    # (what is jumped to last takes the place of the function's own frame)
                    more = self.most[out] + (self.of_call if is_call else 0) + (self.frames[place].bytes if is_call and not is_circle else 0)
                    if more > beyond:
                        beyond, to = more, out
        for place in circle:
            alone = 0 if is_circle else self.frames[place].bytes
            self.most[place] = max(own + beyond, alone)
            self.next[place] = to

    def name(self, place):
        return self.functions[place][0]


def built(prefix, target, room):
    compiler, tools, _ = TARGETS[target]
    words = ["-Os", "-std=gnu99", "-DDEVICE", "-DCLIENT", "-DPROXY", f"-I{prefix}/include", "-o", f"{room}/nodes"]
    files = ["bench/c_size_nodes.c"]
    if target == "thumbv7em":
        files += ["-DNZF_POOL=65536", "c/heap.c"]
    subprocess.run([*compiler, *words, *files, f"{prefix}/lib/libnozzlefern.a", "-Wl,--gc-sections"], cwd=ROOT, check=True)
    return f"{room}/nodes", f"{tools}objdump"


def promised():
    """How many bytes the header says that a call takes at most."""
    said = re.search(r"A call takes less than (\d+) KiB", (ROOT / "include/nozzlefern.h").read_text())
    return int(said[1]) * 1024


def main(prefix=None, target="x86_64"):
    if target not in TARGETS:
        fail(f"stack: {target} is none of {', '.join(TARGETS)}")
    sys.setrecursionlimit(10000)
    with tempfile.TemporaryDirectory() as room:
        if not prefix:
            prefix = f"{room}/prefix"
            subprocess.run(["bash", "scripts/install", prefix, target], cwd=ROOT, check=True, stdout=sys.stderr)
        functions = functions_of(*built(pathlib.Path(prefix).absolute(), target, room))
    kind = X86 if target == "x86_64" else Arm
    frames = {place: kind(lines, functions) for place, (_, lines) in functions.items()}
    depths = Depths(functions, frames, TARGETS[target][2])
    calls = sorted(((depths.of(place), name) for place, (name, _) in functions.items() if re.fullmatch(r"nzf_\w+", name)), reverse=True)
    print(f"Bytes of stack that a call takes at most, {target}")
    for most, name in calls[:TOLD]:
        print(f"{name:48} {most:8}")
    place = next(place for place, (name, _) in functions.items() if name == calls[0][1])
    print(f"\nOf {calls[0][1]}")
    while place is not None:
        print(f"{frames[place].bytes:8} {depths.name(place)}")
        place = depths.next[place]
    print("\nThe greatest frames")
    for place in sorted(depths.most, key=lambda it: -frames[it].bytes)[:TOLD]:
        print(f"{frames[place].bytes:8} {depths.name(place)}")
    turning = [", ".join(sorted(map(depths.name, it))) for it in depths.circles]
    print(f"\nIn a circle, which counts {TURNS} times: {'; '.join(sorted(turning)) or 'none'}")
    blind = sorted(depths.name(it) for it in depths.most if frames[it].blind and "@plt" not in depths.name(it))
    print(f"Call what isn't known here: {', '.join(blind) or 'none'}")
    if target == "x86_64" and calls[0][0] >= promised():
        print(f"stack: {calls[0][1]} takes more than the header says")
        sys.exit(1)


main(*sys.argv[1:])
