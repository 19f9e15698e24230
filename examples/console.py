#!/usr/bin/env python3
"""Drives the bench console through a pipe: two probes, a conversion, an alarm search, and a write that shows
the bytes beside the ones written; and the fine reading of the probe that stores half degrees. Start it from anywhere. It prints

    on the wire: FB00000000000010 1E00000000000028
    alarming: 1E00000000000028
    the cellar: 25.1875 degrees, from 1612/64
    scratchpad after the write: 910120F01FFF0C1008 reading: 0190
    limits and configuration: 20F01F between 9101 and FF0C1008

`./run bench_console` builds the console where that is needed; `examples/console.py target/bin/bench_console` takes
the one that is built.
"""
import fractions
import pathlib
import subprocess
import sys

ROOT = pathlib.Path(__file__).resolve().parent.parent
BATHROOM = "1E00000000000028"  # a DS18B20
CELLAR = "FB00000000000010"  # a DS18S20
PROGRAM = sys.argv[1:] or ["./run", "bench_console"]


class Console:
    def __init__(self):
        self.process = subprocess.Popen(
            PROGRAM, cwd=ROOT, text=True, bufsize=1, stdin=subprocess.PIPE, stdout=subprocess.PIPE)

    def line(self):
        return self.process.stdout.readline().rstrip("\n")

    def call(self, text):
        """One call; its answer as a list of fields."""
        self.process.stdin.write(text + "\n")
        return self.line().split(" ")

    def send(self, *data):
        """Bytes to the wire, least significant bit first."""
        for byte in data:
            for place in range(8):
                self.call("slot %d" % (byte >> place & 1))

    def search(self, name):
        """The codes that `search` or `alarm` lists, and the frames of its recording."""
        refusal, codes, passes, _, size = self.call(name)
        listed = [self.line() for _ in range(int(codes))]
        recording = []
        while sum(len(frame) + 1 for frame in recording) < int(size):
            recording.append(self.line())
        return listed, recording

    def end(self):
        self.process.stdin.close()
        return self.process.wait()


bench = Console()
bench.call("add %s external 19 00 7F" % BATHROOM)  # alarms from 25 degrees, or at 0 and below
bench.call("add %s external 1E 00 00" % CELLAR)  # alarms from 30 degrees
print("on the wire:", *bench.search("search")[0])

bench.call("reset")
bench.send(0xCC, 0x44)  # to all: convert
bench.call("converted %s 401" % BATHROOM)  # 25.0625 degrees, in sixteenths
bench.call("converted %s 403" % CELLAR)  # 25.1875 degrees, stored as 25 and two counts
print("alarming:", *bench.search("alarm")[0])

refusal, pad, reading, fine = bench.call("read %s" % CELLAR)
print("the cellar:", float(fractions.Fraction(fine)), "degrees, from", fine)

refusal, pad, reading, fine = bench.call("write %s 20 F0 1F" % BATHROOM)
print("scratchpad after the write:", pad, "reading:", reading)
print("limits and configuration:", pad[4:10], "between", pad[:4], "and", pad[10:])
raise SystemExit(bench.end())
