#!/usr/bin/env python3
"""Two writers share the settings of one probe. Each change names the version that it was based on, so that the one who
comes second is refused with 18, reads again, and undoes nothing. Start it from anywhere. It prints

    both read: high 1E low F6 at version 0
    the first raises the high limit: version 1
    the second, still at version 0: refused with 18
    the second reads again, and lowers the low limit: version 2
    kept: high 28 low F0 at version 2
    two threads, 60 steps each: high 64 low 2C at version 122
    written to the probe: 642C7F

`./run bench_console` builds the console where that is needed; `examples/two_writers.py target/bin/bench_console` takes
the one that is built.
"""
import pathlib
import subprocess
import sys
import threading

ROOT = pathlib.Path(__file__).resolve().parent.parent
PROBE = "1E00000000000028"
PROGRAM = sys.argv[1:] or ["./run", "bench_console"]
STALE = 18


class Settings:
    """The settings store behind the console. A call is one step; the lock makes the calls of threads come in turn."""

    def __init__(self):
        self.process = subprocess.Popen(
            PROGRAM, cwd=ROOT, text=True, bufsize=1, stdin=subprocess.PIPE, stdout=subprocess.PIPE)
        self.lock = threading.Lock()

    def call(self, text):
        with self.lock:
            self.process.stdin.write(text + "\n")
            return self.process.stdout.readline().split()

    def read(self):
        """The two limits, and the version that a change has to name."""
        refusal, high, low, configuration, version = self.call("settings read %s" % PROBE)
        return int(high, 16), int(low, 16), int(version)

    def change(self, version, high="-", low="-"):
        """A change of the limits that are given: the refusal, and the version that it made."""
        limits = [limit if limit == "-" else "%02X" % (limit & 0xFF) for limit in (high, low)]
        refusal, made = self.call("settings change %s %d %s %s -" % (PROBE, version, *limits))
        return int(refusal), int(made)


def told(settings):
    high, low, version = settings.read()
    return "high %02X low %02X at version %d" % (high, low, version)


def steps(settings, limit, count):
    """Moves one limit by one degree so many times, each time from what stands there."""
    done = 0
    while done < count:
        high, low, version = settings.read()
        asked = {"high": high + 1} if limit == "high" else {"low": low + 1}
        refusal, _ = settings.change(version, **asked)
        if refusal == 0:
            done += 1
        elif refusal != STALE:
            raise SystemExit("refused with %d" % refusal)


settings = Settings()
settings.call("settings add %s 1E F6 60" % PROBE)
print("both read:", told(settings))
version = settings.read()[2]
print("the first raises the high limit: version %d" % settings.change(version, high=0x28)[1])
print("the second, still at version %d: refused with %d" % (version, settings.change(version, high=0x1E, low=0xF0)[0]))
print("the second reads again, and lowers the low limit: version %d" % settings.change(settings.read()[2], low=0xF0)[1])
print("kept:", told(settings))

writers = [threading.Thread(target=steps, args=(settings, limit, 60)) for limit in ("high", "low")]
for writer in writers:
    writer.start()
for writer in writers:
    writer.join()
print("two threads, 60 steps each:", told(settings))

settings.call("add %s external 4B 46 7F" % PROBE)
refusal, pad, reading, fine = settings.call("settings write %s" % PROBE)
print("written to the probe:", pad[4:10])
settings.process.stdin.close()
raise SystemExit(settings.process.wait())
