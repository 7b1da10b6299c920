#!/usr/bin/env python3
"""A likeness of one week of block requests in a small enterprise data centre, in the format of the MSR Cambridge traces.

It is a likeness and no measurement: nothing in it is taken from a trace. Its shape, how many volumes are on how many
servers, which read and which write, and how they idle, follows what was published of the week that was traced at
Microsoft Research Cambridge (Narayanan, Donnelly, Rowstron: Write Off-Loading, FAST 2008), from memory; its rates were
chosen so that the time that volumes idle is like it. Volumes are a thousand times smaller here, and requests a hundred
and fifty times fewer; the moments at which volumes are busy are not thinned. Response times are made up.

    week.py > week.csv                          the week: 36 volumes on 13 servers, 3,002,274 lines
    week.py --seed S --days D > trace.csv       another one, or a part of it
    week.py --config > wol.toml                 the configuration

The same words give the same bytes. Each volume has these kinds of activity, each with its own stream of random numbers,
so that a change of one leaves the others as they were:

  flushes    small background writes: short gaps, and now and then a long pause (two lognormal laws, heavy tail)
  pokes      single reads with heavy-tailed gaps (Pareto, cut), rarer at night
  sessions   people or jobs at work: reads in clumps with think times, some writes; heavy-tailed lengths, by the hour
  backup     at night, server after server and volume after volume: the volume is read from front to end on one
             night, and in parts on the others
  scan       some nights: many small reads all over the volume

--scale F multiplies the lines in a burst and leaves the moments of bursts alone, so idle times hardly depend on it.
--writes W multiplies the rate of flushes, --reads R that of pokes and sessions, --pauses P the share of long pauses.
Only Python's standard library is used.
"""

import argparse
import math
import random
import sys
import tomllib
from bisect import bisect_left

TICKS = 10_000_000                    # units of 100 ns in a second
START = 128_166_372_000_000_000       # Thursday 22 February 2007, 17:00 UTC, as a Windows file time
START_HOUR = 17
WEEKEND = (2, 3)                      # calendar days after the first: Saturday and Sunday

# Kinds of volumes. gap: median and sigma of the short gaps between flushes in seconds; pause: share of long pauses,
# their median and sigma; poke: least gap and exponent; sessions: a day at the full daily rate; length: median in
# seconds and sigma; think: mean seconds between clumps; clump: mean lines; reads: share of reads in a clump.
KINDS = {
    "reading": dict(gap=(9.0, 0.8), pause=(0.002, 120, 1.2), flush=1.1, poke=(25, 1.2), sessions=60,
                    length=(1500, 1.0), think=25.0, clump=5.0, reads=0.88),
    "writing": dict(gap=(12.0, 0.8), pause=(0.002, 120, 1.2), flush=1.1, poke=(25, 1.2), sessions=60,
                    length=(1500, 1.0), think=25.0, clump=3.0, reads=0.35),
    "chatty": dict(gap=(6.0, 0.9), pause=(0.014, 120, 1.2), flush=1.1, poke=(150, 1.1), sessions=16,
                   length=(600, 1.2), think=15.0, clump=2.5, reads=0.50),
    "mixed": dict(gap=(6.0, 0.9), pause=(0.014, 120, 1.2), flush=1.1, poke=(150, 1.1), sessions=24,
                  length=(900, 1.2), think=15.0, clump=9.0, reads=0.95),
    "quiet": dict(gap=(150.0, 1.2), pause=(0.03, 1800, 1.0), flush=1.1, poke=(1200, 1.1), sessions=5,
                  length=(600, 1.2), think=12.0, clump=6.0, reads=0.93),
    "still": dict(gap=(200.0, 1.2), pause=(0.05, 2400, 1.0), flush=1.1, poke=(14400, 1.2), sessions=0.5,
                  length=(60, 1.2), think=6.0, clump=3.0, reads=0.5),
}
UNTOUCHED = ("still",)                # kinds without backups and scans

# host, disk, kind, pace (the short gaps are multiplied by it), home blocks
VOLUMES = [
    ("usr", 0, "writing", 1.0, 32768), ("usr", 1, "reading", 1.2, 131072), ("usr", 2, "quiet", 0.7, 131072),
    ("proj", 0, "chatty", 0.6, 32768), ("proj", 1, "quiet", 0.8, 131072), ("proj", 2, "reading", 1.8, 131072),
    ("proj", 3, "quiet", 1.0, 65536), ("proj", 4, "quiet", 1.0, 131072),
    ("prn", 0, "chatty", 0.5, 32768), ("prn", 1, "mixed", 1.4, 65536),
    ("hm", 0, "writing", 0.7, 32768), ("hm", 1, "quiet", 1.0, 32768),
    ("rsrch", 0, "chatty", 1.0, 32768), ("rsrch", 1, "still", 1.0, 65536), ("rsrch", 2, "quiet", 0.8, 131072),
    ("prxy", 0, "writing", 0.4, 32768), ("prxy", 1, "reading", 0.6, 65536),
    ("src1", 0, "reading", 0.8, 65536), ("src1", 1, "mixed", 1.6, 131072), ("src1", 2, "chatty", 1.0, 32768),
    ("src2", 0, "chatty", 1.0, 32768), ("src2", 1, "quiet", 1.0, 65536), ("src2", 2, "chatty", 1.2, 65536),
    ("stg", 0, "chatty", 0.9, 32768), ("stg", 1, "quiet", 0.7, 65536),
    ("ts", 0, "chatty", 0.9, 32768),
    ("web", 0, "writing", 0.9, 32768), ("web", 1, "quiet", 0.8, 65536), ("web", 2, "quiet", 1.0, 131072),
    ("web", 3, "still", 0.8, 65536),
    ("mds", 0, "chatty", 1.1, 32768), ("mds", 1, "quiet", 0.9, 131072),
    ("wdev", 0, "chatty", 1.1, 32768), ("wdev", 1, "still", 2.0, 32768), ("wdev", 2, "chatty", 2.0, 32768),
    ("wdev", 3, "still", 2.0, 32768),
]

WORKDAY = (.14, .12, .12, .12, .12, .15, .22, .40, .70, .95, 1.0, 1.0, .85, .90, 1.0, 1.0, .95, .80, .55, .40, .32,
           .27, .22, .17)
REST = (.12, .11, .11, .11, .11, .11, .12, .14, .17, .20, .23, .25, .25, .25, .25, .25, .24, .23, .22, .20, .19, .17,
        .15, .13)


def level(second):
    """How busy people are at this second of the trace, up to 1."""
    hour = START_HOUR + int(second // 3600)
    day, hour = divmod(hour, 24)
    return (REST if day % 7 in WEEKEND else WORKDAY)[hour]


def tails(draw, weights, mean, n=2048):
    """Texts `,SIZE,RESPONSETIME` to choose from; mean is the middle response time in 100 ns."""
    sizes = draw.choices([s for s, _ in weights], [w for _, w in weights], k=n)
    return [",%d,%d\n" % (s, max(300, int(mean * (1 + s / 65536) * math.exp(draw.gauss(0, 0.9))))) for s in sizes]


SMALL = ((512, 8), (1024, 6), (1536, 3), (2048, 4), (4096, 52), (8192, 14), (16384, 6), (32768, 3), (65536, 2),
         (700, 1), (3000, 1))
READS = ((512, 3), (1024, 3), (2048, 3), (4096, 30), (8192, 18), (16384, 14), (32768, 10), (65536, 17), (5000, 1),
         (12345, 1))


class Volume:
    def __init__(self, seed, number, host, disk, kind, pace, blocks, nights, options):
        self.kind = k = KINDS[kind]
        self.name = kind
        self.bytes = blocks * 512
        self.scale = options.scale
        self.end = options.length
        self.nights = nights
        stream = lambda word: random.Random("%s %s %d %s" % (seed, host, disk, word))
        self.flush_draw, self.poke_draw, self.line_draw = stream("flush"), stream("poke"), stream("line")
        self.session_draw, self.place_draw = stream("session"), stream("place")
        self.write_text = ",%s,%d,Write," % (host, disk)
        self.read_text = ",%s,%d,Read," % (host, disk)
        self.write_tails = tails(self.place_draw, SMALL, 4000)
        self.read_tails = tails(self.place_draw, READS, 60000)
        self.gap = (math.log(k["gap"][0] * pace / options.writes), k["gap"][1])
        self.pause = (min(1.0, k["pause"][0] * options.pauses), math.log(k["pause"][1]), k["pause"][2])
        # a ring that is written in order, as a file system's journal is, and a working set that drifts day by day
        ring = max(16, blocks // 512)
        at = self.place_draw.randrange(blocks // 8)
        self.ring = ["%s%d,4096,%d\n" % (self.write_text, (at + 8 * i) * 512, self.place_draw.randrange(2000, 9000))
                     for i in range(ring)]
        self.ring_at = 0
        self.hot = [self.somewhere() for _ in range(48 + blocks // 1024)]
        self.day = -1
        self.next_flush = self.flush_draw.random() * self.mean_gap()
        self.reads = options.reads
        self.next_poke = self.poke_draw.random() * k["poke"][0] * 4
        self.sessions = self.plan_sessions()
        self.jobs = []                # sessions, backups and scans under way: [next moment, end, how]
        self.nights.reverse()

    def mean_gap(self):
        return math.exp(self.gap[0] + self.gap[1] ** 2 / 2)

    def somewhere(self):
        """A place in bytes; one in fifty isn't a multiple of 512."""
        draw = self.place_draw
        at = draw.randrange(self.bytes // 4096) * 4096
        return at + draw.randrange(1, 512) if draw.random() < 0.02 else at

    def drift(self, day):
        """A day's working set: some places of the day before, some new ones; the first are the hottest."""
        draw = self.place_draw
        if day > 0:
            for i in range(len(self.hot)):
                if draw.random() < 0.2:
                    self.hot[i] = self.somewhere()
        n = len(self.hot)
        self.hot_writes, self.hot_reads = [], []
        for _ in range(1024):
            at = self.hot[int(n * draw.random() ** 2.5)]
            self.hot_writes.append("%s%d%s" % (self.write_text, at, draw.choice(self.write_tails)))
            self.hot_reads.append("%s%d%s" % (self.read_text, at, draw.choice(self.read_tails)))

    def plan_sessions(self):
        """Moments of sessions by thinning, newest last, to be popped."""
        draw, k, found, t = self.session_draw, self.kind, [], 0.0
        while True:
            t += draw.expovariate(self.reads * k["sessions"] / 43200)
            if t >= self.end:
                break
            if draw.random() < level(t):
                length = min(4 * 3600, math.exp(draw.gauss(math.log(k["length"][0]), k["length"][1])))
                found.append((t, t + length))
        found.reverse()
        return found

    def emit(self, out, start, end):
        """Appends the lines of this hour; a clump may run past the end by a second."""
        day = int((start // 3600 + START_HOUR) // 24)
        if day != self.day:
            self.day = day
            self.drift(day)
        busy = level(start)
        self.flushes(out, end, busy)
        self.pokes(out, end, busy)
        while self.sessions and self.sessions[-1][0] < end:
            t, to = self.sessions.pop()
            base = self.line_draw.randrange(self.bytes)
            if base % 50:             # one in fifty isn't a multiple of 512
                base &= ~4095
            self.jobs.append(["session", t, to, base, base])
        while self.nights and self.nights[-1][0] < end:
            t, to, how, share = self.nights.pop()
            self.jobs.append([how, t, to, 0, share])
        for job in self.jobs:
            getattr(self, job[0])(out, job, end)
        self.jobs = [job for job in self.jobs if job[1] < job[2]]

    def flushes(self, out, end, busy):
        draw, t = self.flush_draw, self.next_flush
        rnd, gauss, exp = draw.random, draw.gauss, math.exp
        mu, sigma = self.gap
        share, long_mu, long_sigma = self.pause
        mean = (self.kind["flush"] - 1) * self.scale
        more = mean / (1 + mean)      # geometric: mean further lines
        slow = 1.6 - 0.9 * busy       # gaps are longer at night
        ring, at, count, hot = self.ring, self.ring_at, len(self.ring), self.hot_writes
        append = out.append
        while t < end:
            tick = START + int(t * TICKS)
            while True:
                r = rnd()
                if r < 0.45:
                    append(f"{tick}{ring[at]}")
                    at += 1
                    if at == count:
                        at = 0
                else:
                    append(f"{tick}{hot[int(rnd() * 1024)]}")
                if rnd() >= more:
                    break
                tick += int(rnd() * 1_500_000)
            if rnd() < share:
                t += min(14400.0, exp(gauss(long_mu, long_sigma)))
            else:
                t += exp(gauss(mu, sigma)) * slow
        self.next_flush, self.ring_at = t, at

    def pokes(self, out, end, busy):
        draw, t = self.poke_draw, self.next_poke
        least, alpha = self.kind["poke"]
        while t < end:
            tick = START + int(t * TICKS)
            if draw.random() < 0.3:
                out.append(f"{tick}{self.hot_reads[int(draw.random() * 1024)]}")
            else:
                at = int(draw.random() * self.bytes) & ~511
                out.append(f"{tick}{self.read_text}{at}{self.read_tails[int(draw.random() * 2048)]}")
            t += min(43200.0, least * (1 - draw.random()) ** (-1 / alpha)) / (self.reads * (0.35 + 0.65 * busy))
        self.next_poke = t

    def session(self, out, job, end):
        _, t, to, base, at = job
        draw, k = self.line_draw, self.kind
        rnd, log = draw.random, math.log
        think, mean, share = k["think"], k["clump"] * self.scale - 1, k["reads"]
        more = max(0.0, mean / (1 + mean))
        rtext, wtext, rtails, wtails = self.read_text, self.write_text, self.read_tails, self.write_tails
        limit, append = self.bytes, out.append
        stop = min(end, to)
        while t < stop:
            tick = START + int(t * TICKS)
            if rnd() < 0.3:
                at = (base + (int(rnd() * 4_194_304) & ~4095)) % limit
            while True:
                r = rnd()
                if r < share:
                    if r < 0.12:
                        append(f"{tick}{self.hot_reads[int(rnd() * 1024)]}")
                    else:
                        append(f"{tick}{rtext}{at}{rtails[int(rnd() * 2048)]}")
                        at += 16384
                        if at >= limit:
                            at = 0
                elif rnd() < 0.7:
                    append(f"{tick}{self.hot_writes[int(rnd() * 1024)]}")
                else:
                    append(f"{tick}{wtext}{at}{wtails[int(rnd() * 2048)]}")
                if rnd() >= more:
                    break
                tick += int(rnd() * 400_000)
            t -= think * log(1 - rnd())
        job[1], job[4] = t, at

    def backup(self, out, job, end):
        """Reads 64 KiB after 64 KiB; `share` of the volume is read, in runs of 1 MiB."""
        _, t, to, at, share = job
        draw, limit = self.line_draw, self.bytes
        rnd, rtext, stop = draw.random, self.read_text, min(end, to)
        step = max(1, int(round(1 / max(self.scale, 0.05)))) * 65536
        gap = (to - t) / max(1.0, (limit - at) * share / step) if t < to else 1.0
        while t < stop and at < limit:
            if at % 1_048_576 < step and rnd() >= share:
                at = at // 1_048_576 * 1_048_576 + 1_048_576
                continue
            out.append(f"{START + int(t * TICKS)}{rtext}{at},65536,{30000 + int(rnd() * 90000)}\n")
            at += step
            t += gap * (0.5 + rnd())
        job[1], job[3] = (to if at >= limit else t), at

    def scan(self, out, job, end):
        """Small reads all over the volume, in its order with gaps."""
        _, t, to, at, _ = job
        draw, limit = self.line_draw, self.bytes
        rnd, rtext, tails, stop = draw.random, self.read_text, self.read_tails, min(end, to)
        gap = 2.0 / max(self.scale, 0.05)
        while t < stop:
            out.append(f"{START + int(t * TICKS)}{rtext}{at}{tails[int(rnd() * 2048)]}")
            at = (at + (int(rnd() * 262144) & ~4095)) % limit
            t += gap * 2 * rnd()
        job[1], job[3] = t, at


def plan_nights(seed, volumes):
    """Backups and scans: each server begins at its own time of the night and takes its volumes one after another."""
    hosts = []
    for v in volumes:
        if v[0] not in hosts:
            hosts.append(v[0])
    plan = {(v[0], v[1]): [] for v in volumes}
    for place, host in enumerate(hosts):
        draw = random.Random("%s %s nights" % (seed, host))
        full = draw.randrange(7)
        for night in range(8):
            midnight = (24 - START_HOUR + 24 * night) * 3600
            t = midnight - 2 * 3600 + place * 1500 + draw.random() * 600      # from 22:00 on
            for v in volumes:
                if v[0] == host and v[2] not in UNTOUCHED and draw.random() < 0.9:
                    share = 1.0 if night == full else 0.1 + 0.2 * draw.random()
                    length = (600 + v[4] / 131072 * 4800) * (share + 0.15) * (0.8 + 0.4 * draw.random())
                    plan[host, v[1]].append((t, t + length, "backup", share))
                    t += length
            if draw.random() < 3 / 7:
                t = midnight + 4 * 3600 + draw.random() * 5400                # from 4:00 on
                for v in volumes:
                    if v[0] == host and v[2] not in UNTOUCHED:
                        plan[host, v[1]].append((t, t + 900 + 2700 * draw.random(), "scan", 1.0))
    for jobs in plan.values():
        jobs.sort()
    return plan


def read_volumes(path):
    known = {(h, d): (kind, pace) for h, d, kind, pace, _ in VOLUMES}
    with open(path, "rb") as file:
        tables = tomllib.load(file)["volume"]
    return [(t["host"], t["disk"], *known.get((t["host"], t["disk"]), ("quiet", 1.0)), t["home_blocks"]) for t in tables]


def print_config(options):
    """The configuration: each volume logs on `loggers` others, busy ones of other servers first, then its neighbours."""
    print("""# 36 volumes on 13 servers. A volume is an array of five disks of 15,000 turns a minute: 12 W a disk awake, 2.6 W in standby,
# and 200 J a disk beyond that to spin up. Sizes are in blocks of 512 bytes, times in milliseconds, mW and mJ.
segment_blocks = 512
timeout_ms = %d
awake_mw = 60000
standby_mw = 13000
wake_mj = %d""" % (options.timeout * 1000, options.wake * 1000))
    names = ["%s%d" % (v[0], v[1]) for v in VOLUMES]
    busy = [i for i, v in enumerate(VOLUMES) if v[2] in ("reading", "writing")]
    for i, v in enumerate(VOLUMES):
        turn = busy[i % len(busy):] + busy[:i % len(busy)]
        order = [j for j in turn if VOLUMES[j][0] != v[0]][:max(1, options.loggers - 1)]
        order += [j for j in range(len(VOLUMES)) if VOLUMES[j][0] == v[0] and j != i and j not in order]
        order += [(i + 5 + j) % len(VOLUMES) for j in range(len(VOLUMES))]
        view = []
        for j in order:
            if j != i and j not in view and len(view) < options.loggers:
                view.append(j)
        print("\n[[volume]]\nname = \"%s\"\nhost = \"%s\"\ndisk = %d\nhome_blocks = %d\nsegments = 85\nview = [%s]" % (
            names[i], v[0], v[1], v[4], ", ".join('"%s"' % names[j] for j in view)))


def main():
    words = argparse.ArgumentParser(description=__doc__, formatter_class=argparse.RawDescriptionHelpFormatter)
    words.add_argument("--seed", type=int, default=1)
    words.add_argument("--days", type=float, default=7.0)
    words.add_argument("--from", type=float, default=0.0, dest="first", help="begin this many days into the week")
    words.add_argument("--scale", type=float, default=1.0)
    words.add_argument("--writes", type=float, default=1.0, help="factor on the rate of background writes")
    words.add_argument("--reads", type=float, default=1.0, help="factor on the rate of single reads and sessions")
    words.add_argument("--pauses", type=float, default=1.0, help="factor on the share of long pauses between them")
    words.add_argument("--volumes", metavar="wol.toml")
    words.add_argument("--config", action="store_true", help="print a configuration in place of a trace")
    words.add_argument("--loggers", type=int, default=3)
    words.add_argument("--timeout", type=float, default=60.0, help="seconds, for --config")
    words.add_argument("--wake", type=float, default=1000.0, help="joules, for --config")
    options = words.parse_args()
    if options.config:
        return print_config(options)
    options.length = (options.first + options.days) * 86400
    volumes = read_volumes(options.volumes) if options.volumes else VOLUMES
    nights = plan_nights(options.seed, volumes)
    made = [Volume(options.seed, i, *v, nights[v[0], v[1]], options) for i, v in enumerate(volumes)]
    first = str(START + int(options.first * 86400) * TICKS)
    write = sys.stdout.write
    lines, hour = [], 0
    while hour * 3600 < options.length:
        start, end = hour * 3600, min((hour + 1) * 3600, options.length)
        for volume in made:
            volume.emit(lines, start, end)
        lines.sort()                  # times have 18 digits, so the order of texts is that of times
        cut = bisect_left(lines, str(START + int(end * TICKS)))
        write("".join(lines[bisect_left(lines, first):cut]))
        del lines[:cut]
        hour += 1


if __name__ == "__main__":
    try:
        main()
    except BrokenPipeError:
        sys.stderr.close()
