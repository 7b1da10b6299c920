#!/usr/bin/env python3
"""Draws the energy that a trace costs by four policies, and when each disk was awake.

    wol whatif < trace.csv > whatif.txt
    plot.py --config wol.toml --whatif whatif.txt < trace.csv > picture.svg

Bars show the energy of `whatif`'s four lines, and with its `--long` how many requests wait. Strips, one for each disk, show when it was awake, for spin-down alone and with
off-loading everywhere. The strips are computed here, from the trace alone, by the rules of windows, of the timeout, of placing
and of reclaim; what comes out of wakes, sleeps and energy is compared with whatif's lines. Standard error tells whether they
are the same, and the status is 1 where they aren't. Only Python's standard library is used.
"""

import argparse
import datetime
import sys
import tomllib

UNITS = 10_000_000                     # of 100 ns in a second
EPOCH = datetime.datetime(1601, 1, 1)
FONT = 'font-family="DejaVu Sans, Helvetica, Arial, sans-serif"'
POLICIES = {
    "always": ("always on", "no disk ever sleeps", "#8b929c"),
    "spindown": ("spin-down", "sleep after the timeout, each request wakes", "#c8553d"),
    "host": ("off-load in the server", "writes go to awake disks of the same server", "#dd9f4a"),
    "all": ("off-load everywhere", "writes go to any awake disk", "#3f7d58"),
}
# What was published of the traces of a week of 36 volumes (Narayanan, Donnelly, Rowstron: Write Off-Loading, FAST 2008), in per
# cent of the energy of disks that are always on.
PUBLISHED = {"spindown": (28, 36), "all": (45, 60)}


def pieces(first, count, home, most):
    """The pieces that a run of blocks is cut into."""
    while count > 0:
        step = min(count, most, home - first)
        yield first, step
        count -= step
        first = (first + step) % home


class Disk:
    """When one disk was awake; `rest` and `use` at moments that don't fall."""

    def __init__(self, start):
        self.since = start             # awake since then, or None
        self.last = start
        self.awake = []                # pairs of moments
        self.wakes = self.sleeps = 0

    def rest(self, moment, timeout):
        """The beginning of a window: down at the timeout, if that has passed."""
        if self.since is not None and moment >= self.last + timeout:
            self.awake.append((self.since, self.last + timeout))
            self.since = None
            self.sleeps += 1

    def use(self, moment):
        if self.since is None:
            self.since = moment
            self.wakes += 1
        self.last = moment


class Volume:
    """The records of a volume that are in logs: for each block the versions that keep it, the newest last."""

    def __init__(self, view):
        self.view = view               # loggers, a bit each
        self.version = 0
        self.owners = {}
        self.lane = {}                 # version: bit of its logger
        self.left = {}                 # version: how many blocks it keeps
        self.homed = set()             # blocks whose newest content is at home
        self.lanes = 0                 # loggers that ever had a record since there was none
        self.idle_for = None           # the flags for which nothing was left to reclaim, but in the new blocks
        self.fresh = set()

    def add(self, first, count, lane):
        self.version += 1
        self.lane[self.version], self.left[self.version] = lane, count
        self.lanes |= lane
        for block in range(first, first + count):
            self.owners.setdefault(block, []).append(self.version)
            self.homed.discard(block)
        self.fresh.update(range(first, first + count))

    def reclaim(self, me, flags):
        """Due blocks go home, then what may go leaves the logs; answers the disks that this used."""
        key = flags & (self.lanes | me)
        blocks = list(self.owners) if key != self.idle_for else self.fresh
        used, gone = 0, []
        for block in blocks:
            versions = self.owners[block]
            lane = self.lane[versions[-1]]
            if flags & me and flags & lane and block not in self.homed:
                self.homed.add(block)
                used |= me | lane
            if len(versions) > 1:
                for version in [v for v in versions[:-1] if self.lane[v] & flags]:
                    versions.remove(version)
                    used |= self.drop(version)
            if len(versions) == 1 and block in self.homed and lane & flags:
                gone.append(block)
        for block in gone:
            used |= self.drop(self.owners.pop(block)[0])
            self.homed.discard(block)
        self.idle_for = key
        self.fresh = set()
        if not self.owners:
            self.lanes = 0
        return used

    def drop(self, version):
        lane = self.lane[version]
        self.left[version] -= 1
        if not self.left[version]:
            del self.left[version], self.lane[version]
        return lane


class Machine:
    """All volumes by one policy: `views` has the loggers of each, none for spin-down."""

    def __init__(self, views, start, timeout):
        self.disks = [Disk(start) for _ in views]
        self.volumes = [Volume(view) for view in views]
        self.timeout = timeout
        self.awake = (1 << len(views)) - 1

    def begin(self, moment):
        for i, disk in enumerate(self.disks):
            if self.awake >> i & 1 and moment >= disk.last + self.timeout:
                disk.rest(moment, self.timeout)
                self.awake &= ~(1 << i)

    def window(self, moment, asks):
        self.begin(moment)
        flags, used = {}, 0
        for place, write, first, count in asks:
            volume, me = self.volumes[place], 1 << place
            seen = flags.get(place, self.awake)
            covered = bool(volume.owners) and not volume.owners.keys().isdisjoint(range(first, first + count))
            if not write:
                uses = me
                if covered:
                    uses = 0
                    for block in range(first, first + count):
                        versions = volume.owners.get(block)
                        uses |= volume.lane[versions[-1]] if versions else me
            else:
                up = seen & volume.view
                if seen & me and not covered or not up and not covered:
                    uses = me
                else:
                    uses = (up or volume.view) & -(up or volume.view)
                    volume.add(first, count, uses)
            flags[place] = seen | uses
            used |= uses
        for place, volume in enumerate(self.volumes):
            if volume.owners:
                used |= volume.reclaim(1 << place, flags.get(place, self.awake))
        self.awake |= used
        while used:
            low = used & -used
            used ^= low
            self.disks[low.bit_length() - 1].use(moment)

    def finish(self, moment, end):
        self.begin(moment)
        for disk in self.disks:
            if disk.since is not None:
                disk.awake.append((disk.since, end))


class Cutter:
    """The windows of a trace: each has a moment, and asks of (volume, whether it writes, first block, number of blocks)."""

    def __init__(self, config):
        self.most = min(128, config["segment_blocks"] - 2)
        self.places = {(v["host"], str(v["disk"])): (i, v["home_blocks"]) for i, v in enumerate(config["volume"])}
        self.start, self.end, self.number = None, 0, 0

    def asks_of(self, line):
        """What a line asks for; it moves the end of the account."""
        stamp, host, disk, kind, offset, size, _ = line.split(",")
        self.end = max(self.end, int(stamp))
        self.number += 1
        found = self.places.get((host, disk))
        if found is None or size == "0":
            return ()
        place, home = found
        offset, size, write = int(offset), int(size), kind == "Write"
        first = offset >> 9
        count = ((offset + size + 511) >> 9) - first
        first %= home
        if count <= self.most and first + count <= home:
            return ((place, write, first, count),)
        return [(place, write, *cut) for cut in pieces(first, count, home, self.most)]

    def windows(self, lines):
        """Pairs of a moment and the asks of a window. A window's list is used again for the next one."""
        moment, held, asks = 0, 0, []
        for line in lines:
            line = line.rstrip("\r\n")
            if not line:
                continue
            cuts = self.asks_of(line)
            if self.start is None:
                self.start = moment = self.end
            elif self.end - moment >= UNITS or held == 4096 or len(asks) + len(cuts) > 65536:
                yield moment, asks
                moment, held = self.end, 0
                asks.clear()
            held += 1
            asks.extend(cuts)
        if self.start is not None:
            yield moment, asks


def machines_of(config, start):
    """A machine for each policy by which disks sleep."""
    volumes = config["volume"]
    timeout = config.get("timeout_ms", 60000) * 10_000
    every = (1 << len(volumes)) - 1
    same = [sum(1 << j for j, u in enumerate(volumes) if u["host"] == v["host"]) for v in volumes]
    return {
        "spindown": Machine([0] * len(volumes), start, timeout),
        "host": Machine([m & ~(1 << i) for i, m in enumerate(same)], start, timeout),
        "all": Machine([every & ~(1 << i) for i in range(len(volumes))], start, timeout),
    }


def run(lines, config):
    """The machines of three policies after the trace, and its cutter."""
    cutter, machines, moment = Cutter(config), {}, 0
    for moment, asks in cutter.windows(lines):
        machines = machines or machines_of(config, cutter.start)
        for machine in machines.values():
            machine.window(moment, asks)
    for machine in machines.values():
        machine.finish(moment, cutter.end)
    return machines, cutter


def text(x, y, words, size=13, fill="#2b2f36", anchor="start", more=""):
    words = words.replace("&", "&amp;").replace("<", "&lt;")
    return '<text x="%.1f" y="%.1f" font-size="%g" fill="%s" text-anchor="%s"%s>%s</text>' % (
        x, y, size, fill, anchor, more, words)


def blend(share):
    """The colour of a cell by the share of it that the disk was awake."""
    low, high = (0xE8, 0xED, 0xF3), (0xC8, 0x55, 0x3D)
    return "#%02x%02x%02x" % tuple(round(a + (b - a) * share) for a, b in zip(low, high))


def cells(awake, start, end, columns):
    """For each column the share of it that the disk was awake."""
    shares = [0.0] * columns
    width = (end - start) / columns
    for a, b in awake:
        a, b = (a - start) / width, (b - start) / width
        i = int(a)
        while i < b and i < columns:
            shares[i] += min(b, i + 1) - max(a, i)
            i += 1
    return shares


def bars(out, energies, waits, published, left, top, width):
    """The four bars, each with its saving and how many requests wait, where that is known; brackets show what was published of other
    traces, where that is asked for."""
    full = energies["always"] or 1
    step, height = 46, 24
    for i, (policy, energy) in enumerate(energies.items()):
        name, what, colour = POLICIES[policy]
        y = top + i * step
        out.append(text(left - 14, y + 11, name, 14, anchor="end", more=' font-weight="bold"'))
        out.append(text(left - 14, y + 25, what, 10.5, "#69707b", "end"))
        out.append('<rect x="%g" y="%g" width="%g" height="%g" rx="2" fill="#f0f2f5"/>' % (left, y, width, height))
        long = width * energy / full
        out.append('<rect x="%g" y="%g" width="%.1f" height="%g" rx="2" fill="%s"/>' % (left, y, long, height, colour))
        label = energy_in(energy)
        if policy != "always":
            label += "  (saves %.1f %%)" % (100 - 100 * energy / full)
        out.append(text(left + long - 10, y + 17, label, 13, "#ffffff", "end", ' font-weight="bold"'))
        asked, waiting = waits.get(policy, (0, 0))
        if asked and long < width - 180:
            out.append(text(left + width - 10, y + 17, "%.2f %% of requests wait" % (100 * waiting / asked), 12, "#2b2f36", "end"))
        if published and policy in PUBLISHED:
            low, high = PUBLISHED[policy]
            a, b = left + width * (1 - high / 100), left + width * (1 - low / 100)
            y += height + 7
            out.append('<path d="M%.1f %.1fv-4h%.1fv4" fill="none" stroke="#2b2f36" stroke-width="1.3"/>' % (a, y, b - a))
            out.append(text(b + 8, y + 3, "published for its own traces: %d to %d %%" % (low, high),
                            10.5, "#69707b"))
    return top + 4 * step


COLUMNS = 672                          # a column of a strip is a quarter of an hour of a week


def strip(out, disk, start, end, left, y, width, height):
    shares = cells(disk.awake, start, end, COLUMNS)
    cell = width / COLUMNS
    out.append('<rect x="%g" y="%g" width="%g" height="%g" fill="%s"/>' % (left, y, width, height, blend(0)))
    paths, i = {}, 0
    while i < COLUMNS:
        level, j = round(shares[i] * 5), i
        while j < COLUMNS and round(shares[j] * 5) == level:
            j += 1
        if level:
            paths.setdefault(level, []).append("M%.1f %gh%.1fv%gh-%.1fz" % (
                left + i * cell, y, (j - i) * cell, height, (j - i) * cell))
        i = j
    for level, parts in sorted(paths.items()):
        out.append('<path fill="%s" d="%s"/>' % (blend(level / 5), "".join(parts)))


def panel(out, title, config, disks, start, end, left, top, width):
    """A row for each disk, a server's disks together; days above, sums beside."""
    row, gap, y, server, day = 15, 6, top, None, 86400 * UNITS
    out.append(text(left, top - 28, title, 14, more=' font-weight="bold"'))
    out.append(text(left + width + 44, top - 8, "asleep", 10.5, "#69707b", "end"))
    out.append(text(left + width + 88, top - 8, "wakes", 10.5, "#69707b", "end"))
    for volume, disk in zip(config["volume"], disks):
        if server not in (None, volume["host"]):
            y += gap
        server = volume["host"]
        strip(out, disk, start, end, left, y, width, row - 2)
        asleep = 1 - sum(b - a for a, b in disk.awake) / max(1, end - start)
        out.append(text(left + width + 44, y + row - 4, "%.0f %%" % (100 * asleep), 11.5, anchor="end"))
        out.append(text(left + width + 88, y + row - 4, str(disk.wakes), 11.5, "#69707b", "end"))
        y += row
    moment = start - start % day
    while moment < end:
        x = lambda at: left + width * (at - start) / max(1, end - start)
        if moment > start:
            out.append('<path d="M%.1f %gV%g" stroke="#2b2f36" stroke-width="0.8" stroke-dasharray="2 3"/>' % (
                x(moment), top - 4, y + 2))
        if start <= moment + day // 2 and moment + day * 2 // 3 < end:
            date = EPOCH + datetime.timedelta(seconds=moment // UNITS)
            out.append(text(x(moment + day // 2), top - 8, date.strftime("%a"), 11.5, anchor="middle"))
        moment += day
    return y


def energy_in(units):
    """Energy in mJ as people say it."""
    for size, name in ((1e9, "MJ"), (1e6, "kJ")):
        if units >= 10 * size:
            return "%.0f %s" % (units / size, name)
    return "%.0f J" % (units / 1000)


def lines_of(path):
    """whatif's lines: wakes, sleeps and energy of each policy, and with --long how many requests there are and how many wait."""
    told, waits = {}, {}
    with open(path) as file:
        for line in file:
            policy, what, *words = line.split()
            if policy in POLICIES and what == "wakes":
                told[policy] = (int(words[0]), int(words[2]), int(words[4]))
            elif policy in POLICIES and what in ("reads", "writes"):
                asked, waiting = waits.get(policy, (0, 0))
                waits[policy] = (asked + int(words[0]), waiting + int(words[2]))
    if set(told) != set(POLICIES):
        sys.exit("plot.py: %s hasn't whatif's four lines" % path)
    return told, waits


def are_told(machines, cutter, config, told):
    """Whether whatif's lines are those of the machines; standard error tells each."""
    # disks that are always on
    awake = len(config["volume"]) * (cutter.end - cutter.start) * config["awake_mw"] // UNITS
    same = told["always"] == (0, 0, awake)
    if not same:
        print("always wakes 0 sleeps 0 energy %d (whatif differs)" % awake, file=sys.stderr)
    for policy, machine in machines.items():
        units = 0
        for disk in machine.disks:
            awake = sum(b - a for a, b in disk.awake)
            units += awake * config["awake_mw"] + (cutter.end - cutter.start - awake) * config["standby_mw"]
            units += disk.wakes * config["wake_mj"] * UNITS
        mine = (sum(d.wakes for d in machine.disks), sum(d.sleeps for d in machine.disks), units // UNITS)
        same = same and mine == told[policy]
        print("%s wakes %d sleeps %d energy %d (%s)" % (
            policy, *mine, "as whatif" if mine == told[policy] else "whatif differs"), file=sys.stderr)
    return same


def head(out, options, config, cutter):
    """The title, and what the disks are."""
    out.append(text(24, 40, options.title, 22, more=' font-weight="bold"'))
    told = "%s requests in %.3g days. A disk takes %g W awake and %g W asleep, and %g J to wake; it sleeps after %g s. %s" % (
        format(cutter.number, ",").replace(",", " "), (cutter.end - cutter.start) / UNITS / 86400, config["awake_mw"] / 1000,
        config["standby_mw"] / 1000, config["wake_mj"] / 1000, config.get("timeout_ms", 60000) / 1000, options.note)
    out.append(text(24, 62, told, 12, "#69707b"))


def key(out, y):
    """What the colours of the strips mean."""
    left = 1200 - 260
    out.append(text(24, y, "When each disk is awake", 16, more=' font-weight="bold"'))
    out.append(text(left - 8, y, "asleep", 11.5, "#69707b", "end"))
    for i in range(6):
        out.append('<rect x="%g" y="%g" width="28" height="12" fill="%s"/>' % (left + i * 28, y - 10, blend(i / 5)))
    out.append(text(left + 6 * 28 + 8, y, "awake", 11.5, "#69707b"))


def names(out, config, top):
    """The names of the volumes, a server's volumes together."""
    server, y = None, top
    for volume in config["volume"]:
        if server not in (None, volume["host"]):
            y += 6
        server = volume["host"]
        out.append(text(86, y + 11, volume["name"], 11.5, anchor="end"))
        y += 15


def draw(options, config, told, waits, machines, cutter):
    """The picture, as lines of SVG."""
    out = []
    head(out, options, config, cutter)
    y = bars(out, {p: told[p][2] for p in POLICIES}, waits, options.published, 300, 86, 900) + 34
    key(out, y)
    top = y + 62
    names(out, config, top)
    for policy, title, left in (("spindown", "spin-down alone", 98), ("all", "off-load everywhere", 98 + 470 + 118)):
        y = panel(out, title, config, machines[policy].disks, cutter.start, cutter.end, left, top, 470)
    size = (y + 24, y + 24, FONT)
    return ['<svg xmlns="http://www.w3.org/2000/svg" viewBox="0 0 1260 %d" width="1260" height="%d" %s>' % size,
            '<rect width="1260" height="%d" fill="#ffffff"/>' % (y + 24), *out, "</svg>"]


def main():
    words = argparse.ArgumentParser(description=__doc__, formatter_class=argparse.RawDescriptionHelpFormatter)
    words.add_argument("--config", required=True, metavar="wol.toml")
    words.add_argument("--whatif", required=True, metavar="whatif.txt")
    words.add_argument("--title", default="What it would cost, by policy")
    words.add_argument("--note", default="", help="a sentence below the title")
    words.add_argument("--published", action="store_true", help="show what was published of the week of 36 volumes")
    options = words.parse_args()
    with open(options.config, "rb") as file:
        config = tomllib.load(file)
    told, waits = lines_of(options.whatif)
    machines, cutter = run(sys.stdin, config)
    if not machines:
        sys.exit("plot.py: the trace has no lines")
    same = are_told(machines, cutter, config, told)
    print("\n".join(draw(options, config, told, waits, machines, cutter)))
    return 0 if same else 1


if __name__ == "__main__":
    sys.exit(main())
