"""What each policy of `wol whatif` would use on a trace, and who would wait: a second program for its numbers, written from docs/USAGE.md
and docs/FORMATS.md. It keeps for each block the records that have it, and for each disk when it went down and up."""

import tomllib
from collections import Counter
from itertools import zip_longest
from typing import Iterator, NamedTuple

SECOND, MILLISECOND = 10_000_000, 10_000  # units of 100 ns
MOST_LINES, MOST_REQUESTS = 4096, 65_536  # of a window
PLAIN = ("always", "spindown", "host", "all")
LONG = (*PLAIN, "views")


class Volume(NamedTuple):
    name: str
    host: str
    disk: int
    home_blocks: int
    segments: int
    view: tuple[int, ...]


class Config(NamedTuple):
    segment_blocks: int
    timeout_ms: int
    wake_ms: int
    awake_mw: int
    standby_mw: int
    wake_mj: int
    volumes: tuple[Volume, ...]

    @property
    def most(self) -> int:
        """The most blocks of a request."""
        return min(128, self.segment_blocks - 2)


def read_config(text: str) -> Config:
    """A configuration that `wol` accepts."""
    said = tomllib.loads(text)
    places = {it["name"]: place for place, it in enumerate(said["volume"])}
    volumes = [
        Volume(it["name"], it["host"], it["disk"], it["home_blocks"], it["segments"], tuple(places[name] for name in it["view"]))
        for it in said["volume"]
    ]
    amounts = (said[key] for key in ("awake_mw", "standby_mw", "wake_mj"))
    return Config(said["segment_blocks"], said.get("timeout_ms", 60_000), said.get("wake_ms", 10_000), *amounts, tuple(volumes))


# ---- Traces


class Request(NamedTuple):
    volume: int
    write: bool
    blocks: range


def requests_of(config: Config, volume: int, write: bool, offset: int, size: int) -> list[Request]:
    """What a line asks for: its range, cut at the volume's end and after each `most` blocks from there."""
    if not size:
        return []
    home = config.volumes[volume].home_blocks
    first, left, found = offset // 512 % home, (offset + size - 1) // 512 - offset // 512 + 1, []
    while left:
        count = min(left, config.most, home - first)
        found.append(Request(volume, write, range(first, first + count)))
        first, left = (first + count) % home, left - count
    return found


class Skipped(NamedTuple):
    """A line of no volume."""

    number: int
    host: bytes
    disk: int


class Trace:
    """The lines of a trace, all of them sound: how many of each kind there are, and when the account begins and ends."""

    def __init__(self, config: Config, text: bytes):
        self.config, self.text = config, text
        self.places = {(it.host.encode(), it.disk): place for place, it in enumerate(config.volumes)}
        self.lines = self.blank = self.skipped = 0
        self.first_skipped: Skipped | None = None
        self.named: set[int] = set()
        self.earlier = self.most_earlier = 0
        self.start: int | None = None
        self.end = 0

    @property
    def told(self) -> int:
        """How many lines aren't blank."""
        return self.lines - self.blank

    @property
    def span(self) -> int:
        return self.end - (self.start or 0)

    def timed_lines(self) -> Iterator[tuple[int, list[Request]]]:
        """The time of each line that isn't blank, and what it asks for."""
        lines = self.text.split(b"\n")
        for line in lines if lines[-1] else lines[:-1]:
            self.lines += 1
            line = line.removesuffix(b"\r")
            if not line:
                self.blank += 1
                continue
            time, host, disk, kind, offset, size, _ = line.split(b",")
            if int(time) < self.end:
                self.earlier += 1
                self.most_earlier = max(self.most_earlier, self.end - int(time))
            self.end = max(self.end, int(time))
            self.start = self.end if self.start is None else self.start
            place = self.places.get((host, int(disk)))
            if place is None:
                self.skipped += 1
                self.first_skipped = self.first_skipped or Skipped(self.lines, host, int(disk))
                yield self.end, []
            else:
                self.named.add(place)
                yield self.end, requests_of(self.config, place, kind == b"Write", int(offset), int(size))

    def windows(self) -> Iterator[tuple[int, list[Request]]]:
        """The moment of each window, and its requests."""
        moment, lines, asked = 0, 0, []
        for time, requests in self.timed_lines():
            full = lines == MOST_LINES or len(asked) + len(requests) > MOST_REQUESTS
            if lines and (full or time - moment >= SECOND):
                yield moment, asked
                lines, asked = 0, []
            if not lines:
                moment = time
            lines += 1
            asked = asked + requests
        if lines:
            yield moment, asked


# ---- Disks


class Disk:
    """A disk that is awake at the start and goes down once it wasn't used for a timeout: when it went down, and when up again."""

    def __init__(self, start: int, timeout: int):
        self.start, self.last, self.timeout = start, start, timeout
        self.downs: list[int] = []
        self.ups: list[int] = []

    @property
    def awake(self) -> bool:
        return len(self.downs) == len(self.ups)

    def begin(self, moment: int) -> None:
        if self.awake and moment - self.last >= self.timeout:
            self.downs.append(self.last + self.timeout)

    def use(self, moment: int) -> None:
        if not self.awake:
            self.ups.append(moment)
        self.last = moment

    def lag(self, moment: int, wake: int) -> int:
        """How long it still takes until the disk is ready."""
        return max(0, wake - (moment - self.ups[-1])) if self.ups else 0

    def standby(self, end: int) -> int:
        return sum(up - down for down, up in zip_longest(self.downs, self.ups, fillvalue=end))


class Account(NamedTuple):
    wakes: int
    sleeps: int
    awake: int
    standby: int
    units: int

    @property
    def energy(self) -> int:
        """In mJ."""
        return self.units // SECOND


def account_of(disk: Disk, end: int, config: Config) -> Account:
    standby = disk.standby(end)
    awake, wakes = end - disk.start - standby, len(disk.ups)
    units = awake * config.awake_mw + standby * config.standby_mw + wakes * config.wake_mj * SECOND
    return Account(wakes, len(disk.downs), awake, standby, units)


# ---- Logs


class Segment:
    """How many blocks are left in a segment, and how many of its records keep something."""

    def __init__(self, room: int):
        self.room, self.records = room, 0


class Record:
    """On which disk a record is, in which segment, and how many blocks it keeps."""

    def __init__(self, disk: int, segment: Segment, kept: int):
        self.disk, self.segment, self.kept = disk, segment, kept


class Logs:
    """How many segments the log of each disk has given out, how many blocks it keeps, and how many it had to at most."""

    def __init__(self, disks: int):
        self.held, self.most = [0] * disks, [0] * disks
        self.kept, self.most_kept, self.most_of_all = [0] * disks, [0] * disks, 0
        self.writes = 0

    def give(self, disk: int) -> None:
        self.held[disk] += 1
        self.most[disk] = max(self.most[disk], self.held[disk])

    def take_back(self, disk: int) -> None:
        self.held[disk] -= 1

    def keep(self, disk: int, blocks: int) -> None:
        self.writes += 1
        self.kept[disk] += blocks
        self.most_kept[disk] = max(self.most_kept[disk], self.kept[disk])
        self.most_of_all = max(self.most_of_all, sum(self.kept))


class Manager:
    """A volume that logs on others: for each block the records that keep it, the newest last."""

    def __init__(self, own: int, view: tuple[int, ...], segment_blocks: int, logs: Logs):
        self.own, self.view, self.segment_blocks, self.logs = own, view, segment_blocks, logs
        self.keepers: dict[int, list[Record]] = {}
        self.homed: set[int] = set()  # blocks that home has as their newest record does
        self.lanes: dict[int, list[Segment]] = {it: [] for it in view}

    def covers_some(self, blocks: range) -> bool:
        return any(it in self.keepers for it in blocks)

    def sources(self, blocks: range) -> set[int]:
        """The disks that a read of these blocks uses."""
        return {self.keepers[it][-1].disk if it in self.keepers else self.own for it in blocks}

    def place_of(self, blocks: range, awake: set[int]) -> int:
        """The disk that takes a write, where each log has room."""
        covered = self.covers_some(blocks)
        if self.own in awake and not covered:
            return self.own
        loggers = [it for it in self.view if it in awake] or (self.view if covered else [self.own])
        return loggers[0]

    def write(self, blocks: range, awake: set[int]) -> int:
        """Logs a write, or leaves it to home. Its disk."""
        disk = self.place_of(blocks, awake)
        if disk != self.own:
            self.log(disk, blocks)
        return disk

    def log(self, disk: int, blocks: range) -> None:
        lane, needed = self.lanes[disk], len(blocks) + 1
        segment = next((it for it in lane if it.room >= needed), None)
        if segment is None:
            segment = Segment(self.segment_blocks - 1)
            lane.append(segment)
            self.logs.give(disk)
        segment.room -= needed
        segment.records += 1
        record = Record(disk, segment, len(blocks))
        self.logs.keep(disk, len(blocks))
        for block in blocks:
            self.keepers.setdefault(block, []).append(record)
        self.homed -= set(blocks)

    def reclaim(self, awake: set[int]) -> set[int]:
        """Puts home what is awake, if home is, and gives up what nobody needs. The disks that are used."""
        used = self.put_home(awake) if self.own in awake else set()
        for block in list(self.keepers):
            used |= self.give_up(block, awake)
        return used

    def put_home(self, awake: set[int]) -> set[int]:
        due = {block: keepers[-1].disk for block, keepers in self.keepers.items() if block not in self.homed and keepers[-1].disk in awake}
        self.homed |= set(due)
        return set(due.values()) | {self.own} if due else set()

    def give_up(self, block: int, awake: set[int]) -> set[int]:
        """Records under newer ones go, and the last one once home has the block."""
        *older, newest = self.keepers[block]
        gone = [it for it in older if it.disk in awake]
        stay = [it for it in older if it.disk not in awake]
        if not stay and block in self.homed and newest.disk in awake:
            gone.append(newest)
            self.homed.discard(block)
        else:
            stay.append(newest)
        for record in gone:
            self.lose(record)
        if stay:
            self.keepers[block] = stay
        else:
            del self.keepers[block]
        return {it.disk for it in gone}

    def lose(self, record: Record) -> None:
        """A record keeps one block less, and may leave its segment, and that its lane."""
        record.kept -= 1
        self.logs.kept[record.disk] -= 1
        record.segment.records -= not record.kept
        if not record.segment.records:
            self.lanes[record.disk] = [it for it in self.lanes[record.disk] if it is not record.segment]
            self.logs.take_back(record.disk)


# ---- Policies


class Machine:
    """A policy at work: all disks and volumes, from window to window."""

    def __init__(self, policy: str, config: Config, start: int):
        self.policy, self.config = policy, config
        self.wake = config.wake_ms * MILLISECOND
        every = range(len(config.volumes))
        self.disks = [Disk(start, config.timeout_ms * MILLISECOND) for _ in every]
        self.logs = Logs(len(config.volumes))
        self.volumes = [Manager(it, self.view_of(it), config.segment_blocks, self.logs) for it in every]
        # of each volume how many of its reads and how many of its writes wait how long
        self.waits = [(Counter(), Counter()) for _ in every]

    def view_of(self, place: int) -> tuple[int, ...]:
        volumes, others = self.config.volumes, tuple(it for it in range(len(self.config.volumes)) if it != place)
        if self.policy in ("always", "spindown"):
            return ()
        if self.policy == "host":
            return tuple(it for it in others if volumes[it].host == volumes[place].host)
        return volumes[place].view if self.policy == "views" else others

    def window(self, moment: int, asked: list[Request]) -> None:
        if self.policy != "always":
            for disk in self.disks:
                disk.begin(moment)
        # what each volume takes for awake in this window
        awake = [{it for it, disk in enumerate(self.disks) if disk.awake} for _ in self.volumes]
        for request in asked:
            awake[request.volume] |= self.serve(request, awake[request.volume], moment)
        for volume, flags in zip(self.volumes, awake):
            for disk in volume.reclaim(flags):
                self.disks[disk].use(moment)

    def serve(self, request: Request, awake: set[int], moment: int) -> set[int]:
        """A request is served. The disks that it uses."""
        volume = self.volumes[request.volume]
        used = {volume.write(request.blocks, awake)} if request.write else volume.sources(request.blocks)
        for it in used:
            self.disks[it].use(moment)
        self.waits[request.volume][request.write][max(self.disks[it].lag(moment, self.wake) for it in used)] += 1
        return used

    def has_room(self) -> bool:
        """Whether no log ever gave out more segments than it has."""
        return all(most <= it.segments for most, it in zip(self.logs.most, self.config.volumes))


# ---- Texts


def late(waits: Counter, of: int, config: Config) -> int:
    """The least number of tenths of a spin-up that at most one request of so many waits longer than, in ms, rounded up."""
    wake = config.wake_ms * MILLISECOND
    tenths = next(it for it in range(11) if of * sum(n for wait, n in waits.items() if 10 * wait > it * wake) <= waits.total())
    return -(-tenths * config.wake_ms // 10)


def waiting(waits: Counter) -> int:
    return waits.total() - waits[0]


def wait_text(waits: Counter, config: Config) -> str:
    told = f"{waits.total()} wait {waiting(waits)} p99 {late(waits, 100, config)} p999 {late(waits, 1000, config)}"
    return f"{told} sum {sum(wait * n for wait, n in waits.items()) // MILLISECOND}"


def volume_text(machine: Machine, place: int, account: Account) -> str:
    volume, (reads, writes), logs = machine.config.volumes[place], machine.waits[place], machine.logs
    offered = f" of {volume.segments}" if machine.policy == "views" else ""
    held = f"blocks {logs.most_kept[place]} segments {logs.most[place]}{offered}"
    told = f"volume {volume.name} wakes {account.wakes} sleeps {account.sleeps} awake {account.awake} standby {account.standby}"
    asked = f"reads {reads.total()} wait {waiting(reads)} writes {writes.total()} wait {waiting(writes)}"
    return f"{told} energy {account.energy} {asked} {held}"


def policy_text(machine: Machine, end: int, long: bool, volumes: bool) -> str:
    """The lines of a policy."""
    config, accounts = machine.config, [account_of(it, end, machine.config) for it in machine.disks]
    wakes, sleeps, units = (sum(getattr(it, what) for it in accounts) for what in ("wakes", "sleeps", "units"))
    lines = [f"wakes {wakes} sleeps {sleeps} energy {units // SECOND}"]
    if long:
        for kind, word in enumerate(("reads", "writes")):
            lines.append(f"{word} {wait_text(sum((it[kind] for it in machine.waits), Counter()), config)}")
        logs = machine.logs
        lines.append(f"logged {logs.writes} blocks {logs.most_of_all} segments {max(logs.most)}")
    if volumes:
        lines += [volume_text(machine, place, it) for place, it in enumerate(accounts)]
    return "".join(f"{machine.policy} {it}\n" for it in lines)


def length_text(units: int) -> str:
    """A length of time."""
    seconds = units // SECOND
    for unit, size, part, below in (("d", 86_400, "h", 3_600), ("h", 3_600, "min", 60), ("min", 60, "s", 1)):
        if seconds >= size:
            return f"{seconds // size} {unit} {seconds % size // below} {part}"
    return f"{units // MILLISECOND} ms"


def host_text(host: bytes) -> str:
    return "".join(chr(byte) if 33 <= byte <= 126 else "?" for byte in host)


def notes(trace: Trace, of_whatif: bool) -> str:
    """What standard error says of a trace that was run."""
    config, found = trace.config, []
    idle = [it.name for place, it in enumerate(config.volumes) if place not in trace.named]
    if not trace.told:
        found.append("the trace has no line, so all numbers are 0.")
    elif trace.skipped:
        number, host, disk = trace.first_skipped
        host = host_text(host)
        if trace.skipped == trace.told:
            found.append(f"NO line belongs to a volume of wol.toml: these are idle disks. Line {number} has host {host}, disk {disk}.")
        else:
            some = f"{trace.skipped} of {trace.told} lines belong to no volume of wol.toml"
            found.append(f"{some}; the first is line {number}: host {host}, disk {disk}.")
        if idle and trace.skipped < trace.told:
            found.append(f"no line belongs to: {' '.join(idle)}.")
    if trace.earlier:
        length = length_text(trace.most_earlier)
        found.append(
            f"{trace.earlier} of {trace.told} lines are earlier than a line before, by up to {length}. Is the trace sorted by time?"
        )
    if trace.told >= 100 and trace.span < 60 * SECOND:
        found.append(f"the trace spans {length_text(trace.span)} only. Do its times count 100 ns?")
    if of_whatif and config.timeout_ms < config.wake_ms:
        found.append("timeout_ms is less than wake_ms: a disk may go down before it is up.")
    return "".join(f"wol: {it}\n" for it in found)


class Told(NamedTuple):
    """What `whatif` writes to its output and to standard error."""

    out: str
    notes: str


def run(config: Config, text: bytes, policies: tuple[str, ...]) -> tuple[Trace, list[Machine]]:
    """The trace, and what it makes of each policy."""
    trace, machines = Trace(config, text), []
    for moment, asked in trace.windows():
        machines = machines or [Machine(it, config, moment) for it in policies]
        for machine in machines:
            machine.window(moment, asked)
    return trace, machines or [Machine(it, config, 0) for it in policies]


def whatif(config: Config, text: bytes, long: bool = False, volumes: bool = False) -> Told:
    trace, machines = run(config, text, LONG if long or volumes else PLAIN)
    front = f"lines {trace.lines} blank {trace.blank} skipped {trace.skipped}\nspan {trace.span}\n" if long else ""
    return Told(front + "".join(policy_text(it, trace.end, long, volumes) for it in machines), notes(trace, True))
