#!/usr/bin/env python3
"""Schedules of the machine: from text to words and back, and beside their replies.

  schedule.py words IN.schedule [-o OUT]   writes the words of a schedule in text form
  schedule.py text IN.words                writes the text form of a schedule in words
  schedule.py show IN.words REPLIES.txt    prints each step beside its reply, in sentences
  schedule.py test                         tests itself; its last line is 'N passed, M failed'

The text form is a line of settings, then a line a step; '#' starts a comment:

  settings threads=2 slots=1 cells=1 records=2 threshold=1 start=4294967295
  thread 0: allocate
  thread 0: swap cell=0 expected=0 new=1
  thread 1: load slot=0 cell=0
  thread 0: advance * 6        # the step six times
  raw 1 2 0 0 0                # any five words: thread, operation, operands

Exit status: 0 done; 1 bad input or a failed test; 2 bad usage, or a file that can't be read or written.
"""
import argparse
import itertools
import random
import re
import signal
import struct
import sys
from pathlib import Path
from typing import NamedTuple

MAX_WORD = 2**32 - 1
MOST_STEPS = 1000
STEP_WORDS = 5


class Setting(NamedTuple):
    name: str
    least: int
    most: int


class Operation(NamedTuple):
    name: str
    operands: tuple = ()


class Schedule(NamedTuple):
    settings: tuple
    steps: list  # of five words each


class Reply(NamedTuple):
    number: int
    value: int


class Wrong(Exception):
    """Input that can't be used; its text says what is wrong with it, and where."""


# In the order of their words, and of their numbers.
SETTINGS = (
    Setting("threads", 1, 16),
    Setting("slots", 1, 8),
    Setting("cells", 1, 256),
    Setting("records", 1, 1024),
    Setting("threshold", 1, 256),
    Setting("start", 0, MAX_WORD),
)
OPERATIONS = (
    Operation("allocate"),
    Operation("swap", ("cell", "expected", "new")),
    Operation("load", ("slot", "cell")),
    Operation("reserve"),
    Operation("check"),
    Operation("use", ("slot",)),
    Operation("clear", ("slot",)),
    Operation("retire", ("record",)),
    Operation("advance"),
    Operation("deliver"),
    Operation("handle"),
)
SETTING_NAMES = tuple(setting.name for setting in SETTINGS)
OPERATION_NAMES = tuple(operation.name for operation in OPERATIONS)


# ---- reading the text form

STEP_LINE = re.compile(r"thread\s+(?P<thread>[^\s:]+)\s*:\s*(?P<name>\S+)(?P<fields>.*)")


def read_schedule(text, name):
    """The schedule that a text gives; `name` is the file that its errors speak of."""
    settings, steps = None, []
    for number, line in enumerate(text.splitlines(), 1):
        line = line.partition("#")[0].strip()
        try:
            if line.split()[:1] == ["settings"]:
                if settings:
                    raise Wrong("the settings are given twice")
                settings = read_settings(line)
            elif line:
                if not settings:
                    raise Wrong("the settings have to come before the first step")
                steps += read_steps(line)
                check_count(len(steps))
        except Wrong as wrong:
            raise Wrong(f"{name}:{number}: {wrong}") from None
    if not settings:
        raise Wrong(f"{name}: there is no line of settings")
    return Schedule(settings, steps)


def read_settings(line):
    settings = read_fields(line.split()[1:], SETTING_NAMES, "settings")
    check_settings(settings)
    return settings


def check_settings(settings):
    for setting, word in zip(SETTINGS, settings):
        if not setting.least <= word <= setting.most:
            raise Wrong(f"{setting.name}={word} is beyond its limit: {setting.least} to {setting.most}")


def check_count(steps):
    if steps > MOST_STEPS:
        raise Wrong(f"a schedule has at most {MOST_STEPS} steps")


def read_steps(line):
    """The steps of one line: one, or as many as are behind its '*'."""
    body, star, times = line.partition("*")
    return [read_step(body)] * (read_times(times.strip()) if star else 1)


def read_times(text):
    times = read_word(text)
    if not 1 <= times <= MOST_STEPS:
        raise Wrong(f"a step is repeated 1 to {MOST_STEPS} times, not {times}")
    return times


def read_step(body):
    if body.split()[:1] == ["raw"]:
        return read_raw(body.split()[1:])
    match = STEP_LINE.fullmatch(body.strip())
    if not match:
        raise Wrong("a line is 'settings ..', 'thread NUMBER: OPERATION ..' or 'raw ..'")
    thread = read_word(match["thread"])
    if match["name"] not in OPERATION_NAMES:
        raise Wrong(f"unknown operation '{match['name']}'; there are {', '.join(OPERATION_NAMES)}")
    number = OPERATION_NAMES.index(match["name"])
    operands = read_fields(match["fields"].split(), OPERATIONS[number].operands, match["name"])
    return step_of(thread, number, operands)


def step_of(thread, number, operands):
    """The five words of a step: operands that the operation doesn't have are 0."""
    return (thread, number, *operands, *[0] * (STEP_WORDS - 2 - len(operands)))


def read_raw(words):
    if len(words) != STEP_WORDS:
        raise Wrong(f"'raw' takes {STEP_WORDS} words, not {len(words)}")
    return tuple(read_word(word) for word in words)


def read_fields(fields, names, owner):
    """The words of 'name=number' fields, in the order of `names`; each has to be given once."""
    given = {}
    for field in fields:
        name, equals, number = field.partition("=")
        if not equals:
            raise Wrong(f"'{field}' is not of the form name=number")
        if name not in names:
            raise Wrong(f"{owner} takes no '{name}'")
        if name in given:
            raise Wrong(f"'{name}' is given twice")
        given[name] = read_word(number)
    missing = [name for name in names if name not in given]
    if missing:
        raise Wrong(f"{owner}: {', '.join(missing)} missing")
    return tuple(given[name] for name in names)


def read_word(text):
    if not re.fullmatch("[0-9]+", text):
        raise Wrong(f"'{text}' is not a number")
    digits = text.lstrip("0") or "0"
    if len(digits) > len(str(MAX_WORD)) or int(digits) > MAX_WORD:
        raise Wrong(f"{digits} is beyond 32 bits: at most {MAX_WORD}")
    return int(digits)


# ---- writing the text form

def schedule_text(schedule):
    lines = [settings_text(schedule.settings)]
    for step, equal_steps in itertools.groupby(schedule.steps):
        times = len(list(equal_steps))
        lines.append(step_text(step) + (f" * {times}" if times > 1 else ""))
    return "\n".join(lines) + "\n"


def settings_text(settings):
    return " ".join(["settings", *fields_text(SETTING_NAMES, settings)])


def step_text(step):
    if not has_named_form(step):
        return " ".join(["raw", *map(str, step)])
    thread, number, *operands = step
    operation = OPERATIONS[number]
    return " ".join([f"thread {thread}:", operation.name, *fields_text(operation.operands, operands)])


def fields_text(names, words):
    return [f"{name}={word}" for name, word in zip(names, words)]


def has_named_form(step):
    thread, number, *operands = step
    if number >= len(OPERATIONS):
        return False
    return step == step_of(thread, number, operands[:len(OPERATIONS[number].operands)])


# ---- words

def pack(schedule):
    words = [len(SETTINGS), *schedule.settings, len(schedule.steps), *itertools.chain(*schedule.steps)]
    return struct.pack(f"<{len(words)}I", *words)


def unpack(data, name):
    """The schedule that bytes give; `name` is the file that its errors speak of."""
    try:
        return schedule_of(words_of(data))
    except Wrong as wrong:
        raise Wrong(f"{name}: {wrong}") from None


def words_of(data):
    if len(data) % 4:
        raise Wrong(f"{len(data)} bytes are not a whole number of 32-bit words")
    return struct.unpack(f"<{len(data) // 4}I", data)


def schedule_of(words):
    steps_at = len(SETTINGS) + 2
    if len(words) < steps_at:
        raise Wrong(f"a schedule has at least {steps_at} words, and there are {len(words)}")
    if words[0] != len(SETTINGS):
        raise Wrong(f"the first word is {words[0]}, and there are {len(SETTINGS)} settings")
    settings, count = words[1:steps_at - 1], words[steps_at - 1]
    check_settings(settings)
    check_count(count)
    if len(words) != steps_at + count * STEP_WORDS:
        raise Wrong(f"a step count of {count} makes {steps_at + count * STEP_WORDS} words, and there are {len(words)}")
    return Schedule(settings, [words[at:at + STEP_WORDS] for at in range(steps_at, len(words), STEP_WORDS)])


# ---- replies

HEADER = "step op code value"


def read_replies(text, name, steps):
    """The replies that the machine's output gives to these steps."""
    lines = text.splitlines()
    if lines[:1] != [HEADER]:
        raise Wrong(f"{name}:1: the first line of replies is '{HEADER}'")
    if len(lines) != len(steps) + 2:
        raise Wrong(f"{name}: a step count of {len(steps)} makes {len(steps) + 2} lines, and there are {len(lines)}")
    replies = [read_reply(lines[i + 1], f"{name}:{i + 2}", i, step[1]) for i, step in enumerate(steps)]
    if lines[-1] != total_line(steps, replies):
        raise Wrong(f"{name}:{len(lines)}: by the lines above it, the total is '{total_line(steps, replies)}'")
    return replies


def read_reply(line, place, index, operation):
    match = re.fullmatch(f"{index} {operation} ([0-9]+) ([0-9]+)", line)
    if not match:
        raise Wrong(f"{place}: the line of this step is '{index} {operation}' and two numbers")
    return Reply(*map(int, match.groups()))


def total_line(steps, replies):
    accepted = sum(reply.number == 0 for reply in replies)
    freed = sum(step[1] == OPERATION_NAMES.index("advance") and reply == Reply(0, 3)
                for step, reply in zip(steps, replies))
    return f"accepted {accepted} refused {len(replies) - accepted} freed {freed}"


# ---- a step and its reply in a sentence

REFUSALS = {
    1: "the image is damaged",
    2: "there is no such operation",
    3: "there is no such thread",
    4: "an operand is beyond its limit, or not 0 where the operation has none",
    5: "the thread's handler runs",
    6: "the thread's phase doesn't allow it",
    7: "no record is free",
    8: "the record isn't live",
    9: "a cell still names the record",
    10: "the retire list is full",
    11: "the slot holds no confirmed record",
}
REFUSALS_OF = {
    ("swap", 8): "the new record isn't live",
    ("deliver", 6): "no ping is pending",
    ("handle", 6): "no handler runs",
}


def refusal(step, number):
    name = OPERATION_NAMES[step[1]] if step[1] < len(OPERATIONS) else None
    reason = REFUSALS_OF.get((name, number)) or REFUSALS.get(number, "no such number is known")
    return f"refused {number}: {reason}"


def record_name(record):
    return f"record {record}" if record else "null"


class NotFollowed(Exception):
    """A reply that doesn't go with what was followed before it."""


def follow_only_if(test):
    if not test:
        raise NotFollowed


class Thread:
    """What is followed of one thread."""

    def __init__(self, number, slots, start):
        self.number = number
        self.private = [0] * slots
        self.published = [0] * slots
        self.count = start
        self.loaded = None  # from a load to its check: slot, cell, record
        self.copied = None  # while the handler runs: how many slots it has copied
        self.entries = []   # the retire list
        self.kept = []      # the entries that this reclaim has kept so far
        self.moved = None   # in a reclaim: how many of its advances have moved

    def __str__(self):
        return f"thread {self.number}"


class Follower:
    """Tells each step in a sentence, by what operands and accepted replies say and nothing else.

    Each operation is a method: it takes the thread, the operands and the reply's value. From the first reply on
    that doesn't go with the ones before it, steps are told plainly.
    """

    def __init__(self, settings):
        given = dict(zip(SETTING_NAMES, settings))
        self.threads = [Thread(t, given["slots"], given["start"]) for t in range(given["threads"])]
        self.slots = given["slots"]
        self.threshold = given["threshold"]
        above_records = given["records"] + 1
        self.limits = {"slot": self.slots, "cell": given["cells"],
                       "record": above_records, "expected": above_records, "new": above_records}
        self.lost = False

    def tell(self, step, reply):
        if reply.number:
            return refusal(step, reply.number)
        if self.lost:
            return "accepted"
        try:
            return self.follow(step, reply.value)
        except NotFollowed:
            self.lost = True
            return "accepted, which doesn't go with the replies before it; told plainly from here on"

    def follow(self, step, value):
        follow_only_if(has_named_form(step) and step[0] < len(self.threads))
        operation = OPERATIONS[step[1]]
        operands = step[2:2 + len(operation.operands)]
        follow_only_if(all(word < self.limits[name] for name, word in zip(operation.operands, operands)))
        return getattr(self, operation.name)(self.threads[step[0]], *operands, value)

    def allocate(self, thread, value):
        return f"{thread} is given {record_name(value)}"

    def swap(self, thread, cell, expected, new, value):
        if value:
            return f"{thread} puts {record_name(new)} into cell {cell} in place of {record_name(expected)}"
        return f"{thread} leaves cell {cell} as it is: it doesn't hold {record_name(expected)}"

    def load(self, thread, slot, cell, value):
        thread.loaded = slot, cell, value
        return f"{thread} loads {record_name(value)} from cell {cell}, for slot {slot}"

    def reserve(self, thread, value):
        follow_only_if(thread.loaded and thread.loaded[2] == value)
        slot = thread.loaded[0]
        thread.private[slot] = value
        return f"{thread} reserves {record_name(value)} in slot {slot}"

    def check(self, thread, value):
        follow_only_if(thread.loaded)
        (slot, cell, record), thread.loaded = thread.loaded, None
        if not value:
            return f"{thread} can't confirm {record_name(record)} in slot {slot}: cell {cell} holds it no longer"
        if not record:
            return f"{thread} finds cell {cell} empty as before: there is nothing to confirm in slot {slot}"
        return f"{thread} confirms {record_name(record)} in slot {slot}"

    def use(self, thread, slot, value):
        follow_only_if(thread.private[slot] == value)
        return f"{thread} uses {record_name(value)} in slot {slot}"

    def clear(self, thread, slot, _value):
        thread.private[slot] = 0
        return f"{thread} clears slot {slot}"

    def retire(self, thread, record, value):
        thread.entries.append(record)
        follow_only_if(thread.moved is None and len(thread.entries) == value)
        said = f"{thread} retires {record_name(record)}, {value} in its list"
        if value < self.threshold:
            return said
        thread.moved = 0
        return said + ": its reclaim starts"

    def deliver(self, thread, _value):
        thread.copied = 0
        return f"{thread} takes its ping: its handler starts"

    def handle(self, thread, value):
        follow_only_if(thread.copied is not None and value == (1 if thread.copied < self.slots else 2))
        if value == 1:
            return self.copy_slot(thread)
        thread.copied = None
        thread.count = (thread.count + 1) % (MAX_WORD + 1)
        return f"{thread} raises its publish count to {thread.count}: its handler ends"

    def copy_slot(self, thread):
        slot = thread.copied
        thread.copied += 1
        thread.published[slot] = thread.private[slot]
        return f"{thread} copies slot {slot} to its published row: {record_name(thread.published[slot])}"

    def advance(self, thread, value):
        """One item of a reclaim: how many have moved says which phase it is in, and at which item."""
        follow_only_if(thread.moved is not None)
        item = thread.moved
        for phase, items in self.phases(thread):
            if item < items:
                said = phase(thread, item, value)
                break
            item -= items
        if value:
            thread.moved += 1
        return said + self.reclaim_end(thread)

    def phases(self, thread):
        threads = len(self.threads)
        return ((self.collect, threads), (self.ping, threads), (self.wait, threads),
                (self.scan, threads * self.slots), (self.free_or_keep, len(thread.entries)))

    def collect(self, thread, item, value):
        follow_only_if(value == 1)
        other = self.threads[item]
        if other is thread:
            return f"{thread} collects its own publish count, {other.count}"
        return f"{thread} collects the publish count of {other}, {other.count}"

    def ping(self, thread, item, value):
        follow_only_if(value == 1)
        other = self.threads[item]
        return f"{thread} doesn't ping itself" if other is thread else f"{thread} pings {other}"

    def wait(self, thread, item, value):
        other = self.threads[item]
        if other is thread:
            follow_only_if(value == 1)
            return f"{thread} doesn't wait for itself"
        follow_only_if(value <= 1)
        if value:
            return f"{thread} waits no longer for {other}: its publish count has changed"
        return f"{thread} waits: the publish count of {other} is still {other.count}"

    def scan(self, thread, item, value):
        follow_only_if(value == 1)
        other, slot = self.threads[item // self.slots], item % self.slots
        if other is thread:
            return f"{thread} scans its own slot {slot}: {record_name(other.private[slot])}"
        return f"{thread} scans published slot {slot} of {other}: {record_name(other.published[slot])}"

    def free_or_keep(self, thread, item, value):
        follow_only_if(value in (2, 3))
        record = thread.entries[item]
        if value == 3:
            return f"{thread} frees {record_name(record)}"
        thread.kept.append(record)
        return f"{thread} keeps {record_name(record)}: a scanned slot names it"

    def reclaim_end(self, thread):
        if thread.moved < sum(items for _, items in self.phases(thread)):
            return ""
        thread.entries, thread.kept, thread.moved = thread.kept, [], None
        return f"; its reclaim ends with {len(thread.entries)} in its list"


def show(schedule, replies):
    """The schedule and its replies, a line a step."""
    follower = Follower(schedule.settings)
    rows = [("step", "schedule", "code value", "what happened")]
    for index, (step, reply) in enumerate(zip(schedule.steps, replies)):
        rows.append((str(index), step_text(step), f"{reply.number} {reply.value}", follower.tell(step, reply)))
    widths = [max(map(len, column)) for column in list(zip(*rows))[:3]]
    lines = [settings_text(schedule.settings), ""]
    for index, step, reply, said in rows:
        lines.append(f"{index:>{widths[0]}}  {step:{widths[1]}}  {reply:{widths[2]}}  {said}".rstrip())
    return "\n".join([*lines, "", total_line(schedule.steps, replies)]) + "\n"


# ---- the self-test

EXAMPLES = Path(__file__).resolve().parent.parent / "examples"
SETTINGS_LINE = "settings threads=2 slots=1 cells=1 records=2 threshold=1 start=4294967295\n"
SETTINGS_WORDS = (2, 1, 1, 2, 1, MAX_WORD)

# a line of the text form, and the steps that it gives
LINES = (
    ("thread 0: allocate", [(0, 0, 0, 0, 0)]),
    ("thread 0: swap cell=3 expected=0 new=2", [(0, 1, 3, 0, 2)]),
    ("thread 0: swap new=2 cell=3 expected=0", [(0, 1, 3, 0, 2)]),
    ("thread 1: load slot=4 cell=5", [(1, 2, 4, 5, 0)]),
    ("thread 1: reserve", [(1, 3, 0, 0, 0)]),
    ("thread 1: check", [(1, 4, 0, 0, 0)]),
    ("thread 1: use slot=7", [(1, 5, 7, 0, 0)]),
    ("thread 1: clear slot=7", [(1, 6, 7, 0, 0)]),
    ("thread 15: retire record=1024", [(15, 7, 1024, 0, 0)]),
    ("thread 0: advance * 3", [(0, 8, 0, 0, 0)] * 3),
    ("thread 4294967295: deliver", [(MAX_WORD, 9, 0, 0, 0)]),
    ("thread 0 :handle*2  # twice", [(0, 10, 0, 0, 0)] * 2),
    ("raw 1 2 0 0 9", [(1, 2, 0, 0, 9)]),
    ("raw 0 11 4294967295 0 007 * 2", [(0, 11, MAX_WORD, 0, 7)] * 2),
    ("thread 0: allocate * 1000", [(0, 0, 0, 0, 0)] * 1000),
    ("", []),
)

# a text, and how its error starts
BAD_TEXTS = (
    ("", "F: there is no line of settings"),
    ("# none\n", "F: there is no line of settings"),
    ("thread 0: allocate\n" + SETTINGS_LINE, "F:1: the settings have to come before the first step"),
    ("settings threads=2 slots=1\n", "F:1: settings: cells, records, threshold, start missing"),
    ("\n# none\nsettings threads=17 slots=1 cells=1 records=2 threshold=1 start=0\n", "F:3: threads=17 is beyond"),
    (SETTINGS_LINE + SETTINGS_LINE, "F:2: the settings are given twice"),
    (SETTINGS_LINE + "thread 0: lod slot=0 cell=0\n", "F:2: unknown operation 'lod'"),
    (SETTINGS_LINE + "thread 0: load slot=0\n", "F:2: load: cell missing"),
    (SETTINGS_LINE + "thread 0: load slot=0 cell\n", "F:2: 'cell' is not of the form name=number"),
    (SETTINGS_LINE + "thread 0: use slot=0 cell=0\n", "F:2: use takes no 'cell'"),
    (SETTINGS_LINE + "thread 0: use slot=0 slot=0\n", "F:2: 'slot' is given twice"),
    (SETTINGS_LINE + "thread 0: use slot=-1\n", "F:2: '-1' is not a number"),
    (SETTINGS_LINE + "thread 4294967296: use slot=0\n", "F:2: 4294967296 is beyond 32 bits"),
    (SETTINGS_LINE + "raw 0 0 0 0 " + "9" * 5000 + "\n", "F:2: 999"),
    (SETTINGS_LINE + "raw 0 0 0 0\n", "F:2: 'raw' takes 5 words, not 4"),
    (SETTINGS_LINE + "thread 0 allocate\n", "F:2: a line is 'settings ..'"),
    (SETTINGS_LINE + "thread 0: allocate * 0\n", "F:2: a step is repeated 1 to 1000 times, not 0"),
    (SETTINGS_LINE + "thread 0: allocate *\n", "F:2: '' is not a number"),
    (SETTINGS_LINE + "thread 0: allocate * 1000\nthread 0: allocate\n", "F:3: a schedule has at most 1000 steps"),
)

# words, and how their error starts
BAD_WORDS = (
    ((), "F: a schedule has at least 8 words, and there are 0"),
    ((5, *SETTINGS_WORDS[1:], 0, 0), "F: the first word is 5, and there are 6 settings"),
    ((6, 0, *SETTINGS_WORDS[1:], 0), "F: threads=0 is beyond its limit"),
    ((6, *SETTINGS_WORDS, 1001), "F: a schedule has at most 1000 steps"),
    ((6, *SETTINGS_WORDS, 1, 0, 0, 0, 0), "F: a step count of 1 makes 13 words, and there are 12"),
    ((6, *SETTINGS_WORDS, 0, 0), "F: a step count of 0 makes 8 words, and there are 9"),
)

# replies to one allocate, and how their error starts
BAD_REPLIES = (
    ("bad input\n", "F:1: the first line of replies"),
    (HEADER + "\n0 0 0 1\n", "F: a step count of 1 makes 3 lines, and there are 2"),
    (HEADER + "\n0 1 0 1\naccepted 1 refused 0 freed 0\n", "F:2: the line of this step is '0 0'"),
    (HEADER + "\n0 0 0 1\naccepted 0 refused 1 freed 0\n", "F:3: by the lines above it, the total is 'accepted 1"),
)

# an example, one of its steps, and what is told of it
TOLD = (
    ("printed", 4, "thread 1 confirms record 1 in slot 0"),
    ("printed", 7, "thread 0 collects its own publish count, 4294967295"),
    ("printed", 10, "thread 0 pings thread 1"),
    ("printed", 12, "thread 0 waits: the publish count of thread 1 is still 4294967295"),
    ("printed", 15, "thread 1 raises its publish count to 0: its handler ends"),
    ("printed", 18, "thread 0 scans published slot 0 of thread 1: record 1"),
    ("printed", 19, "thread 0 keeps record 1: a scanned slot names it; its reclaim ends with 1 in its list"),
    ("printed", 22, "refused 11: the slot holds no confirmed record"),
)


def error_of(function, *arguments):
    try:
        function(*arguments)
    except Wrong as wrong:
        return str(wrong)
    return "no error"


def is_round_trip(schedule):
    return read_schedule(schedule_text(schedule), "F") == unpack(pack(schedule), "F") == schedule


def any_schedule(source):
    """A schedule by chance: words of all sizes, few enough small ones that steps repeat."""
    settings = tuple(source.randint(setting.least, setting.most) for setting in SETTINGS)
    kinds = [lambda: source.randint(0, 1), lambda: source.randint(0, 12), lambda: source.randint(0, MAX_WORD)]
    steps = [tuple(source.choices(kinds, (20, 4, 1))[0]() for _ in range(STEP_WORDS)) for _ in range(50)]
    return Schedule(settings, [step for step in steps for _ in range(source.randint(1, 3))])


def forms_hold():
    """Both forms, there and back."""
    for line, steps in LINES:
        schedule = read_schedule(SETTINGS_LINE + line, "F")
        yield f"line '{line}'", schedule == Schedule(SETTINGS_WORDS, steps) and is_round_trip(schedule)
    source = random.Random(1)
    for number in range(100):
        yield f"round trip {number}", is_round_trip(any_schedule(source))


def errors_hold():
    """Bad input of each kind, and what is said of it."""
    for text, expected in BAD_TEXTS:
        yield f"error '{expected}'", error_of(read_schedule, text, "F").startswith(expected)
    for words, expected in BAD_WORDS:
        yield f"error '{expected}'", error_of(unpack, struct.pack(f"<{len(words)}I", *words), "F").startswith(expected)
    yield "error for three bytes", error_of(unpack, b"abc", "F").startswith("F: 3 bytes are not")
    for text, expected in BAD_REPLIES:
        yield f"error '{expected}'", error_of(read_replies, text, "F", [(0, 0, 0, 0, 0)]).startswith(expected)


def example(name):
    schedule = read_schedule(read_text(EXAMPLES / f"{name}.schedule"), name)
    return schedule, read_replies(read_text(EXAMPLES / f"{name}.replies"), name, schedule.steps)


def told(schedule, replies):
    follower = Follower(schedule.settings)
    return [follower.tell(step, reply) for step, reply in zip(schedule.steps, replies)]


def examples_hold():
    """The examples: their words are those of their texts, and each step is told."""
    names = sorted(path.stem for path in EXAMPLES.glob("*.schedule"))
    yield "examples are there", names != []
    for name in names:
        schedule, replies = example(name)
        yield f"words of {name}", (EXAMPLES / f"{name}.words").read_bytes() == pack(schedule)
        yield f"replies of {name} are followed", not any("plainly" in said for said in told(schedule, replies))
    for name, index, expected in TOLD:
        yield f"step {index} of {name}", told(*example(name))[index] == expected


def strange_replies_hold():
    """Replies that the machine doesn't give are told plainly, not guessed at."""
    steps = [(0, 8, 0, 0, 0), (0, 0, 0, 0, 0), (0, 99, 0, 0, 0), (99, 0, 0, 0, 0)]
    said = told(Schedule(SETTINGS_WORDS, steps), [Reply(0, 1), Reply(0, 1), Reply(2, 0), Reply(77, 0)])
    yield "an advance outside a reclaim", said[0].endswith("told plainly from here on")
    yield "a step after it", said[1] == "accepted"
    yield "an unknown operation", said[2] == "refused 2: there is no such operation"
    yield "an unknown number", said[3] == "refused 77: no such number is known"


def results_of(group):
    """A group's checks, by name; one that raises an error is a failed check, and the group's last."""
    try:
        yield from group()
    except Exception as error:
        yield f"{group.__name__}: {error!r}", False


def run_tests():
    groups = (forms_hold, errors_hold, examples_hold, strange_replies_hold)
    results = [result for group in groups for result in results_of(group)]
    failed = [name for name, holds in results if not holds]
    for name in failed:
        print(f"failed: {name}")
    print(f"{len(results) - len(failed)} passed, {len(failed)} failed")
    return 1 if failed else 0


# ---- the commands

def read_text(path):
    try:
        return Path(path).read_text(encoding="utf-8")
    except UnicodeDecodeError:
        raise Wrong(f"{path}: this is not a text") from None


def read_words(path):
    return unpack(Path(path).read_bytes(), path)


def do_words(arguments):
    data = pack(read_schedule(read_text(arguments.schedule), arguments.schedule))
    if arguments.output:
        Path(arguments.output).write_bytes(data)
    else:
        sys.stdout.buffer.write(data)


def do_text(arguments):
    print(schedule_text(read_words(arguments.words)), end="")


def do_show(arguments):
    schedule = read_words(arguments.words)
    print(show(schedule, read_replies(read_text(arguments.replies), arguments.replies, schedule.steps)), end="")


def do_test(_arguments):
    return run_tests()


def command_line():
    parser = argparse.ArgumentParser(description=__doc__, formatter_class=argparse.RawDescriptionHelpFormatter)
    commands = parser.add_subparsers(required=True, metavar="COMMAND")
    words = commands.add_parser("words", help="text form to words")
    words.add_argument("schedule", metavar="IN.schedule")
    words.add_argument("-o", dest="output", metavar="OUT", help="file to write (default: standard output)")
    words.set_defaults(do=do_words)
    text = commands.add_parser("text", help="words to text form")
    text.add_argument("words", metavar="IN.words")
    text.set_defaults(do=do_text)
    shown = commands.add_parser("show", help="each step beside its reply")
    shown.add_argument("words", metavar="IN.words")
    shown.add_argument("replies", metavar="REPLIES.txt")
    shown.set_defaults(do=do_show)
    test = commands.add_parser("test", help="the self-test")
    test.set_defaults(do=do_test)
    return parser


def main():
    signal.signal(signal.SIGPIPE, signal.SIG_DFL)
    arguments = command_line().parse_args()
    try:
        return arguments.do(arguments) or 0
    except Wrong as wrong:
        print(wrong, file=sys.stderr)
        return 1
    except OSError as error:
        print(f"{error.filename}: {error.strerror}", file=sys.stderr)
        return 2


if __name__ == "__main__":
    sys.exit(main())
