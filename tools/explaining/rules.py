"""The tables of docs/RULES.md in words: kinds and their columns, refusals, types of findings, and the rule of each cause."""
import collections
import os
import sys

sys.path.insert(0, os.path.join(os.path.dirname(os.path.abspath(__file__)), "..", "differential"))
import freebusy_reading  # noqa: E402  office calendars
import reading  # noqa: E402  the ranges of the classes, the spelling, and the arithmetic of derived and calendar time

ROWS = 800  # that the program has room for
FINDINGS = 2000
BYTES = 65_536
STRETCHED = 2**53

# The columns of each kind, in order, after the kind itself.
COLUMNS = {
    1: ["id", "deadline", "release"],
    2: ["id", "task", "sequence", "setup", "process", "teardown", "resumable", "release"],
    3: ["activity", "start_after", "finish_lag"],
    4: ["activity", "max_parts", "min_part", "overhead"],
    5: ["activity", "type", "quantity", "usage"],
    6: ["activity", "requirement", "resource"],
    7: ["activity", "requirement", "skill"],
    8: ["activity", "predecessor"],
    9: ["activity", "resource", "speed"],
    10: ["activity", "resource", "setup", "process", "teardown"],
    11: ["id", "type", "capacity"],
    12: ["resource", "skill"],
    13: ["resource", "companion"],
    14: ["resource", "to", "time"],
    15: ["resource", "closed", "start", "end"],
    16: ["activity", "closed", "start", "end"],
    17: ["before", "after", "delay"],
    18: ["resource", "max"],
    19: ["activity", "start", "end"],
    20: ["resource"],
    21: [],
    22: ["constraint", "activity"],
    23: ["activity", "task", "resource", "start", "end", "setup", "part_index", "part_work"],
    24: ["activity", "task", "start", "end"],
}
NAMES = {kind: name for kind, (name, _) in reading.KINDS.items()}
CLASSES = {kind: classes.split() for kind, (_, classes) in reading.KINDS.items()}

CLASS_WORDS = {
    "id": "a name, 0 to 999999999",
    "n": "a number, -1000000 to 1000000",
    "u": "a number, 0 to 1000000",
    "t": "an instant in ms, 0 to 4000000000000",
    "m": "an amount of time in ms, 0 to 4000000000000",
    "g": "a signed time in ms, -4000000000000 to 4000000000000",
    "f": "0 or 1",
    "share": "the bits of a float from 0.0 to 1.0, 0 to 4607182418800017408",
    "speed": "the bits of a float from 1/1024 to 1024, 4562146422526312448 to 4652218415073722368",
}

REFUSALS = {
    1: "misshapen",
    2: "unknown kind",
    3: "out of range",
    4: "stray",
    5: "twice",
    6: "stretched",
    7: "full",
    8: "overlong",
    9: "misspelt",
    10: "crowded",
    11: "malformed",
    12: "undated",
    13: "overfull",
}

# type: its name, its severity
TYPES = {
    1: ("DeadlineMiss", 80),
    2: ("CapacityExceeded", 90),
    3: ("PrecedenceViolation", 95),
    4: ("ResourceUnavailable", 85),
    5: ("SkillMismatch", 70),
    6: ("RequirementUnfilled", 95),
    7: ("TimeWindowViolation", 75),
    8: ("SynchronizeViolation", 75),
    9: ("UnknownActivity", 95),
    10: ("DurationTooShort", 90),
    11: ("EarlyStart", 90),
}

# What the entity of a type is; an activity where nothing else is said.
ENTITIES = {1: "task", 2: "resource", 4: "resource", 5: "resource", 8: "constraint"}

Cause = collections.namedtuple("Cause", "check type rule decided")

# Each cause of a finding: its check and type, the rule that is broken, and the comparisons of figures that decide it (one is enough).
CAUSES = {
    "booking of an unknown activity": Cause(1, 9, "a booking under a task of the sheet names an activity of the sheet", ["activity not among activities"]),
    "booking under another task": Cause(1, 9, "a booking names the task of its activity", ["task != task"]),
    "part of an unsplit activity": Cause(1, 9, "only an activity with a split row (kind 4) is booked in parts", ["activity not among split activities"]),
    "booked too often": Cause(1, 9, "an activity, or a part of it, is booked no more often than its requirements take units (1 at least)", ["bookings > units"]),
    "booking too short": Cause(1, 10, "a booking lasts its own setup with the process and teardown on what it runs on", ["given < needed"]),
    "booking before the activity's release": Cause(1, 11, "a booking starts no earlier than the release of its activity", ["start < release"]),
    "booking before the task's release": Cause(1, 11, "a booking starts no earlier than the release of its task", ["start < release"]),
    "span of nothing": Cause(2, 9, "a time-only span names an activity of the sheet without requirements, and its task",
                             ["activity not among activities", "requirements > requirements of a time-only activity", "task != task"]),
    "second span": Cause(2, 9, "an activity has one time-only span", ["spans > spans of an activity"]),
    "span too short": Cause(2, 10, "a span lasts its activity's setup, process and teardown (a resumable one: in its working time)",
                            ["given < needed", "worked < needed"]),
    "span outside the windows": Cause(2, 7, "a span lies in one window of its activity and meets no closure", ["start < start", "end > end", "start < end"]),
    "span starts in a pause": Cause(2, 7, "a resumable span starts in the working time of its activity", ["start < start", "end <= start", "start < end"]),
    "span before the activity's release": Cause(2, 11, "a span starts no earlier than the release of its activity", ["start < release"]),
    "span before the task's release": Cause(2, 11, "a span starts no earlier than the release of its task", ["start < release"]),
    "no span": Cause(2, 7, "an activity without requirements has a time-only span (kind 24)", ["spans of it < spans wanted"]),
    "two works for one part": Cause(3, 9, "all bookings of a part give it the same work", ["part work != part work"]),
    "whole and in parts": Cause(3, 9, "an activity is booked whole or in parts, not both", ["whole bookings > whole bookings beside parts"]),
    "part index outside": Cause(3, 9, "the part indices run from 0 to max parts - 1", ["part index < the least index", "part index >= max parts"]),
    "parts do too little": Cause(3, 10, "the works of the parts sum up to the activity's process", ["work < process"]),
    "parts do too much": Cause(3, 9, "the works of the parts sum up to the activity's process", ["work > process"]),
    "part below the minimum": Cause(3, 10, "where there are several parts, each does at least the min part", ["part work < min part"]),
    "not at one time": Cause(4, 6, "all bookings of an activity, or of one part of it, have one start and one end", ["start != start", "end != end"]),
    "companion not booked": Cause(4, 6, "where an activity, or a part of it, runs on a resource, the companions of that resource are booked too", ["companion not among booked resources"]),
    "skill lacking": Cause(4, 5, "a resource that fills a requirement has every skill that is wanted", ["skill not among skills"]),
    "requirement unfilled": Cause(4, 6, "each requirement gets its quantity of candidates (those of kind 6, or of its type if none is listed)",
                                  ["claimed < quantity"]),
    "over the limit": Cause(5, 2, "what the bookings of a resource take at one instant stays within its limit", ["peak > limit"]),
    "outside the resource's windows": Cause(6, 4, "a booking lies in one window of its resource and meets no closure",
                                            ["start < start", "end > end", "start < end"]),
    "booking starts in a pause": Cause(6, 4, "resumable work starts in the joint working time of all its resources and its activity",
                                       ["start < start", "end <= start", "start < end"]),
    "too little working time": Cause(6, 4, "resumable work has what it needs of the joint working time of all its resources and its activity",
                                     ["worked < needed"]),
    "outside the activity's windows": Cause(6, 7, "a booking lies in one window of its activity and meets no closure",
                                            ["start < start", "end > end", "start < end"]),
    "before the step before": Cause(7, 3, "a step starts once the step before it has ended and the work has moved", ["start < earliest start"]),
    "before the share of the step before": Cause(7, 3, "an overlapping step starts once its share of the step before is done and the work has moved",
                                                 ["start < earliest start"]),
    "ends before the step before": Cause(7, 3, "an overlapping step ends no earlier than the step before, its lag and the move", ["end < earliest end"]),
    "before a predecessor": Cause(7, 3, "an activity starts no earlier than its predecessors (kind 8) end", ["start < end"]),
    "before a precedence lets it": Cause(7, 3, "the later activity of a precedence (kind 17) starts no earlier than the other ends and the delay has passed", ["start < earliest start"]),
    "late": Cause(8, 1, "the last booking or span of a task ends by its deadline", ["completion > deadline"]),
    "outside a time window": Cause(9, 7, "the activity runs inside the time window (kind 19)", ["start < start", "end > end"]),
    "members overlap": Cause(9, 2, "no two members of a no-overlap (kind 20) are booked on its resource at one time", ["start < end"]),
    "members start apart": Cause(9, 8, "all members of a synchronize (kind 21) start at one instant", ["start != start"]),
}
