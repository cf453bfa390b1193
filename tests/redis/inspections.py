"""What a reply to XINFO has in common with that of a real Redis 7.0. The rest differs, as docs/COMMANDS.md says:

- the radix tree of a stream is ours;
- of groups Redis counts what was read, and how many entries are ahead it reckons from that, which goes wrong once some
  were deleted or trimmed; before that both numbers are those of Redis, if it says them;
- of consumers it knows some more, without pending entries, and the idle time is of something else;
- the moments of deliveries are those of the clock there, unless that is set to the moments here.
"""
import io

from kinds import parsed

OWN = {"radix-tree-keys", "radix-tree-nodes", "entries-read", "lag", "idle", "seen-time"}
PROGRESS = ("entries-read", "lag")


def named(pairs):
    """An object that is told as names and values in turn, without what differs."""
    told = dict(zip(pairs[::2], pairs[1::2]))
    return {name: value for name, value in told.items() if name not in OWN}


def groups(told):
    """All groups, without how many consumers there are."""
    return [{name: value for name, value in named(group).items() if name != "consumers"} for group in told]


def consumers(told):
    """Those with pending entries."""
    return [one for one in map(named, told) if one["pending"]]


def with_rows(told, is_timed):
    """A group or a consumer of XINFO STREAM FULL. The moments of the deliveries stand before the counts."""
    one = named(told)
    if not is_timed:
        one["pending"] = [[*row[:-2], row[-1]] for row in one["pending"]]
    return one


def whole(told, is_timed):
    """A stream of XINFO STREAM FULL, with its groups and their consumers that have pending entries."""
    stream = named(told)
    stream["groups"] = [with_rows(group, is_timed) for group in stream["groups"]]
    for group in stream["groups"]:
        group["consumers"] = [one for one in (with_rows(one, is_timed) for one in group["consumers"]) if one["pel-count"]]
    return stream


def progress(told):
    """How far each group of XINFO STREAM FULL has come; nothing once an entry is gone."""
    stream = dict(zip(told[::2], told[1::2]))
    if stream["entries-added"] != stream["length"]:
        return []
    return [[dict(zip(group[::2], group[1::2]))[name] for name in PROGRESS] for group in stream["groups"]]


def agree_on_progress(ours, theirs):
    """Whether all numbers are the same that Redis says."""
    return all(there in (None, here) for mine, other in zip(progress(ours), progress(theirs))
               for here, there in zip(mine, other))


def agree(words, here, there, is_timed):
    """Whether both replies to XINFO tell the same, the moments of deliveries too if the clocks are one."""
    ours, theirs = (parsed(io.BytesIO(reply)) for reply in (here, there))
    what = words[1].upper()
    if what == "STREAM" and len(words) > 3:
        return whole(ours, is_timed) == whole(theirs, is_timed) and agree_on_progress(ours, theirs)
    if what == "STREAM":
        return named(ours) == named(theirs)
    if what == "GROUPS":
        return groups(ours) == groups(theirs)
    return consumers(ours) == consumers(theirs)


def is_told(words, *replies):
    """Whether these are replies to XINFO that tell something."""
    return words[0].upper() == "XINFO" and all(reply[:1] == b"*" for reply in replies)
