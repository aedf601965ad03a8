"""Whether a plain set explains what was seen of a service: an independent search, key by key, life by life.

Calls on different keys don't touch each other, so orders of single keys, each in keeping with the order in time, are enough."""

from __future__ import annotations

from functools import lru_cache
from typing import Dict, FrozenSet, List, Optional, Set

from trials.program import Key
from trials.verdicts import Seen, Story, after

# Later than any line.
NEVER = 1 << 62


def story_of(told: str) -> Story:
    """The history that a rehearsal told."""
    story = Story()
    for line in told.splitlines():
        story.read(line.encode())
    return story


def is_key_explained(calls: List[Seen], key: Key, was_member: bool, is_member: Optional[bool]) -> bool:
    """Whether the calls on a key in one life, in an order in keeping with time, have their answers and lead from one state to the
    other; where the other isn't known, to any. A call that wasn't answered may have been done or not."""
    ends = [call.ended if call.answer and call.ended is not None else NEVER for call in calls]

    @lru_cache(maxsize=None)
    def leads_on(done: FrozenSet[int], holds: bool) -> bool:
        waiting = [place for place in range(len(calls)) if place not in done]
        if all(ends[place] == NEVER for place in waiting) and is_member in (None, holds):
            return True
        soonest = min((ends[place] for place in waiting), default=NEVER)
        for place in waiting:
            if calls[place].begun > soonest:
                continue
            members: Set[Key] = {key} if holds else set()
            told = after(calls[place], members)
            if calls[place].answer in (None, told) and leads_on(done | {place}, bool(members)):
                return True
        return False

    return leads_on(frozenset(), was_member)


def unexplained(story: Story) -> List[str]:
    """The keys that no order explains, and the lives."""
    found: Dict[int, Set[Key]] = {0: set()}
    found.update((opened.life, set(opened.keys)) for opened in story.opens)
    odd: List[str] = []
    for life, before in found.items():
        behind = found.get(life + 1)
        calls = [call for call in story.calls.values() if call.life == life and not call.is_refused]
        for key in {*before, *(behind or ()), *(call.key for call in calls)}:
            of_key = [call for call in calls if call.key == key]
            if not is_key_explained(of_key, key, key in before, None if behind is None else key in behind):
                odd.append(f"key {key} in life {life}")
    return odd
