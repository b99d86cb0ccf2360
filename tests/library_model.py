"""What each library call must hand back, for any state and any lent tables, foreign ones too.

Written from SCOPE, "The stack and the counts", "The order's numbers", "Refusal numbers", "Questions"
and "Strip". A caller may lend any stack table, so for these calls the stack method itself is the definition.
Tables are lists of 32-bit numbers. No list that is handed in is changed: each call returns the tables as they
must be afterwards. Each call returns its answer number first.
"""
import typing

from simulator import within_limits

BLOCK_SIZES = 8  # used lengths in a state


class State(typing.NamedTuple):
    """The opened order: its numbers, the references taken, and the used length of the stack for bmin, bmin + 1, .."""

    bmin: int = 0
    bmax: int = 0
    smax: int = 0
    ways: int = 0
    room: int = 0
    refs: int = 0
    taken: int = 0
    used: tuple = (0,) * BLOCK_SIZES


def open_(numbers, stack, counts):
    """Opens the order of six numbers: bmin, bmax, smax, ways, room, refs. Returns answer, state, stack, counts."""
    state = State(*numbers)
    answer = refused_order(state) or refused_stack(state, stack) or refused_counts(state, counts)
    if answer:
        return answer, State(), list(stack), list(counts)
    stack_need, counts_need = stack_needed(state), counts_needed(state)
    return 0, state, [0] * stack_need + stack[stack_need:], [0] * counts_need + counts[counts_need:]


def take(state, stack, counts, address):
    """Takes one reference. Returns answer, state, stack, counts."""
    answer = (
        refused_order(state)
        or refused_stack(state, stack)
        or refused_counts(state, counts)
        or refused_state(state)
        or refused_ceiling(state)
        or refused_room(state, stack, address)
        or refused_raise(state, stack, counts, address)
    )
    stack, counts = list(stack), list(counts)
    if answer:
        return answer, state, stack, counts
    used = list(state.used)
    for place in places_to_raise(state, stack, address):
        counts[place] += 1
    for b in block_sizes(state):
        block, blocks = address // 2**b, used_part(state, stack, b)
        if block in blocks:
            blocks.remove(block)  # the topmost one
        else:
            used[b - state.bmin] += 1
        start = (b - state.bmin) * state.room
        stack[start : start + used[b - state.bmin]] = [block] + blocks
    return 0, state._replace(taken=state.taken + 1, used=tuple(used)), stack, counts


def flush(state, stack):
    """Empties every stack of the order. Returns answer, state, stack."""
    answer = refused_order(state) or refused_stack(state, stack) or refused_state(state)
    stack = list(stack)
    if answer:
        return answer, state, stack
    used = list(state.used)
    for place in range(len(block_sizes(state))):
        start = place * state.room
        stack[start : start + used[place]] = [0] * used[place]
        used[place] = 0
    return 0, state._replace(used=tuple(used)), stack


def misses(state, counts, b, s, w):
    """The misses of (b, s, w). Returns answer, state, misses, counts."""
    answer = (
        refused_order(state)
        or refused_counts(state, counts)
        or refused_state(state)
        or refused_question(state, b, s, w)
        or refused_sum(state, counts, b, s, w)
    )
    missed = 0 if answer else state.taken - hits(state, counts, b, s, w)
    return answer, state, missed, list(counts)


def ratios(state, counts, b, s, w):
    """The ratios of (b, s, w). Returns answer, state, (miss ratio, traffic ratio), counts."""
    answer, state, missed, counts = misses(state, counts, b, s, w)
    if answer == 0 and state.taken == 0:
        answer = 9
    miss_ratio = 0.0 if answer else missed / state.taken  # one division, rounded once
    traffic_ratio = 0.0 if answer else 2**b * miss_ratio
    return answer, state, (miss_ratio, traffic_ratio), counts


def strip(addresses, b, s, filter_, output):
    """Strips a list of addresses. Returns answer, how many were kept, filter, output."""
    filter_, output = list(filter_), list(output)
    if not (2 <= b <= 12 and 0 <= s <= 14):
        return 1, 0, filter_, output
    if len(filter_) < 2**s:
        return 12, 0, filter_, output
    filter_[: 2**s] = [0] * 2**s
    kept, last_blocks = [], list(filter_)
    for address in addresses:
        block = address // 2**b
        if last_blocks[block % 2**s] != block + 1:
            last_blocks[block % 2**s] = block + 1
            kept.append(address)
    if len(output) < len(kept):
        return 13, 0, filter_, output
    return 0, len(kept), last_blocks, kept + output[len(kept) :]


# The refusals, one function for each; 0 where it is not given.


def refused_order(state):
    return 0 if within_limits(*state[:6]) else 1


def refused_stack(state, stack):
    return 2 if len(stack) < stack_needed(state) else 0


def refused_counts(state, counts):
    return 3 if len(counts) < counts_needed(state) else 0


def refused_state(state):
    too_long = any(state.used[b - state.bmin] > state.room for b in block_sizes(state))
    return 4 if too_long or state.taken > state.refs else 0


def refused_ceiling(state):
    return 5 if state.taken == state.refs else 0


def refused_room(state, stack, address):
    for b in block_sizes(state):
        blocks = used_part(state, stack, b)
        if address // 2**b not in blocks and len(blocks) == state.room:
            return 6
    return 0


def refused_raise(state, stack, counts, address):
    return 7 if any(counts[place] >= state.taken for place in places_to_raise(state, stack, address)) else 0


def refused_sum(state, counts, b, s, w):
    return 7 if hits(state, counts, b, s, w) > state.taken else 0


def refused_question(state, b, s, w):
    return 0 if state.bmin <= b <= state.bmax and 0 <= s <= state.smax and 1 <= w <= state.ways else 8


# The tables.


def block_sizes(state):
    return range(state.bmin, state.bmax + 1)


def stack_needed(state):
    return len(block_sizes(state)) * state.room


def counts_needed(state):
    return len(block_sizes(state)) * (state.smax + 1) * state.ways


def used_part(state, stack, b):
    """The used entries of the stack for b, top first."""
    start = (b - state.bmin) * state.room
    return stack[start : start + state.used[b - state.bmin]]


def place_of(state, b, s, d):
    """Where the count for (b, s, depth d) stands."""
    return ((b - state.bmin) * (state.smax + 1) + s) * state.ways + d


def places_to_raise(state, stack, address):
    """The places of the counts that this reference raises."""
    places = []
    for b in block_sizes(state):
        block, blocks = address // 2**b, used_part(state, stack, b)
        if block not in blocks:
            continue
        above = blocks[: blocks.index(block)]  # index gives the topmost one
        for s in range(state.smax + 1):
            depth = sum(other % 2**s == block % 2**s for other in above)
            if depth < state.ways:
                places.append(place_of(state, b, s, depth))
    return places


def hits(state, counts, b, s, w):
    """The counts at depths 0 to w - 1."""
    return sum(counts[place_of(state, b, s, d)] for d in range(w))
