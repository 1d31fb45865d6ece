"""The designs of the gateway that can be played: two that are right, and first ones that aren't."""
from dataclasses import dataclass, replace


@dataclass(frozen=True)
class Rules:
    """How the gateway is built; as it stands here, the design that is checked."""
    cuts: bool = True                   # nothing of an earlier gateway comes to the store once a start reads it
    reads_all: bool = True              # a start reads all that is in the store
    fence: tuple = ()                   # the pools under whose numbers a start asks for nothing, in their order
    reads_behind_fence: bool = True
    bounds_stamps: bool = True          # the store takes no ask whose moment is a minute behind its own
    side_by_side: bool = True           # a move's copies and deletions are asked for together
    names_original: bool = True         # a copy names its original
    holds: bool = True                  # nobody else receives from the source of a move
    holds_waiting: bool = True          # nor does a request that waited for a client number
    ends_again: bool = True             # a move's deletion that did nothing is asked for again by the last receipt
    refuses_stream: bool = True         # a store without room takes nothing more of the stream
    settles_in_order: bool = True       # answers count in the order of the asks
    has_deadline: bool = True           # a request that its client gave up isn't asked for
    exact: bool = True                  # a sweep receives only messages that it deletes
    parts_first: bool = True            # the parts of a large body stand before the line that names them
    frees_behind: bool = True           # they are removed behind the answer to the deletion
    delays_in_store: bool = True
    reads_names: bool = True            # which numbers are free is found in the store
    marks_copies: bool = True           # a copy names its original's queue by the mark that each creation draws
    marks_handles: bool = True          # so does a receipt handle
    marks_ids: bool = True              # a MessageId is made of it
    hashes_ids: bool = True             # a MessageId is a function of queue and number
    asks_when_handed: bool = True       # set aside is only a message that was handed out since the target is there


RIGHT = Rules()
AWAY = Rules(cuts=False, fence=("ordinary", "end", "begin"))
DESIGNS = {
    "beside": (RIGHT, "the gateway beside the store, all that it knows in the store"),
    "elsewhere": (AWAY, "the gateway elsewhere, with a fence against what an earlier one asked"),
    "committed-alone": (replace(RIGHT, reads_all=False), "a start reads what was answered, and not all that the store has taken"),
    "no-fence": (replace(AWAY, fence=()), "a gateway elsewhere begins without a fence"),
    "read-before-fence": (replace(AWAY, reads_behind_fence=False), "a gateway elsewhere reads the store before its fence"),
    "fence-turned": (replace(AWAY, fence=("begin", "end", "ordinary")), "the fence in the other order"),
    "move-apart": (replace(RIGHT, side_by_side=False, names_original=False),
                   "the original is deleted when the copy was answered, and a deduplication id alone protects the copy"),
    "copy-unnamed": (replace(RIGHT, names_original=False), "a copy doesn't say of what it is one"),
    "no-hold": (replace(RIGHT, holds=False, ends_again=False), "others receive from the source while a message is moved"),
    "hold-tested-once": (replace(RIGHT, holds_waiting=False, ends_again=False), "a request tests the hold, and then waits for a client number"),
    "refused-alone": (replace(RIGHT, refuses_stream=False), "a store without room refuses one send and takes what is behind it"),
    "unordered": (replace(RIGHT, settles_in_order=False), "answers count as they come"),
    "no-deadline": (replace(RIGHT, has_deadline=False), "a request is asked for however long ago it came"),
    "inexact": (replace(RIGHT, exact=False), "a sweep receives ten and gives back what isn't old; its handings are in memory"),
    "line-first": (replace(RIGHT, parts_first=False), "the line of a large body is sent before the parts"),
    "freed-beside": (replace(RIGHT, frees_behind=False), "the parts are removed beside the deletion, not behind its answer"),
    "delays-in-memory": (replace(RIGHT, delays_in_store=False), "the gateway's memory has the delayed messages"),
    "numbers-in-memory": (replace(RIGHT, reads_names=False), "the numbers of queues are counted in memory"),
    "copy-by-name": (replace(RIGHT, marks_copies=False), "a copy names its original by a number that is used again"),
    "handle-by-name": (replace(RIGHT, marks_handles=False), "a receipt handle names its queue by a number that is used again"),
    "id-by-name": (replace(RIGHT, marks_ids=False), "a MessageId is made of a number that is used again"),
    "ids-in-memory": (replace(RIGHT, hashes_ids=False), "MessageIds are random and kept in memory"),
    "handed-whenever": (replace(RIGHT, asks_when_handed=False), "a start moves each message that was handed out too often"),
}
