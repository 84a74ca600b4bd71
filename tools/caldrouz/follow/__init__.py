"""From a log of the bus to the run in which the members send exactly its frames. Not proved: `replay` takes it, or not.

A frame of a member has to be the next one that this member sends in the run, byte for byte; a frame of another node
becomes an `ext` row. What a log does not have is searched for:

- the moments of the openings, from the uptimes of each NodeStatus: a lower uptime shows that the member was stopped;
- how much later than a member's clock the log shows its frames, at each NodeStatus anew, so that a logging clock that
  drifts or jumps does no harm; jumps are said;
- what each receiver had received before it sent a frame: less or more of what was on the bus just before, or without
  one transfer that it lost;
- the words from which the waits of elections follow;
- how much a member had done when it stopped: which frames it had taken, and in the next one how many calls of its disk;
- frames of a member that came to the bus late, after it was opened; or frames before the log began, by a few seconds.

    recording.Recording(log, members)   the frames of a log by members and their spells
    partner.Partner(words)              `replay`, row by row
    member.Member                       what is known of a member of the run: its queue, counters and clock
    cluster.Cluster                     the run so far, and the rows that carry it on
    plans                               what may be tried for a frame, an opening or a stop
    prelude.bring(words, stores)        rows that come before: they bring the stores to what files have
    search.search(recording, words, before, progress)    the search, which takes plans back: a Found
    story.tell(log, recording, found)   what was found, in words
"""
