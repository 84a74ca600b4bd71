"""What the tools share. They need Python 3.9 or later and its standard library. Nothing here is proved: where it
matters, the program is the judge.

    table     data types, timers and sizes of the program, made from its sources by tools/make_table
    texts     what the tools say as other programs do, made from docs/tables by tools/make_texts
    wire      frames, identifiers, tails, transfers, and what transfers say
    logs      recorded logs: logs.read(path).frames, each a Record with line, stamp, interface and frame; the names of
              those of tools/record
    stores    stores of members: stores.read(path), a Store; Damaged where no member opens it
    report    rows of schedules and lines of reports: read_row, read_line, and a type for each kind of line
    runs      what a run did: runs.read(schedule, report, window), with lanes, arrows and marks
    page      the page of a run, which tools/view writes
    follow    from a log to the run that it shows: recording, partner, member, cluster, plans, search, story
    buses     a bus that is there now: buses.open_bus(word), with receive and send; one with moments, and one member
              where it sends
    scene     what is heard on a bus, and the events of it; causes: why devices get no node ID; health: how a cluster
              is, for people, programs and alarms; asking: asks for an ID
    vehicle   the settings of the units: the members of a cluster, and what of it runs on this machine
    timing    how late frames of a log are; machine: what a machine tells of its disks, processes and interfaces
    notify    what a service tells systemd; journal: entries of its journal, with fields
    words     the command lines of the tools: their parser, their exit codes, how they end, and the buses, logs and
              stores that they are given

Each module says at its head how it is called. A tool that stands alone is made of its script and of this package by
tools/make_standalone.
"""
