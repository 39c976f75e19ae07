#!/usr/bin/env python3
"""Drives a router: a prune that another neighbour overrides, and one that takes effect.

PYTHONPATH=python PIMTREE=out/pimtree python3 examples/session.py
"""
from pimtree import Entry, GroupSet, Hello, JoinPrune, Session

OWN, RP, GROUP = "10.0.0.1", "10.9.9.9", "239.1.1.1"
STAR = (Entry("star", RP),)
JOIN = JoinPrune(OWN, holdtime=210, sets=[GroupSet(GROUP, joined=STAR)])
PRUNE = JoinPrune(OWN, holdtime=210, sets=[GroupSet(GROUP, pruned=STAR)])

with Session() as router:
    router.port(OWN)
    router.rp("224.0.0.0/4", RP)
    router.start()
    for neighbour in ("10.0.0.2", "10.0.0.3"):
        print(neighbour, router.from_(0, neighbour, Hello(holdtime=105)))
    router.from_(0, "10.0.0.2", JOIN)
    router.from_(0, "10.0.0.2", PRUNE)
    router.run(1_000)
    print(router.state())
    router.from_(0, "10.0.0.3", JOIN)
    print(router.run(10_000), router.wants())
    router.from_(0, "10.0.0.3", PRUNE)
    print(router.run(20_000), router.wants())
