"""What bounds the search of worlds.py, each by its name, with the reason: costs as those of worlds.txt, and counts. dev/lab tries
them: a change of one is to leave nothing false there."""

# Costs.
ONE = 2  # so much dearer than the cheapest an explanation may be that is told beside it: by one thing that happens on each network
CLOSE = 6  # a login is over where all worlds say so that aren't dearer by this: what nobody expects could keep it open
ODD = 8  # so much dearer ones are looked for where the next login begins oddly: what a forged frame costs may be the reason
WORSE = 12  # a world dearer by this than the best is dropped: two things that nobody expects don't make up for it
TOO_MUCH = 40  # the cost of five forged frames: nothing so dear is certain, so that from there the best worlds alone are followed

# Worlds.
EQUAL = 6  # of one state: what comes next is the same for all, and two of them are said, the others counted
MOST = 48  # of all at a frame: the time that a frame takes grows with it
BEST = 6  # of all above TOO_MUCH
ALONE = 2  # of all in a login over LONG: the best, and one besides

# Frames.
LONG = 200  # a login has seven, and some again; more is a loop
ENDLESS = 2000  # behind so many a login is told in parts, so that memory is bounded
AHEAD = 10  # taken before others that the capture has first: a whole login
BACK = 3  # held back at once: a frame, one that came twice, and one more
SEEN = 24  # remembered by a world: three logins
ALIKE = 12  # before and behind one, among which is looked for what it was before it was altered
BEGINS = 16  # begins of logins that a world remembers, until all worlds share one
