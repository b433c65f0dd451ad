#!/bin/sh
# How long `Namer::reset` takes for 1,000, 10,000 and 60,000 entry points: it is to grow with their
# number and no faster. Run it at the top of the repository; it works on a copy.
set -- times/entry_points
. bench/on_a_copy.sh
rt try
