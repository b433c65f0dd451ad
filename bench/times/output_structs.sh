#!/bin/sh
# How long `Namer::reset` takes for 1,000, 10,000 and 40,000 structs without a name beside as many entry points
# that return them: it is to grow with their number and no faster. Run it at the top of the repository; it works
# on a copy.
set -- times/output_structs
. bench/on_a_copy.sh
rt try
