# rdflib as a peer: with_rdflib.py answers|times QUERIES; a line of QUERIES is a number, a site in N-Triples and a query, with tabs between.
# Prints the number and yes or no; or the number, nanoseconds of the quickest and of the middle one of many calls, and how many.
import sys
from time import thread_time_ns as now

import rdflib
from rdflib.plugins.sparql import prepareQuery

WARM, LONG_ENOUGH, FEWEST, MOST = 300_000_000, 500_000_000, 21, 2001


def ask(query, site):
    return site.query(query).askAnswer


def times(query, site):
    took, begun = [], now()
    while now() - begun < WARM:
        ask(query, site)
    begun = now()
    while len(took) < FEWEST or (len(took) < MOST and now() - begun < LONG_ENOUGH):
        start = now()
        ask(query, site)
        took.append(now() - start)
    took.sort()
    return "%d,%d,%d" % (took[0], took[len(took) // 2], len(took))


for line in open(sys.argv[2]):
    number, file, text = line.rstrip("\n").split("\t")
    site, query = rdflib.Graph().parse(file, format="nt"), prepareQuery(text)
    print("%s,%s" % (number, times(query, site) if sys.argv[1] == "times" else "yes" if ask(query, site) else "no"), flush=True)
