"""Adds three documents, and asks for them: add_and_search.py INDEX"""

import sys

from buncocedar import Index, QueryFault

with Index(sys.argv[1], create=True) as index:
    index.add("first", "Red Fox", "The quick red fox jumps over the lazy dog.")
    index.add_many([("second", "Blue Fox", "A fox in blue."), ("third", "Dogs", "Lazy dogs, all of them.")])
    for query in ("fox NOT red", '"lazy dog"', "dog*", "title:fox", "(fox"):
        try:
            names = [name for _, name in index.search(query)]
            print(query, "->", ", ".join(names))
        except QueryFault as fault:
            print(query, "-> fault at byte", fault.place, "of the query:", fault.cause)
