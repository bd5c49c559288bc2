"""Shows the answers to a query page by page, as they were when it was asked: pages.py INDEX"""

import sys

from buncocedar import Index

with Index(sys.argv[1], create=True) as index:
    index.add_many((f"note-{number}", "", "a note on foxes") for number in range(1, 8))
    with index.cursor("fox*") as cursor:
        index.add("later", "", "a fox that no page shows")
        for number, page in enumerate(cursor.pages(3), 1):
            print(f"page {number}:", ", ".join(name for _, name in page.rows))
    best = index.top("fox*", 2)
    print(f"the best of {best.found}:", ", ".join(answer.name for answer in best.answers))
