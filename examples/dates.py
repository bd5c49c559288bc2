"""Finds documents by their day, which stands in the text as a number: dates.py INDEX"""

import datetime
import sys

from buncocedar import Index, value_range

DAYS = [datetime.date(2023, 12, 31), datetime.date(2024, 1, 1), datetime.date(2024, 2, 29), datetime.date(2025, 1, 1)]

with Index(sys.argv[1], create=True) as index:
    for day in DAYS:
        index.add(f"diary-{day}", f"Diary of {day}", f"{day:%Y%m%d} nothing happened")
    query = value_range(datetime.date(2024, 1, 1), datetime.date(2024, 12, 31))
    print(query)
    for _, name in index.search(f"happened {query}"):
        print(name)
