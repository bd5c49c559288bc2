"""Shares an index between two clients, by a server that is started for them: shared.py INDEX"""

import subprocess
import sys

from buncocedar import Index

path = sys.argv[1]
server = subprocess.Popen([sys.executable, "-m", "buncocedar", "serve", path, "--create"], stderr=subprocess.PIPE, text=True)
# It says where it listens, once it does.
server.stderr.readline()
with Index(path) as one, Index(path) as other:
    one.add("note", "", "what one client adds")
    print("the other finds", list(other.search("adds")))
server.terminate()
print("the server ended with", server.wait())
