"""Models: what an index file says and what the program answers, each read out of the documents, with nothing of the program's."""
