"""The commands that ask and look after an index, and their parts."""
