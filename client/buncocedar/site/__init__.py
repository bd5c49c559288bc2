"""A page that searches by itself: `compacted` makes its index, `documents` says what answers are, `folder` writes it, `main` is the command."""
