"""The page to search on: `questions` asks the index, `answers` are what a page shows, `pages` writes HTML, `server` serves it."""
