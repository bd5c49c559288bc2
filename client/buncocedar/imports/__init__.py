"""Imports: what brings mail archives, folders and package descriptions into an index, and knows again what it brought in."""
