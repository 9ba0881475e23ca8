"""The modules of the commands in `tools/`: `class`, `keep`, `shards`, `users` and `watch`."""

__version__ = "2.0.0"
