"""How most schedules begin."""

USER = b"user A aaaaaaaaaaaaaaaaaaaaaaaaaaaaaaaa 4 100 4\n"
GREETING = b"hello 1 A aaaaaaaaaaaaaaaaaaaaaaaaaaaaaaaa\nenter 1\n"

# A task from its post until its result is taken in.
STEP = b"post %d\ntake 1 0\ncompute 1\ngive 1\nfetch %d 0\nturn %d\n"
