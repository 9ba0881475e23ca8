"""A soak of the program by random users and random bytes, for bench/soak."""
