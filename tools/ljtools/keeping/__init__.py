"""A kept server: what its users do is in a store, and if the server ends, it is started again from the store."""
