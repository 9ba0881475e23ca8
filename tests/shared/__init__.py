"""Code that the programs of tests/ and of bench/ share."""
