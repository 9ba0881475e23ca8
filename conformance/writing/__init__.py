"""What the stored streams are made of, for conformance/make: each file gives the streams of its subject."""
