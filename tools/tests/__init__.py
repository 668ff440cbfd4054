"""The tests of tools/show and tools/runfile, one subject a file; tools/test_show.py runs them all."""
