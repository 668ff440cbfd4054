"""What tools/show and tools/runfile are made of, one subject a file; program.py and runfile.py have the two commands."""
