"""What tools/certificate is made of, one subject a file; program.py has the command."""
