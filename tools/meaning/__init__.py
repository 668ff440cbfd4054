"""What a contract or a theorem means: the definitions that it reaches, by name and scope. Used by tools/cone and tools/spec_book."""
