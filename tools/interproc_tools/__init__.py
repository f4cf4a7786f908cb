"""What the tools beside the analyser share: the program, its words, a source's tokens, and a report."""
