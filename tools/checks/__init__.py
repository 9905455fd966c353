"""What `tools/check` runs, in the order in which it is found: transcripts, rows of files, and what is made."""
