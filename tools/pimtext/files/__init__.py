"""What a tool is given: scenarios and the files that make one, captures, and saved states."""
