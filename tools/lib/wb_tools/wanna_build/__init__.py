"""What the command wanna-build is made of: its words, its settings, requests to an office, reports, and what it prints
and keeps."""
