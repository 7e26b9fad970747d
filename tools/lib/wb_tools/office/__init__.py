"""An office as its operator keeps it: its settings, its files with their backups, and its service."""
