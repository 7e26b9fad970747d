"""The index of a journal, a database of sqlite3: what each line moved, by package and architecture, and what follows
from it. `tables.py` has its tables, `writing.py` enters the lines, `reading.py` reads a journal on from where the index
ends, and `asking.py` asks it."""

# The index follows from the journal alone: it can be removed at any time, and a table of another form is read again and
# not brought over. How far a journal was read is known by its first and its last bytes and not by its name, since
# logrotate renames, copies and compresses. A merge whose line names nothing, a gap and a late begin are kept as doubts,
# each of the states into which it may have led: the last line that names a package would make its time a guess.
