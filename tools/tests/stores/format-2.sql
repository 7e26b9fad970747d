-- An office of format 2 after four accepted commands: an architecture, its builder, a source package, which the builder was handed.
CREATE TABLE office(id INTEGER PRIMARY KEY CHECK(id = 1), format INTEGER NOT NULL, handed INTEGER
  NOT NULL, accepted INTEGER NOT NULL) STRICT;
CREATE TABLE arch(name TEXT NOT NULL PRIMARY KEY, os TEXT NOT NULL, cpu TEXT NOT NULL) STRICT;
CREATE TABLE builder(name TEXT NOT NULL, arch TEXT NOT NULL REFERENCES arch(name), PRIMARY KEY(name,
  arch)) STRICT;
CREATE TABLE source_record(arch TEXT NOT NULL REFERENCES arch(name), source TEXT NOT NULL, state
  INTEGER NOT NULL, version TEXT NOT NULL, priority TEXT NOT NULL, section TEXT NOT NULL, earlier
  INTEGER NOT NULL, number INTEGER NOT NULL, holder TEXT, take INTEGER, waits TEXT NOT NULL, depends
  TEXT, note TEXT NOT NULL, message TEXT NOT NULL, build_priority INTEGER NOT NULL, rank INTEGER NOT
  NULL, PRIMARY KEY(arch, source)) STRICT;
CREATE INDEX record_order ON source_record(arch, state, rank, source);
CREATE INDEX record_take ON source_record(take);
CREATE TABLE scratch_source(seq INTEGER PRIMARY KEY, name TEXT NOT NULL, version TEXT NOT NULL,
  architecture TEXT NOT NULL, extra INTEGER NOT NULL, priority TEXT NOT NULL, section TEXT NOT NULL,
  depends TEXT NOT NULL, depends_arch TEXT NOT NULL) STRICT;
CREATE INDEX source_name ON scratch_source(name, seq);
CREATE TABLE scratch_binary(seq INTEGER PRIMARY KEY, name TEXT NOT NULL, version TEXT NOT NULL,
  source TEXT NOT NULL, source_version TEXT NOT NULL, number INTEGER NOT NULL, own INTEGER NOT NULL)
  STRICT;
CREATE INDEX binary_source ON scratch_binary(source, seq);
CREATE INDEX binary_name ON scratch_binary(name, seq);
INSERT INTO office VALUES(1, 2, 1, 4);
INSERT INTO arch VALUES('amd64', 'linux', 'amd64');
INSERT INTO builder VALUES('b1', 'amd64');
INSERT INTO source_record VALUES('amd64', 'hello', 1, '1.0', 'optional', 'devel', 0, 0, 'b1', 1, '', '', '', '', 0, 348263);
