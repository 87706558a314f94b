"""The tables of a catalogue, and how an older version becomes this one. Queries are the same for SQLite and PostgreSQL.

`find` takes no look-up for each hit: `by_name` and `by_ending` have names with the whole path of their folder. In SQLite they
are tables that are their own index. In PostgreSQL, where a table and its index would be two copies, they are views over
indexes that have all that is asked for; only the folder's path is looked up. The third version had an index of text inside names of
its own. The fourth has where users have put images away. The fifth has the engines' indexes of such text: `name_text` of FTS5 over
`known_name`, which has each name once, or more often where its files were gone meanwhile; an index by pg_trgm. The sixth has what was
deleted at its source. The seventh has files whose bytes are another's, which it finds by size and the first bytes of the SHA-256; their
names have ids below 0. The eighth has bundles: each is a file whose name begins with a slash, and that no table of names has; its members
are rows of `same` with the byte of it with which they begin. The ninth has what copies of open volumes had when they were last looked at.
"""

from __future__ import annotations

from typing import List

CATALOGUE_VERSION = 9
"""The version of the tables that this program reads and writes."""

COMMITS = 1 << 18
"""More than a volume has commits: 450,000 blocks hold at most 224,868 of two blocks each."""

NUMBERS = 10**9 - 1
"""The greatest number of a volume."""

FIRST_TABLES = """
CREATE TABLE archive (id {text} PRIMARY KEY, version INTEGER NOT NULL, label {text} NOT NULL, next_volume BIGINT NOT NULL);
CREATE TABLE holder (id {text} PRIMARY KEY, host {text} NOT NULL, place {text} NOT NULL);
CREATE TABLE volume (
    number BIGINT PRIMARY KEY, label {text} NOT NULL, state {text} NOT NULL, holder {text} NOT NULL, capacity BIGINT NOT NULL,
    formatted BIGINT NOT NULL, closed BIGINT, last_commit BIGINT NOT NULL, files BIGINT NOT NULL, nodes BIGINT NOT NULL,
    blocks BIGINT NOT NULL, clients BIGINT NOT NULL, manifest BIGINT NOT NULL, fullest_folder BIGINT NOT NULL, length BIGINT, sha256 {bytes},
    checked BIGINT, data_checked BIGINT, trouble {text}
);
CREATE TABLE copy (
    volume BIGINT NOT NULL, remote {text} NOT NULL, made BIGINT NOT NULL, checked BIGINT NOT NULL, trouble {text},
    PRIMARY KEY (volume, remote)
);
CREATE TABLE folder (id {serial}, path {text} NOT NULL UNIQUE);
CREATE TABLE file (
    id BIGINT PRIMARY KEY, folder BIGINT NOT NULL, name {text} NOT NULL, tail {text} NOT NULL, size BIGINT NOT NULL,
    moment BIGINT NOT NULL, sha256 {bytes} NOT NULL, added BIGINT NOT NULL, first_part BIGINT, part_count BIGINT
);
CREATE INDEX file_path ON file (folder, name);
CREATE INDEX file_name ON file (name, folder);
CREATE INDEX file_tail ON file (tail);
CREATE INDEX file_parts ON file (part_count) WHERE part_count IS NOT NULL;
CREATE TABLE path_lock (path {text} PRIMARY KEY);
CREATE TABLE volume_lock (volume BIGINT PRIMARY KEY)
"""

SECOND_SQLITE = """
ALTER TABLE file RENAME TO file_1;
CREATE TABLE file (
    folder BIGINT NOT NULL, id BIGINT NOT NULL, name TEXT NOT NULL, size BIGINT NOT NULL, moment BIGINT NOT NULL, sha256 BLOB NOT NULL,
    added BIGINT NOT NULL, first_part BIGINT, part_count BIGINT, PRIMARY KEY (folder, id)
) WITHOUT ROWID;
CREATE TABLE by_name (name TEXT NOT NULL, path TEXT NOT NULL, id BIGINT NOT NULL, part_count BIGINT, PRIMARY KEY (name, path, id)) WITHOUT ROWID;
CREATE TABLE by_ending (ending TEXT NOT NULL, path TEXT NOT NULL, id BIGINT NOT NULL, part_count BIGINT, PRIMARY KEY (ending, path, id)) WITHOUT ROWID;
INSERT INTO file SELECT folder, id, name, size, moment, sha256, added, first_part, part_count FROM file_1 ORDER BY folder, id;
INSERT INTO by_name SELECT name, path, file_1.id, part_count FROM file_1 JOIN folder ON folder.id = folder ORDER BY 1, 2, 3;
INSERT INTO by_ending SELECT reverse(name), path, file_1.id, part_count FROM file_1 JOIN folder ON folder.id = folder ORDER BY 1, 2, 3;
DROP TABLE file_1;
CREATE UNIQUE INDEX file_id ON file (id);
CREATE INDEX file_parts ON file (id) WHERE part_count IS NOT NULL
"""

SECOND_POSTGRESQL = """
DROP INDEX file_path, file_name, file_tail;
ALTER TABLE file DROP COLUMN tail;
ALTER TABLE file ADD COLUMN ending TEXT COLLATE "C" NOT NULL GENERATED ALWAYS AS (reverse(name)) STORED;
CREATE INDEX file_folder ON file (folder);
CREATE INDEX file_name ON file (name, folder, id, part_count);
CREATE INDEX file_ending ON file (ending, folder, id, part_count);
CREATE VIEW by_name AS SELECT name, path, file.id, part_count FROM file JOIN folder ON folder.id = folder;
CREATE VIEW by_ending AS SELECT ending, path, file.id, part_count FROM file JOIN folder ON folder.id = folder
"""

THIRD = """
CREATE TABLE name_index (id BIGINT PRIMARY KEY, segments BIGINT NOT NULL);
INSERT INTO name_index (id, segments) VALUES (1, 0);
CREATE TABLE recent_names (id {serial}, number BIGINT NOT NULL, names {text} NOT NULL);
CREATE TABLE indexed_names (block BIGINT PRIMARY KEY, names {bytes} NOT NULL);
CREATE TABLE trigram (letters {text} NOT NULL, segment BIGINT NOT NULL, entries {bytes} NOT NULL, PRIMARY KEY (letters, segment))
"""

FOURTH = """
CREATE TABLE put_away (volume BIGINT PRIMARY KEY, place {text} NOT NULL, since BIGINT NOT NULL)
"""

FIFTH = """
DROP TABLE name_index;
DROP TABLE recent_names;
DROP TABLE indexed_names;
DROP TABLE trigram
"""

FIFTH_SQLITE = f"""
{FIFTH.strip()};
CREATE TABLE known_name (id INTEGER PRIMARY KEY, name TEXT NOT NULL);
CREATE VIRTUAL TABLE name_text USING fts5 (
    name, content = 'known_name', content_rowid = 'id', detail = none, tokenize = 'trigram case_sensitive 1'
);
CREATE TRIGGER known_name_text AFTER INSERT ON known_name BEGIN INSERT INTO name_text (rowid, name) VALUES (new.id, new.name); END;
INSERT INTO known_name (name) SELECT DISTINCT name FROM by_name
"""

FIFTH_POSTGRESQL = f"""
{FIFTH.strip()};
CREATE EXTENSION IF NOT EXISTS pg_trgm;
CREATE INDEX file_trigrams ON file USING gin (name gin_trgm_ops)
"""

SIXTH = """
CREATE TABLE gone (
    folder BIGINT NOT NULL, name {text} NOT NULL, volume BIGINT NOT NULL, commit_number BIGINT NOT NULL, since BIGINT NOT NULL,
    back INTEGER NOT NULL, PRIMARY KEY (folder, name, volume, commit_number)
);
CREATE INDEX gone_volume ON gone (volume)
"""

SEVENTH = """
CREATE TABLE same (
    folder BIGINT NOT NULL, name {text} NOT NULL, volume BIGINT NOT NULL, commit_number BIGINT NOT NULL, size BIGINT NOT NULL,
    moment BIGINT NOT NULL, sha256 {bytes} NOT NULL, added BIGINT NOT NULL, target BIGINT NOT NULL, target_path {text} NOT NULL,
    first_part BIGINT, part_count BIGINT, PRIMARY KEY (folder, name, volume, commit_number, target)
)
"""

SEVENTH_INDEXES = """;
CREATE INDEX same_volume ON same (volume);
CREATE INDEX same_target ON same (target);
CREATE INDEX file_content ON file (size, substr(sha256, 1, 8))
"""

SEVENTH_SQLITE = f"{SEVENTH.rstrip()} WITHOUT ROWID{SEVENTH_INDEXES}"

SEVENTH_POSTGRESQL = f"""
{SEVENTH.strip()}{SEVENTH_INDEXES.rstrip()};
ALTER TABLE same ADD COLUMN ending TEXT COLLATE "C" NOT NULL GENERATED ALWAYS AS (reverse(name)) STORED;
CREATE INDEX same_name ON same (name, folder);
CREATE INDEX same_ending ON same (ending, folder);
CREATE INDEX same_trigrams ON same USING gin (name gin_trgm_ops);
CREATE OR REPLACE VIEW by_name AS SELECT name, path, file.id, part_count FROM file JOIN folder ON folder.id = folder
UNION ALL SELECT name, path, -(volume * {COMMITS} + commit_number), part_count * 0 FROM same JOIN folder ON folder.id = folder;
CREATE OR REPLACE VIEW by_ending AS SELECT ending, path, file.id, part_count FROM file JOIN folder ON folder.id = folder
UNION ALL SELECT ending, path, -(volume * {COMMITS} + commit_number), part_count * 0 FROM same JOIN folder ON folder.id = folder
"""

LISTED = "substr(file.name, 1, 1) <> '/'"
"""What the row of a file is that people see: it is no bundle."""

EIGHTH = """
ALTER TABLE same ADD COLUMN first_byte BIGINT;
CREATE INDEX same_content ON same (size, substr(sha256, 1, 8)) WHERE first_byte IS NOT NULL
"""

EIGHTH_POSTGRESQL = f"""
{EIGHTH.strip()};
CREATE OR REPLACE VIEW by_name AS SELECT name, path, file.id, part_count FROM file JOIN folder ON folder.id = folder WHERE {LISTED}
UNION ALL SELECT name, path, -(volume * {COMMITS} + commit_number), part_count * 0 FROM same JOIN folder ON folder.id = folder;
CREATE OR REPLACE VIEW by_ending AS SELECT ending, path, file.id, part_count FROM file JOIN folder ON folder.id = folder WHERE {LISTED}
UNION ALL SELECT ending, path, -(volume * {COMMITS} + commit_number), part_count * 0 FROM same JOIN folder ON folder.id = folder
"""

NINTH = """
CREATE TABLE open_copy (
    volume BIGINT NOT NULL, remote {text} NOT NULL, last_commit BIGINT NOT NULL, length BIGINT NOT NULL, seen BIGINT NOT NULL, PRIMARY KEY (volume, remote)
)
"""

MIGRATIONS = {
    "sqlite": [FIRST_TABLES, SECOND_SQLITE, THIRD.rstrip() + " WITHOUT ROWID", FOURTH, FIFTH_SQLITE, SIXTH, SEVENTH_SQLITE, EIGHTH, NINTH],
    "postgresql": [FIRST_TABLES, SECOND_POSTGRESQL, THIRD, FOURTH, FIFTH_POSTGRESQL, SIXTH, SEVENTH_POSTGRESQL, EIGHTH_POSTGRESQL, NINTH],
}
"""The statements of an engine that make version n + 1 of version n, from the empty one on."""


def upgrade_statements(engine: str, version: int, text: str, blob: str, serial: str) -> List[str]:
    """What makes this program's tables of those of a version, by the words that an engine has for its types."""
    whole = ";\n".join(part.strip() for part in MIGRATIONS[engine][version:])
    return [statement for statement in whole.format(text=text, bytes=blob, serial=serial).split(";\n") if statement.strip()]
