-- No entry, so no row of a client.
CREATE TABLE node (slot INTEGER PRIMARY KEY CHECK (slot = 1),
  version INTEGER NOT NULL, id INTEGER NOT NULL, n INTEGER NOT NULL,
  domain TEXT NOT NULL, view_no INTEGER NOT NULL,
  normal_no INTEGER NOT NULL, commit_no INTEGER NOT NULL);
CREATE TABLE entry (place INTEGER PRIMARY KEY, client INTEGER NOT NULL,
  number INTEGER NOT NULL, body BLOB NOT NULL);
INSERT INTO node VALUES (1, 1, 1, 3, 'desk.example', 5, 0, 0);
