-- A log whose numbers fall: the row has the number at the last place, and not the greatest.
CREATE TABLE node (slot INTEGER PRIMARY KEY CHECK (slot = 1),
  version INTEGER NOT NULL, id INTEGER NOT NULL, n INTEGER NOT NULL,
  domain TEXT NOT NULL, view_no INTEGER NOT NULL,
  normal_no INTEGER NOT NULL, commit_no INTEGER NOT NULL);
CREATE TABLE entry (place INTEGER PRIMARY KEY, client INTEGER NOT NULL,
  number INTEGER NOT NULL, body BLOB NOT NULL);
INSERT INTO node VALUES (1, 1, 1, 3, 'desk.example', 0, 0, 0);
INSERT INTO entry VALUES (1, 7, 5, x'010000000069a42a40046669726509313220456c6d2053740000');
INSERT INTO entry VALUES (2, 7, 3, x'0a0000000069a42a40024531');
