-- Each line makes a file that holds no saved state of node 1 of 3 with the domain desk.example from one that does; after
-- the bar stands what is printed of whose it is.
UPDATE node SET id = 2|it is of version 2, node 2 of 3, domain desk.example
UPDATE node SET n = 5|it is of version 2, node 1 of 5, domain desk.example
UPDATE node SET id = 257, n = 9007199254740992|it is of version 2, node 257 of 9007199254740992, domain desk.example
UPDATE node SET id = 0, n = 5, domain = 'other.example'|it is of version 2, node 0 of 5, domain other.example
UPDATE node SET domain = 'other.example'|it is of version 2, node 1 of 3, domain other.example, so the domain is another, or the rows are no saved state
UPDATE node SET version = 1, id = 2; DROP TABLE client|it is of version 1, node 2 of 3, domain desk.example
UPDATE node SET version = 3, n = 5|it is of version 3, node 1 of 5, domain desk.example
UPDATE node SET version = 3|it is of version 3, node 1 of 3, domain desk.example, so the domain is another, or the rows are no saved state
DELETE FROM entry WHERE place = 1|it is of version 2, node 1 of 3, domain desk.example, so the domain is another, or the rows are no saved state
UPDATE node SET view_no = 'five'|it is of version 2, node 1 of 3, domain desk.example, so the domain is another, or the rows are no saved state
DROP TABLE entry; UPDATE node SET id = 2|it is of version 2, node 2 of 3, domain desk.example
DELETE FROM node|it names no node
DROP TABLE node|it names no node
UPDATE node SET id = -1|it names no node
UPDATE node SET n = 'three'|it names no node
UPDATE node SET domain = ''|it names no node
UPDATE node SET domain = 'DESK.example'|it names no node
UPDATE node SET domain = replace('desk.example_desk: all is well', '_', char(10))|it names no node
UPDATE node SET domain = x'6465736b2e6578616d706c65'|it names no node
DROP TABLE node; CREATE TABLE node (name TEXT); INSERT INTO node VALUES ('pump')|it names no node
ALTER TABLE node RENAME COLUMN id TO number|it names no node
DROP TABLE node; CREATE VIEW node AS WITH RECURSIVE more(slot) AS (SELECT 1 UNION ALL SELECT slot + 1 FROM more) SELECT slot, 2 AS version, 2 AS id, 3 AS n, 'desk.example' AS domain, 0 AS view_no, 0 AS normal_no, 0 AS commit_no FROM more|it names no node
CREATE TABLE other (slot INTEGER PRIMARY KEY, version INTEGER NOT NULL, id INTEGER NOT NULL, n INTEGER NOT NULL, domain TEXT NOT NULL, view_no INTEGER NOT NULL, normal_no INTEGER NOT NULL, commit_no INTEGER NOT NULL); INSERT INTO other SELECT * FROM node; DROP TABLE node; ALTER TABLE other RENAME TO node|it names no node
