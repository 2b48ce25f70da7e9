-- Each line makes a file that holds no saved state of node 1 of 3 with the domain desk.example from one that does.
DROP TABLE entry
DROP TABLE node
DELETE FROM node
DROP TABLE client
DROP TABLE node; DROP TABLE entry
DROP TABLE entry; DROP TABLE client
UPDATE node SET version = 1
UPDATE node SET version = 1; DROP TABLE client; UPDATE node SET id = 2
UPDATE node SET version = 1; DROP TABLE client; UPDATE node SET n = 5
UPDATE node SET version = 1; DROP TABLE client; UPDATE node SET domain = 'other.example'
UPDATE node SET version = 1; DROP TABLE client; DELETE FROM entry WHERE place = 1
UPDATE node SET version = 1; DROP TABLE client; UPDATE entry SET body = x'0f0000000069a42a400245313675726e3a656d657267656e63793a7569643a696e636964656e7469643a3030303030303030303030323a6465736b2e6578616d706c65' WHERE place = 2
UPDATE node SET version = 1; DROP TABLE client; UPDATE entry SET body = x'100000000069a42a40024531' WHERE place = 2
UPDATE node SET version = 1; DROP TABLE client; UPDATE node SET commit_no = 3
UPDATE node SET version = 1; DROP TABLE client; UPDATE entry SET place = 3 WHERE place = 2
UPDATE node SET version = 1; DROP TABLE client; UPDATE node SET domain = 'DESK.example'
UPDATE node SET version = 1; DROP TABLE client; CREATE TABLE Client (name TEXT)
UPDATE node SET version = 1; DELETE FROM client
UPDATE node SET version = 3
UPDATE node SET version = 3; DROP TABLE client
DELETE FROM client WHERE client = 7
DELETE FROM client
INSERT INTO client VALUES (8, 1, 2)
UPDATE client SET client = 8 WHERE client = 7
UPDATE client SET number = 2 WHERE client = 7
UPDATE client SET number = 'one' WHERE client = 7
UPDATE client SET place = 2 WHERE client = 7
UPDATE client SET place = 1 WHERE client = 9
UPDATE client SET place = 'two' WHERE client = 9
UPDATE node SET id = 2
UPDATE node SET id = 257
UPDATE node SET n = 5
UPDATE node SET domain = 'other.example'
UPDATE node SET domain = 'DESK.example'
UPDATE node SET domain = x'6465736b2e6578616d706c65'
UPDATE node SET view_no = 1000000000001
UPDATE node SET view_no = 2
UPDATE node SET view_no = 'five'
UPDATE node SET normal_no = -1
UPDATE node SET commit_no = 3
UPDATE node SET commit_no = -1
UPDATE node SET commit_no = 0.5
UPDATE entry SET place = 3 WHERE place = 2
UPDATE entry SET place = 0 WHERE place = 1
DELETE FROM entry WHERE place = 1
DELETE FROM entry
UPDATE entry SET client = 0 WHERE place = 1
UPDATE entry SET client = -1 WHERE place = 2
UPDATE entry SET client = 9007199254740992 WHERE place = 1
UPDATE entry SET client = 'seven' WHERE place = 1
UPDATE entry SET number = 0 WHERE place = 2
UPDATE entry SET number = -1 WHERE place = 2
UPDATE entry SET number = 'one' WHERE place = 2
UPDATE entry SET body = x'' WHERE place = 2
UPDATE entry SET body = x'00' WHERE place = 2
UPDATE entry SET body = x'0f0000000069a42a40024531' WHERE place = 2
UPDATE entry SET body = CAST(body || x'00' AS BLOB) WHERE place = 2
UPDATE entry SET body = 'note' WHERE place = 2
UPDATE entry SET body = zeroblob(1025) WHERE place = 2
WITH RECURSIVE more(p) AS (SELECT 3 UNION ALL SELECT p + 1 FROM more WHERE p < 65537) INSERT INTO entry SELECT p, 9, p, body FROM more, entry WHERE place = 2
ALTER TABLE entry RENAME COLUMN body TO command
ALTER TABLE node DROP COLUMN commit_no
ALTER TABLE entry ADD COLUMN origin INTEGER
DROP TABLE entry; CREATE TABLE entry (place INTEGER PRIMARY KEY, client INTEGER NOT NULL, number INTEGER NOT NULL)
DROP TABLE entry; CREATE TABLE entry (place INTEGER PRIMARY KEY, client INTEGER NOT NULL, number INTEGER NOT NULL, body TEXT NOT NULL)
DROP TABLE entry; CREATE TABLE entry (place INTEGER NOT NULL, client INTEGER NOT NULL, number INTEGER NOT NULL, body BLOB NOT NULL)
DROP TABLE entry; CREATE TABLE entry (place INTEGER PRIMARY KEY, number INTEGER NOT NULL, client INTEGER NOT NULL, body BLOB NOT NULL)
DROP TABLE entry; CREATE TABLE entry (place INTEGER PRIMARY KEY, client INTEGER, number INTEGER NOT NULL, body BLOB NOT NULL)
DROP TABLE entry; CREATE TABLE entry (place INTEGER PRIMARY KEY, client INTEGER NOT NULL, number INTEGER NOT NULL, body BLOB NOT NULL UNIQUE)
ALTER TABLE entry RENAME TO other; ALTER TABLE other RENAME TO ENTRY
CREATE TABLE other (slot INTEGER PRIMARY KEY CHECK (1 = slot), version INTEGER NOT NULL, id INTEGER NOT NULL, n INTEGER NOT NULL, domain TEXT NOT NULL, view_no INTEGER NOT NULL, normal_no INTEGER NOT NULL, commit_no INTEGER NOT NULL); INSERT INTO other SELECT * FROM node; DROP TABLE node; ALTER TABLE other RENAME TO node
CREATE TABLE other (slot INTEGER PRIMARY KEY, version INTEGER NOT NULL, id INTEGER NOT NULL, n INTEGER NOT NULL, domain TEXT NOT NULL, view_no INTEGER NOT NULL, normal_no INTEGER NOT NULL, commit_no INTEGER NOT NULL); INSERT INTO other SELECT * FROM node; DROP TABLE node; ALTER TABLE other RENAME TO node
CREATE TABLE other (slot INTEGER PRIMARY KEY CHECK (slot = 2), version INTEGER NOT NULL, id INTEGER NOT NULL, n INTEGER NOT NULL, domain TEXT NOT NULL, view_no INTEGER NOT NULL, normal_no INTEGER NOT NULL, commit_no INTEGER NOT NULL); INSERT INTO other SELECT 2, version, id, n, domain, view_no, normal_no, commit_no FROM node; DROP TABLE node; ALTER TABLE other RENAME TO node
DROP TABLE node; CREATE TABLE node (slot INTEGER PRIMARY KEY CHECK (slot = 1), version INTEGER NOT NULL)
CREATE TABLE other (slot INTEGER PRIMARY KEY CHECK (slot = 1), version INTEGER NOT NULL, id INTEGER NOT NULL, n INTEGER NOT NULL, domain TEXT NOT NULL, view_no INTEGER NOT NULL, normal_no INTEGER NOT NULL, commit_no INTEGER NOT NULL); INSERT INTO other SELECT * FROM node; DROP TABLE node; ALTER TABLE other RENAME TO NODE
ALTER TABLE entry RENAME COLUMN client TO Client
ALTER TABLE client RENAME COLUMN place TO latest
ALTER TABLE client ADD COLUMN origin INTEGER
DROP TABLE client; CREATE TABLE client (client INTEGER PRIMARY KEY, place INTEGER NOT NULL, number INTEGER NOT NULL); INSERT INTO client VALUES (7, 1, 1), (9, 2, 1)
DROP TABLE client; CREATE TABLE client (client INTEGER PRIMARY KEY, number INTEGER NOT NULL, place INTEGER); INSERT INTO client VALUES (7, 1, 1), (9, 1, 2)
ALTER TABLE client RENAME TO other; ALTER TABLE other RENAME TO Client
DROP TABLE node; DROP TABLE entry; DROP TABLE client; CREATE TABLE client (name TEXT)
