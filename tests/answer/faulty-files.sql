-- Each line makes a file that can't be used from one with a saved state of node 1 of 3, and where it drops the three
-- tables first, from a new one too; after the bar stands why, as it is printed.
DROP TABLE node; DROP TABLE entry; DROP TABLE client; CREATE VIEW entry AS SELECT 1|can not be read or written, or a view, an index or a foreign key in it names node, entry or client
DROP TABLE node; DROP TABLE entry; DROP TABLE client; CREATE VIEW client AS SELECT 1|can not be read or written, or a view, an index or a foreign key in it names node, entry or client
DROP TABLE node; DROP TABLE entry; DROP TABLE client; CREATE VIEW Node AS SELECT 1|can not be read or written, or a view, an index or a foreign key in it names node, entry or client
DROP TABLE node; DROP TABLE entry; DROP TABLE client; CREATE TABLE shift (name TEXT); CREATE INDEX entry ON shift (name)|can not be read or written, or a view, an index or a foreign key in it names node, entry or client
DROP TABLE node; DROP TABLE entry; DROP TABLE client; CREATE TABLE note (slot INTEGER REFERENCES node (slot))|has a foreign key of the table note that names node, entry or client
DROP TABLE node; DROP TABLE entry; DROP TABLE client; CREATE TABLE note (place INTEGER REFERENCES entry (place))|has a foreign key of the table note that names node, entry or client
DROP TABLE node; DROP TABLE entry; DROP TABLE client; CREATE TABLE note (slot INTEGER REFERENCES Node (slot))|has a foreign key of the table note that names node, entry or client
CREATE TABLE note (place INTEGER REFERENCES entry (place))|has a foreign key of the table note that names node, entry or client
CREATE TABLE note (client INTEGER REFERENCES client (client))|has a foreign key of the table note that names node, entry or client
CREATE TABLE other (a INTEGER); CREATE TABLE mark (slot INTEGER REFERENCES NODE (slot))|has a foreign key of the table mark that names node, entry or client
UPDATE node SET version = 1; DROP TABLE client; CREATE VIEW client AS SELECT 1|can not be read or written, or a view, an index or a foreign key in it names node, entry or client
UPDATE node SET version = 1; DROP TABLE client; CREATE TABLE note (client INTEGER REFERENCES client (client))|has a foreign key of the table note that names node, entry or client
