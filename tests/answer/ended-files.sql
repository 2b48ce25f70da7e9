-- Each line makes a first file, with a second one beside it, from one that holds a state after two entries. Behind the
-- bar stands whether its epoch is over, so that it is refused, or goes on.
UPDATE entry SET body = x'110000000069A42A4002000000000000007B' WHERE place = 2; UPDATE node SET commit_no = 2|is over
UPDATE entry SET body = x'110000000069A42A4002000000000000007B' WHERE place = 2|goes on
UPDATE entry SET body = x'110000000069A42A4002000000000000007B' WHERE place = 1|is over
UPDATE node SET commit_no = 2|goes on
UPDATE node SET commit_no = 2; CREATE TABLE member (token INTEGER PRIMARY KEY, places INTEGER NOT NULL); INSERT INTO member VALUES (0, 2)|is over
CREATE TABLE member (token INTEGER PRIMARY KEY, places INTEGER NOT NULL); INSERT INTO member VALUES (0, 2)|goes on
UPDATE node SET commit_no = 2; CREATE TABLE member (name TEXT); INSERT INTO member VALUES ('one')|goes on
INSERT INTO entry WITH RECURSIVE places(place) AS (SELECT 3 UNION ALL SELECT place + 1 FROM places WHERE place < 65536) SELECT place, 9, place, x'0a0000000069a42a40024531' FROM places; UPDATE client SET number = 65536, place = 65536 WHERE client = 9; UPDATE node SET commit_no = 65536|is over
INSERT INTO entry WITH RECURSIVE places(place) AS (SELECT 3 UNION ALL SELECT place + 1 FROM places WHERE place < 65536) SELECT place, 9, place, x'0a0000000069a42a40024531' FROM places; UPDATE client SET number = 65536, place = 65536 WHERE client = 9; UPDATE node SET commit_no = 65535|goes on
