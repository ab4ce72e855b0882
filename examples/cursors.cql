-- A cursor keeps the rows of a SELECT as they are when it is opened, and gives some of them at a time.
CREATE TABLE stock (id int PRIMARY KEY, name text, pence bigint);
CREATE CUSTOM INDEX by_name ON stock (name) USING 'org.apache.cassandra.index.sasi.SASIIndex';
INSERT INTO stock (id, name, pence) VALUES (1, 'nuts', 125);
INSERT INTO stock (id, name, pence) VALUES (2, 'bolts', 90);
INSERT INTO stock (id, name, pence) VALUES (3, 'nails', 40);
FLUSH stock;
INSERT INTO stock (id, name, pence) VALUES (4, 'nuts', 130);
OPEN every AS SELECT id, name FROM stock;
OPEN nuts AS SELECT id, pence FROM stock WHERE name = 'nuts';
-- What is written from now on is no row of theirs,
INSERT INTO stock (id, name, pence) VALUES (5, 'nuts', 150);
UPDATE stock SET name = 'rivets', pence = 200 WHERE id = 1;
DELETE FROM stock WHERE id = 3;
FETCH 2 FROM every;
FETCH 1 FROM nuts;
-- also where it goes to a file. SHOW FILES tells how many cursors hold a file.
FLUSH stock;
SHOW FILES;
FETCH 10 FROM every;
FETCH 10 FROM nuts;
SELECT id, name, pence FROM stock;
-- Behind its last row a cursor gives none, and it keeps its name until it is closed.
FETCH 1 FROM nuts;
OPEN nuts AS SELECT id FROM stock;
CLOSE nuts;
FETCH 1 FROM nuts;
SHOW FILES;
-- The end of a run closes the others.
