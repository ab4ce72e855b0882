-- Compactions beside a cursor: what is read, which files are there, and what a run leaves.
CREATE TABLE stock (id int PRIMARY KEY, name text, shelf text);
CREATE CUSTOM INDEX by_name ON stock (name) USING 'org.apache.cassandra.index.sasi.SASIIndex';
INSERT INTO stock (id, name, shelf) VALUES (1, 'nuts', 'a1');
INSERT INTO stock (id, name, shelf) VALUES (2, 'bolts', 'a2');
FLUSH stock;
UPDATE stock SET shelf = 'b7' WHERE id = 1;
DELETE FROM stock WHERE id = 2;
INSERT INTO stock (id, name, shelf) VALUES (3, 'screws', 'a3');
FLUSH stock;

-- A cursor holds the two files. The compaction makes one of them, step by step.
OPEN c AS SELECT * FROM stock;
BEGIN COMPACT stock;
STEP COMPACT stock 2;
SHOW FILES;

-- What is flushed meanwhile stays a file of its own.
INSERT INTO stock (id, name, shelf) VALUES (4, 'nails', 'a4');
FLUSH stock;
STEP COMPACT stock 2;
SHOW FILES;
SELECT * FROM stock;
FETCH 9 FROM c;

-- The cursor was the last that held the old files.
CLOSE c;
SHOW FILES;

-- At once: two files become one.
COMPACT stock;
SHOW FILES;
SELECT id FROM stock WHERE name = 'nails';

-- What isn't ended when the script ends is given up.
INSERT INTO stock (id, name, shelf) VALUES (5, 'hooks', 'a5');
FLUSH stock;
BEGIN COMPACT stock;
STEP COMPACT stock 1;
SHOW FILES;
STEP COMPACT stock 0;
STEP COMPACT bolts 1;
