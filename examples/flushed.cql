-- FLUSH writes what is in memory of a table to a data file. No reply changes by it: a SELECT merges the files with the memtable.
CREATE TABLE stock (id int PRIMARY KEY, name text, pence bigint);
INSERT INTO stock (id, name, pence) VALUES (1, 'nuts', 125) USING TIMESTAMP 10;
INSERT INTO stock (id, name, pence) VALUES (2, 'bolts', 80);
FLUSH stock;
SELECT * FROM stock;
-- The newest cell of a column wins, wherever it stands: the price is newer than the one in the file, and the name older.
UPDATE stock SET pence = 150 WHERE id = 1;
UPDATE stock USING TIMESTAMP 5 SET name = 'screws' WHERE id = 1;
SELECT * FROM stock;
-- A deletion shadows a row that is in a file, and goes into the next file itself.
DELETE FROM stock WHERE id = 2;
FLUSH stock;
SELECT * FROM stock;
-- Nothing is in memory now, so this writes no file.
FLUSH stock;
-- A write without a timestamp takes one more than the largest one, also where that is in a file.
INSERT INTO stock (id, name) VALUES (2, 'washers');
FLUSH stock;
SELECT * FROM stock;
FLUSH nothing;
