-- A write has a timestamp: the one given, or one more than the largest of the state. Of two writes of a column the newer wins.
CREATE TABLE stock (id uuid PRIMARY KEY, name text, "Shelf" int, pence bigint);
INSERT INTO stock (id, name, "Shelf", pence) VALUES (6F9619FF-8B86-D011-B42D-00CF4FC964FF, 'nuts', -3, 125) USING TIMESTAMP 10;
UPDATE stock SET pence = 150, "Shelf" = NULL WHERE id = 6f9619ff-8b86-d011-b42d-00cf4fc964ff;
SELECT * FROM stock;
-- Older than what is there, so it changes nothing that can be seen.
UPDATE stock USING TIMESTAMP 5 SET name = 'bolts' WHERE id = 6f9619ff-8b86-d011-b42d-00cf4fc964ff;
SELECT name, pence FROM stock;
-- An UPDATE makes no row marker: when its cells are gone, so is the row.
UPDATE stock SET name = 'washers' WHERE id = 00000000-0000-0000-0000-000000000001;
SELECT id, name FROM stock;
DELETE name FROM stock WHERE id = 00000000-0000-0000-0000-000000000001;
DELETE name, pence FROM stock WHERE id = 6f9619ff-8b86-d011-b42d-00cf4fc964ff;
SELECT * FROM stock;
DELETE FROM stock WHERE id = 6f9619ff-8b86-d011-b42d-00cf4fc964ff;
SELECT * FROM stock;
