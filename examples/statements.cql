CREATE TABLE stock (id uuid PRIMARY KEY, name text, shelf int);
INSERT INTO stock (id, name, shelf) VALUES (6f9619ff-8b86-d011-b42d-00cf4fc964ff, 'it''s', 7);
UPDATE stock SET shelf = 8 WHERE id = 6f9619ff-8b86-d011-b42d-00cf4fc964ff;
UPDATE stock USING TIMESTAMP 1 SET name = 'older' WHERE id = 6f9619ff-8b86-d011-b42d-00cf4fc964ff;
SELECT * FROM stock;
SELECT shelf FROM stock;
DELETE name FROM stock WHERE id = 6f9619ff-8b86-d011-b42d-00cf4fc964ff;
SELECT * FROM stock;
DELETE FROM stock WHERE id = 6f9619ff-8b86-d011-b42d-00cf4fc964ff;
SELECT * FROM stock;
FLUSH stock;
-- Bytes of keys are compared unsigned, so -1 comes after 1.
CREATE TABLE n (k int PRIMARY KEY);
INSERT INTO n (k) VALUES (-1);
INSERT INTO n (k) VALUES (1);
SELECT * FROM n;
SELECT * FROM nothing;
INSERT INTO stock (name) VALUES ('nuts');
INSERT INTO stock (id, shelf) VALUES (6f9619ff-8b86-d011-b42d-00cf4fc964ff, 2147483648);
