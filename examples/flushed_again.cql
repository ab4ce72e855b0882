-- An opening reads the ends of the data files alone, and finds the largest timestamp there.
SELECT * FROM stock;
INSERT INTO stock (id, name, pence) VALUES (2, 'rivets', 60);
SELECT name, pence FROM stock;
