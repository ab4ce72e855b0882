-- Rows come in the order of their tokens, and then of their keys. Under lead8 the token is the first eight bytes of the key.
CREATE TABLE people (id text PRIMARY KEY, name text, town text);
INSERT INTO people (id, name, town) VALUES ('p2', 'Mira', 'Bern');
INSERT INTO people (name, id) VALUES ('Jon', 'p1');
SELECT * FROM people;
/* An INSERT sets the columns that it names, and leaves the others as they are. */
INSERT INTO people (id, town) VALUES ('p1', 'Oslo');
SELECT * FROM people;
