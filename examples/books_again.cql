-- A later run on the folder of books.cql finds the rows, and its own writes beside them.
INSERT INTO books (id, title, author, year) VALUES (11, 'The Island of Doctor Moreau', 'H. G. Wells', 1896);
UPDATE books SET title = 'Moby-Dick' WHERE id = 5;
DELETE FROM books WHERE id = 2;
SELECT title, year FROM books WHERE title LIKE 'island' AND year > 1880 ALLOW FILTERING;
SELECT title FROM books WHERE title LIKE 'whale';
SELECT id, title FROM books WHERE author LIKE '%e%' LIMIT 3;
TRACE ON;
SELECT title FROM books WHERE author LIKE '%wells';
