-- A table of books with three indexes: the words of a title, any part of an author's name in any case, and ranges of years.
CREATE TABLE books (id int PRIMARY KEY, title text, author text, year int);
CREATE CUSTOM INDEX ON books (title) USING 'org.apache.cassandra.index.sasi.SASIIndex' WITH OPTIONS = {
    'analyzer_class': 'org.apache.cassandra.index.sasi.analyzer.StandardAnalyzer', 'tokenization_normalize_lowercase': 'true'};
CREATE CUSTOM INDEX ON books (author) USING 'org.apache.cassandra.index.sasi.SASIIndex' WITH OPTIONS = {'mode': 'CONTAINS', 'case_sensitive': 'false'};
CREATE CUSTOM INDEX ON books (year) USING 'org.apache.cassandra.index.sasi.SASIIndex';
INSERT INTO books (id, title, author, year) VALUES (1, 'Pride and Prejudice', 'Jane Austen', 1813);
INSERT INTO books (id, title, author, year) VALUES (2, 'Frankenstein', 'Mary Shelley', 1818);
INSERT INTO books (id, title, author, year) VALUES (3, 'Jane Eyre', 'Charlotte Brontë', 1847);
INSERT INTO books (id, title, author, year) VALUES (4, 'Wuthering Heights', 'Emily Brontë', 1847);
INSERT INTO books (id, title, author, year) VALUES (5, 'Moby-Dick; or, The Whale', 'Herman Melville', 1851);
INSERT INTO books (id, title, author, year) VALUES (6, 'Great Expectations', 'Charles Dickens', 1861);
INSERT INTO books (id, title, author, year) VALUES (7, 'Twenty Thousand Leagues Under the Seas', 'Jules Verne', 1870);
INSERT INTO books (id, title, author, year) VALUES (8, 'The Mysterious Island', 'Jules Verne', 1875);
INSERT INTO books (id, title, author, year) VALUES (9, 'Treasure Island', 'Robert Louis Stevenson', 1883);
INSERT INTO books (id, title, author, year) VALUES (10, 'The Time Machine', 'H. G. Wells', 1895);
-- The rows go from memory into a data file, with an index file for each index.
FLUSH books;
SELECT title, year FROM books WHERE author LIKE '%brontë%';
SELECT title, author FROM books WHERE title LIKE 'island';
SELECT title FROM books WHERE year >= 1850 AND year < 1880 ALLOW FILTERING;
