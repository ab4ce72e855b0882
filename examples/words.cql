-- An index of words: each word of a text is a term, and letters are folded. LIKE asks for words, wherever they stand in the text.
CREATE TABLE notes (id int PRIMARY KEY, title text, body text);
CREATE CUSTOM INDEX ON notes (body) USING 'org.apache.cassandra.index.sasi.SASIIndex' WITH OPTIONS = {
    'analyzer_class': 'org.apache.cassandra.index.sasi.analyzer.StandardAnalyzer', 'tokenization_normalize_lowercase': 'true'};
-- An index of whole titles, by any part of one.
CREATE CUSTOM INDEX title ON notes (title) USING 'org.apache.cassandra.index.sasi.SASIIndex' WITH OPTIONS = {'mode': 'CONTAINS'};
INSERT INTO notes (id, title, body) VALUES (1, 'Fox', 'The quick brown fox jumps over the lazy dog.');
INSERT INTO notes (id, title, body) VALUES (2, 'Dog and fox', 'A lazy dog doesn''t jump, and quickly sleeps.');
FLUSH notes;
INSERT INTO notes (id, title) VALUES (3, 'Nothing yet');
INSERT INTO notes (id, title, body) VALUES (4, 'Feet', 'It jumped 32.3 feet: QUICK!');
-- A word, in any case.
SELECT id, body FROM notes WHERE body LIKE 'quick';
-- Words that begin so.
SELECT id FROM notes WHERE body LIKE 'jump%';
SELECT id FROM notes WHERE body LIKE 'Quick%';
-- Each word of what is asked must be there, in any order.
SELECT id FROM notes WHERE body LIKE 'dog lazy';
-- A part of a title, its beginning, its end, and the title as it is. Case counts here.
SELECT id, title FROM notes WHERE title LIKE '%fox%';
SELECT id, title FROM notes WHERE title LIKE '%ox';
SELECT id, title FROM notes WHERE title LIKE 'Fox';
SELECT id, title FROM notes WHERE title = 'Feet';
-- Two relations hold together, and say that they may take long.
SELECT id FROM notes WHERE body LIKE 'lazy' AND title LIKE '%fox' ALLOW FILTERING;
-- A row is found by what it is now, in memory or in a file.
UPDATE notes SET body = 'The fox sleeps.' WHERE id = 1;
SELECT id FROM notes WHERE body LIKE 'quick';
SELECT id FROM notes WHERE body LIKE 'fox';
-- An index of words has no `=`, and by PREFIX no part in the middle of a word. A text without a word asks for nothing.
SELECT id FROM notes WHERE body = 'fox';
SELECT id FROM notes WHERE body LIKE '%ox%';
SELECT id FROM notes WHERE body LIKE '-!-';
SELECT id FROM notes WHERE body LIKE 'fox' AND title LIKE '%ox';
