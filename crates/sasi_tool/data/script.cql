CREATE TABLE people (id uuid PRIMARY KEY, first_name text, last_name text, age int, height int);
CREATE CUSTOM INDEX ON people (last_name) USING 'org.apache.cassandra.index.sasi.SASIIndex';
CREATE CUSTOM INDEX ON people (first_name) USING 'org.apache.cassandra.index.sasi.SASIIndex' WITH OPTIONS = {
    'analyzer_class': 'org.apache.cassandra.index.sasi.analyzer.NonTokenizingAnalyzer', 'case_sensitive': 'false'};
INSERT INTO people (id, first_name, last_name, age, height) VALUES (10000000-0000-0000-0000-000000000000, 'Mira', 'Yates', 27, 181);
INSERT INTO people (id, first_name, last_name, age, height) VALUES (20000000-0000-0000-0000-000000000000, 'Jon', 'Weston', 26, 173);
INSERT INTO people (id, first_name, last_name, age, height) VALUES (30000000-0000-0000-0000-000000000000, 'Max', 'Stern', 36, 173);
INSERT INTO people (id, first_name, last_name, age, height) VALUES (40000000-0000-0000-0000-000000000000, 'Anna', 'Kjell', 35, 180);
INSERT INTO people (id, first_name, last_name, age, height) VALUES (50000000-0000-0000-0000-000000000000, 'Igor', 'Popov', 26, 190);
INSERT INTO people (id, first_name, last_name, age, height) VALUES (60000000-0000-0000-0000-000000000000, 'Lena', 'Abt', 27, 168);
INSERT INTO people (id, first_name, last_name, age, height) VALUES (70000000-0000-0000-0000-000000000000, 'Tom', 'Ryan', 30, 175);
FLUSH people;
SELECT first_name, last_name, age, height FROM people WHERE last_name LIKE 'Ya%';
