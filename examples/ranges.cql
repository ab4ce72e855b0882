-- An index of numbers answers comparisons. SPARSE is for columns in which few rows share a number.
CREATE TABLE readings (sensor text PRIMARY KEY, celsius int, taken bigint, place text);
CREATE CUSTOM INDEX ON readings (celsius) USING 'org.apache.cassandra.index.sasi.SASIIndex';
CREATE CUSTOM INDEX ON readings (taken) USING 'org.apache.cassandra.index.sasi.SASIIndex' WITH OPTIONS = {'mode': 'SPARSE'};
INSERT INTO readings (sensor, celsius, taken, place) VALUES ('attic', 31, 1700000000000, 'house');
INSERT INTO readings (sensor, celsius, taken, place) VALUES ('barn', -4, 1700000000500, 'yard');
INSERT INTO readings (sensor, celsius, taken, place) VALUES ('cellar', 9, 1700000001000, 'house');
FLUSH readings;
INSERT INTO readings (sensor, celsius, taken, place) VALUES ('garden', 9, 1700000001500, 'yard');
INSERT INTO readings (sensor, place) VALUES ('roof', 'house');
SELECT sensor, celsius FROM readings WHERE celsius = 9;
-- Negative numbers come before the others. Rows come in the order of their keys, and a missing value is in no range.
SELECT sensor, celsius FROM readings WHERE celsius < 10;
SELECT sensor, celsius FROM readings WHERE celsius >= 9;
SELECT sensor, taken FROM readings WHERE taken > 1700000000500;
SELECT sensor, taken FROM readings WHERE taken <= 1700000000500;
-- From one number to another: two relations, which say that they may take long.
SELECT sensor FROM readings WHERE taken >= 1700000000500 AND taken < 1700000001500 ALLOW FILTERING;
-- A column without an index can be compared too, where it is said that this may take long.
SELECT sensor FROM readings WHERE place = 'yard' ALLOW FILTERING;
SELECT sensor FROM readings WHERE place = 'yard' AND celsius > 0 ALLOW FILTERING;
-- The newest value counts, in memory or in a file.
UPDATE readings SET celsius = 12 WHERE sensor = 'cellar';
UPDATE readings SET celsius = null WHERE sensor = 'attic';
SELECT sensor, celsius FROM readings WHERE celsius > 0;
-- The key is compared by its bytes alone. A number outside the column's type, and a text in its place, are refused.
SELECT celsius FROM readings WHERE sensor = 'barn';
SELECT celsius FROM readings WHERE sensor > 'barn';
SELECT sensor FROM readings WHERE celsius < 4000000000;
SELECT sensor FROM readings WHERE celsius = 'warm';
SELECT sensor FROM readings WHERE place = 'yard';
