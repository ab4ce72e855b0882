-- SHOW FILES tells which data and index files the tables have: those that the manifest lists, and of an empty folder none.
SHOW FILES;
CREATE TABLE stock (id int PRIMARY KEY, name text, pence bigint);
CREATE CUSTOM INDEX by_name ON stock (name) USING 'org.apache.cassandra.index.sasi.SASIIndex';
INSERT INTO stock (id, name, pence) VALUES (1, 'nuts', 125);
-- What is in memory is in no file.
SHOW FILES;
FLUSH stock;
SHOW FILES;
-- The files of all tables come by the numbers of the data files, each before its index files.
CREATE TABLE sold (id int PRIMARY KEY, pence bigint);
CREATE CUSTOM INDEX ON stock (pence) USING 'org.apache.cassandra.index.sasi.SASIIndex';
INSERT INTO sold (id, pence) VALUES (1, 250);
FLUSH sold;
INSERT INTO stock (id, name, pence) VALUES (2, 'bolts', 80);
FLUSH stock;
SHOW FILES;
SHOW FILES stock;
