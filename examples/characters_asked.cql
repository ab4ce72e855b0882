-- Over the table that characters.py makes: 10,000 characters in data files, each with four index files.
-- Words of a name, in any order and any case.
SELECT letter, name FROM characters WHERE name LIKE 'arrow leftwards tail';
-- Words that begin so.
SELECT letter, name FROM characters WHERE name LIKE 'umbrel%';
-- What means fifty, in any script.
SELECT letter, name FROM characters WHERE number = 50;
-- The greatest numbers.
SELECT letter, number FROM characters WHERE number >= 10000;
-- The signs of the weather, by their codes.
SELECT letter, code, name FROM characters WHERE code >= 9728 AND code <= 9731 ALLOW FILTERING;
-- Of all capital letters the first three that are Greek.
SELECT letter, name FROM characters WHERE category = 'Lu' AND name LIKE 'greek' LIMIT 3 ALLOW FILTERING;
-- The signs of currencies up to the block that Unicode gives them.
SELECT letter, name FROM characters WHERE category = 'Sc' AND code < 8352 ALLOW FILTERING;
-- One character, by its key.
SELECT code, name, number FROM characters WHERE letter = '½';
SELECT code, name, number FROM characters WHERE letter = '7';
-- A name that is written anew is found by its new words alone.
UPDATE characters SET name = 'EURO SIGN, once EURO-CURRENCY' WHERE letter = '€';
SELECT letter, name FROM characters WHERE name LIKE 'once';
DELETE FROM characters WHERE letter = '☂';
SELECT letter, name FROM characters WHERE name LIKE 'umbrel%';
-- How many rows were looked at: by the words of a name, by two relations, the first of many, and without an index.
TRACE ON;
SELECT letter, name FROM characters WHERE name LIKE 'arrow leftwards tail';
SELECT letter, name FROM characters WHERE category = 'Sc' AND code < 8352 ALLOW FILTERING;
SELECT letter, name FROM characters WHERE name LIKE 'greek' LIMIT 1;
SELECT letter FROM characters WHERE letter = '7';
SELECT letter, name FROM characters LIMIT 2;
