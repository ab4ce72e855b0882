-- The next run begins with no cursor.
FETCH 1 FROM every;
OPEN every AS SELECT id, name FROM stock;
FETCH 10 FROM every;
CLOSE every;
