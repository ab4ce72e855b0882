-- The same folder once more: no task runs, and no file is left of it.
SHOW FILES;
SELECT * FROM stock;
STEP COMPACT stock 9;
COMPACT stock;
SHOW FILES;
