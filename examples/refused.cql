SELECT * FROM t;
CREATE TABLE t (k text PRIMARY KEY, a text, n int);
CREATE TABLE t (k text PRIMARY KEY);
CREATE TABLE u (k text, a text);
INSERT INTO t (k, b) VALUES ('k1', 'x');
INSERT INTO t (k, a, a) VALUES ('k1', 'x', 'y');
INSERT INTO t (k, a) VALUES ('k1', 7);
INSERT INTO t (k, n) VALUES ('k1', 2147483648);
INSERT INTO t (a) VALUES ('x');
INSERT INTO t (k) VALUES ('');
UPDATE t USING TIMESTAMP 0 SET a = 'x' WHERE k = 'k1';
DELETE FROM t WHERE a = 'x';
INSERT INTO t (k, a) VALUES ('k1', 'a ; in a string ends nothing');
DROP TABLE t;
;
SELECT * FROM t;
INSERT INTO t (k) VALUES ('cut
