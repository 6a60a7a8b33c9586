-- What is no statement, and parentheses that are too deep.
SELECT 1;
VALIDTIME SELECT ENO FROM EMP;
VALIDTIME SELECT DISTINCT ENO, FROM EMP;
VALIDTIME SELECT DISTINCT KEY FROM EMP;
INSERT INTO EMP VALUES;
INSERT INTO EMP VALUES ();
INSERT INTO EMP VALUES (- - 1);
INSERT INTO T VALUES (DATE '2023-02-29';
CREATE TABLE T (A INTEGER) WITH SYSTEM;

-- open parentheses: a balance of 32, of 33, and of 32 and of 33 after one that is closed
((((((((((((((((((((((((((((((((;
(((((((((((((((((((((((((((((((((;
)(((((((((((((((((((((((((((((((((;
)((((((((((((((((((((((((((((((((((;
