-- Statements that are refused for several reasons: the lowest number is reported.

-- a date that is none, in a table that is not there
INSERT INTO T VALUES (DATE '2023-02-29');

-- a number too great, then a date that is none
INSERT INTO T VALUES (9223372036854775808, DATE '2023-02-29');

-- a number too great, in a table that is not there
INSERT INTO T VALUES (99999999999999999999);

-- a date that is none, too deep, and after as many parentheses that are closed again
((((((((((((((((((((((((((((((((( DATE '2023-02-29';
(((((((((((((((((((((((((((((((((1)))))))))))))))))))))))))))))))))
 DATE '2023-02-29';
CREATE TABLE EMP (ENO INTEGER, DEPT INTEGER, S DATE, E DATE,
 SS TIMESTAMP(12) GENERATED ALWAYS AS ROW START,
 SE TIMESTAMP(12) GENERATED ALWAYS AS ROW END,
 PERIOD FOR EP (S, E), PERIOD FOR SYSTEM_TIME (SS, SE),
 PRIMARY KEY (ENO, EP WITHOUT OVERLAPS)) WITH SYSTEM VERSIONING;

-- an empty period, then a date that is none
INSERT INTO EMP VALUES (1, 3, DATE '2024-01-02', DATE '2024-01-01'), (DATE '2023-02-29');

-- a text for a number, then a row of one value
INSERT INTO EMP VALUES ('a', 3, DATE '2024-01-01', DATE '2024-02-01'), (1);

-- an empty period, then a text for a number
INSERT INTO EMP VALUES (1, 3, DATE '2024-01-01', DATE '2024-01-01'),
 (1, 'a', DATE '2024-01-01', DATE '2024-02-01');

-- an empty period, then a row of one value
INSERT INTO EMP VALUES (1, 3, DATE '2024-01-01', DATE '2024-01-01'), (1);

-- CREATE of a table that is there, with a key that is not there and a period of one column
CREATE TABLE EMP (K INTEGER, S DATE, E DATE,
 SS TIMESTAMP GENERATED ALWAYS AS ROW START, SE TIMESTAMP GENERATED ALWAYS AS ROW END,
 PERIOD FOR P (S, S), PERIOD FOR SYSTEM_TIME (SS, SE),
 PRIMARY KEY (X, P WITHOUT OVERLAPS)) WITH SYSTEM VERSIONING;
