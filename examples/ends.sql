-- An end is the first day on which a row no longer holds. Where it is written as the last day on which
-- it holds, each row is a day short, and rows that meet have a gap of a day.

CREATE TABLE EMP (ENO INTEGER, DEPT INTEGER, S DATE, E DATE,
 SS TIMESTAMP GENERATED ALWAYS AS ROW START, SE TIMESTAMP GENERATED ALWAYS AS ROW END,
 PERIOD FOR EP (S, E), PERIOD FOR SYSTEM_TIME (SS, SE),
 PRIMARY KEY (ENO, EP WITHOUT OVERLAPS)) WITH SYSTEM VERSIONING;

-- Wrong: 101 is there up to and with 2023-12-31.
INSERT INTO EMP VALUES (101, 1, DATE '2023-01-01', DATE '2023-12-31'),
                       (101, 2, DATE '2024-01-01', DATE '9999-12-31');
-- Two rows, and a day between them
VALIDTIME SELECT DISTINCT ENO FROM EMP;

DELETE FROM EMP;
-- Right: the end is the day after, and 9999-12-31 is an open end.
INSERT INTO EMP VALUES (101, 1, DATE '2023-01-01', DATE '2024-01-01'),
                       (101, 2, DATE '2024-01-01', DATE '9999-12-31');
-- One row
VALIDTIME SELECT DISTINCT ENO FROM EMP;
