-- INSERT with a list of columns that is refused: the list names what is not there, names a column
-- twice, names a system column, or lacks a column; rows that are not of its length.
CREATE TABLE EMP (ENO INTEGER, DEPT INTEGER, S DATE, E DATE,
 SS TIMESTAMP(12) GENERATED ALWAYS AS ROW START,
 SE TIMESTAMP(12) GENERATED ALWAYS AS ROW END,
 PERIOD FOR EP (S, E), PERIOD FOR SYSTEM_TIME (SS, SE),
 PRIMARY KEY (ENO, EP WITHOUT OVERLAPS)) WITH SYSTEM VERSIONING;

-- columns that are not there: alone, beside all that are wanted, a period's name and a table's
INSERT INTO EMP (ENO, PAY, S, E) VALUES (1, 3, DATE '2024-01-01', DATE '2024-02-01');
INSERT INTO EMP (ENO, DEPT, S, E, PAY)
 VALUES (1, 3, DATE '2024-01-01', DATE '2024-02-01', 5);
INSERT INTO EMP (ENO, DEPT, EP, S, E)
 VALUES (1, 3, 5, DATE '2024-01-01', DATE '2024-02-01');
INSERT INTO EMP (ENO, DEPT, EMP, S, E)
 VALUES (1, 3, 5, DATE '2024-01-01', DATE '2024-02-01');

-- repeated columns: beside the others, in other letters, in the place of another, a system column
INSERT INTO EMP (ENO, DEPT, S, E, ENO)
 VALUES (1, 3, DATE '2024-01-01', DATE '2024-02-01', 1);
INSERT INTO EMP (ENO, DEPT, S, E, dept)
 VALUES (1, 3, DATE '2024-01-01', DATE '2024-02-01', 3);
INSERT INTO EMP (ENO, ENO, S, E) VALUES (1, 3, DATE '2024-01-01', DATE '2024-02-01');
INSERT INTO EMP (SS, SS) VALUES (1, 3);

-- system columns, the last in the place of a column that is wanted
INSERT INTO EMP (ENO, DEPT, S, E, SS)
 VALUES (1, 3, DATE '2024-01-01', DATE '2024-02-01', DATE '2024-01-01');
INSERT INTO EMP (SE, ENO, DEPT, S, E)
 VALUES (5, 1, 3, DATE '2024-01-01', DATE '2024-02-01');
INSERT INTO EMP (ENO, SS, S, E) VALUES (1, 3, DATE '2024-01-01', DATE '2024-02-01');

-- lists that lack a column
INSERT INTO EMP (ENO, S, E) VALUES (1, DATE '2024-01-01', DATE '2024-02-01');
INSERT INTO EMP (ENO, DEPT, S) VALUES (1, 3, DATE '2024-01-01');
INSERT INTO EMP (ENO) VALUES (1, 3, DATE '2024-01-01', DATE '2024-02-01');

-- rows of fewer and of more values than the list has names
INSERT INTO EMP (ENO, DEPT, S, E) VALUES (1, 3, DATE '2024-01-01');
INSERT INTO EMP (E, S, DEPT, ENO)
 VALUES (DATE '2024-02-01', DATE '2024-01-01', 3, 1), (DATE '2024-02-01');
INSERT INTO EMP (ENO, DEPT, S, E)
 VALUES (1, 3, DATE '2024-01-01', DATE '2024-02-01', 5);

-- values in the declared order of their types, but not in that of the list
INSERT INTO EMP (S, E, ENO, DEPT)
 VALUES (1, 3, DATE '2024-01-01', DATE '2024-02-01');

-- a period that is empty by the list
INSERT INTO EMP (ENO, DEPT, E, S)
 VALUES (1, 3, DATE '2024-01-01', DATE '2024-02-01');
