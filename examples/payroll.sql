-- Payroll: the departments and the pay (in cents a month) of two employees.
-- Statement numbers: 1 CREATE, 2 and 3 INSERT, 4 to 6 questions, 7 INSERT, 8 a question.

CREATE TABLE EMP (ENO INTEGER, DEPT INTEGER, PAY INTEGER, S DATE, E DATE,
  SS TIMESTAMP(12) GENERATED ALWAYS AS ROW START,
  SE TIMESTAMP(12) GENERATED ALWAYS AS ROW END,
  PERIOD FOR EP (S, E), PERIOD FOR SYSTEM_TIME (SS, SE),
  PRIMARY KEY (ENO, EP WITHOUT OVERLAPS)) WITH SYSTEM VERSIONING;

-- Employee 101. The first two rows meet: the second begins on the day on which the first ends.
-- Nothing is known from 2021-09-01 to 2022-01-01: a gap.
INSERT INTO EMP VALUES
  (101, 3, 310000, DATE '2020-01-01', DATE '2020-07-01'),
  (101, 3, 325000, DATE '2020-07-01', DATE '2021-03-01'),
  (101, 4, 325000, DATE '2021-03-01', DATE '2021-09-01'),
  (101, 4, 340000, DATE '2022-01-01', DATE '2023-01-01');

-- Employee 102. In departments 3 and 4 the periods overlap those of employee 101.
INSERT INTO EMP VALUES
  (102, 3, 298000, DATE '2020-03-01', DATE '2021-06-01'),
  (102, 4, 298000, DATE '2021-06-01', DATE '2021-12-01'),
  (102, 5, 305000, DATE '2022-03-01', DATE '2022-09-01');

-- Which departments had somebody, and when?
-- Department 3: two rows that meet and one that overlaps both make one row.
-- Department 4: two rows overlap and make one. The third begins on 2022-01-01,
-- a month after 2021-12-01, so it stays a row of its own.
VALIDTIME SELECT DISTINCT DEPT FROM EMP;

-- Who was employed, and when?
-- The changes of department and pay are not asked for, so they leave no trace here.
-- Each employee has two rows, because each has one gap.
VALIDTIME SELECT DISTINCT ENO FROM EMP;

-- Who was in which department, and when?
-- Rows of two employees are never put together here: their values differ.
VALIDTIME SELECT DISTINCT ENO, DEPT FROM EMP;

-- The gap of employee 101 turns out to be unpaid leave in department 4.
INSERT INTO EMP VALUES (101, 4, 0, DATE '2021-09-01', DATE '2022-01-01');

-- Who was employed, and when? The four parts and the leave now meet throughout:
-- employee 101 has one row.
VALIDTIME SELECT DISTINCT ENO FROM EMP;
