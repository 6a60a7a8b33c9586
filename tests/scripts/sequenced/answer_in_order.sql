-- Rows in the order of the select list; the last day; a column that is named twice; other letters.
CREATE TABLE EMP (ENO INTEGER, DEPT INTEGER, S DATE, E DATE,
 SS TIMESTAMP(12) GENERATED ALWAYS AS ROW START,
 SE TIMESTAMP(12) GENERATED ALWAYS AS ROW END,
 PERIOD FOR EP (S, E), PERIOD FOR SYSTEM_TIME (SS, SE),
 PRIMARY KEY (ENO, EP WITHOUT OVERLAPS)) WITH SYSTEM VERSIONING;
insert into emp values (2, +7, date '2024-02-01', date '2024-03-01'),
 (-1, 8, date '9999-12-30', date '9999-12-31'), (2, 7, date '2024-01-01', date '2024-01-31');
validtime select distinct dept, eno, dept from emp;
