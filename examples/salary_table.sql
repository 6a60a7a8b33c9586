-- A first guess from salary.csv, 6 rows. Edit what is wrong, then:
--   tools/load examples/salary.csv --table FILE --recorded recorded --scale PAY=2 --inclusive-to --open 9999-12-31
CREATE TABLE SALARY (
 ENO INTEGER,
 NAME VARCHAR(20),  -- at most 11 characters
 DEPT INTEGER,
 PAY INTEGER,  -- in units of 0.01
 FROM_ DATE, TO_ DATE,
 SYSTEM_FROM TIMESTAMP GENERATED ALWAYS AS ROW START,
 SYSTEM_TO TIMESTAMP GENERATED ALWAYS AS ROW END,
 PERIOD FOR VALID (FROM_, TO_), PERIOD FOR SYSTEM_TIME (SYSTEM_FROM, SYSTEM_TO),
 PRIMARY KEY (ENO, VALID WITHOUT OVERLAPS)) WITH SYSTEM VERSIONING;
