-- A register of addresses: person PERSON lives at house HOUSE of street STREET.
-- Two of the statements below are refused, so the exit status of this script is 1.

CREATE TABLE ADDRESS (PERSON INTEGER, STREET INTEGER, HOUSE INTEGER, S DATE, E DATE,
  SS TIMESTAMP(12) GENERATED ALWAYS AS ROW START,
  SE TIMESTAMP(12) GENERATED ALWAYS AS ROW END,
  PERIOD FOR LIVES (S, E), PERIOD FOR SYSTEM_TIME (SS, SE),
  PRIMARY KEY (PERSON, LIVES WITHOUT OVERLAPS)) WITH SYSTEM VERSIONING;

-- The register does not know since when person 7001 lived in street 12: the row begins on the
-- first day that there is. It does not know until when a present address holds: such a row ends
-- on the last date that there is, 9999-12-31. An end is not part of its period, so the row holds
-- to 9999-12-30.
INSERT INTO ADDRESS VALUES
  (7001, 12,  4, DATE '0001-01-01', DATE '1999-05-01'),
  (7001, 15, 30, DATE '1999-05-01', DATE '9999-12-31'),
  (7002, 12,  4, DATE '1999-05-01', DATE '2004-02-29'),
  (7002, 15, 30, DATE '2004-02-29', DATE '9999-12-31'),
  (7003, 12,  9, DATE '2004-03-01', DATE '2010-08-15');

-- Who is in the register, and when?
-- The two rows of person 7001 meet and make one, over all of time. There is no day before
-- 0001-01-01, so the last field of this row is none.
VALIDTIME SELECT DISTINCT PERSON FROM ADDRESS;

-- At which addresses did somebody live, and when?
-- Person 7002 moves into 12, 4 on the day on which person 7001 leaves it: one row.
-- Both live at 15, 30 in the end: one row too.
VALIDTIME SELECT DISTINCT STREET, HOUSE FROM ADDRESS;

-- In which streets did somebody live, and when?
-- Street 12 has two rows. Between them lies a single day, 2004-02-29, on which nobody lives there.
VALIDTIME SELECT DISTINCT STREET FROM ADDRESS;

-- Refused, 24 UnknownColumn: the table has no column TOWN.
VALIDTIME SELECT DISTINCT TOWN FROM ADDRESS;

-- Refused, 41 EmptyPeriod: the second row begins on the day on which it ends.
-- The first row is not inserted either: a refused statement changes nothing.
INSERT INTO ADDRESS VALUES
  (7004, 15, 31, DATE '2011-01-01', DATE '2012-01-01'),
  (7005, 15, 31, DATE '2012-01-01', DATE '2012-01-01');

-- Who is in the register, and when? The same as before, without 7004 and 7005.
VALIDTIME SELECT DISTINCT PERSON FROM ADDRESS;
