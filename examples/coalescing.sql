-- Each value shows one way in which rows of equal values stand to each other.
CREATE TABLE T (K INTEGER, V INTEGER, W INTEGER, S DATE, E DATE,
 SS TIMESTAMP GENERATED ALWAYS AS ROW START,
 SE TIMESTAMP GENERATED ALWAYS AS ROW END,
 PERIOD FOR P (S, E), PERIOD FOR SYSTEM_TIME (SS, SE),
 PRIMARY KEY (K, P WITHOUT OVERLAPS)) WITH SYSTEM VERSIONING;

-- an empty table has an empty answer
VALIDTIME SELECT DISTINCT V FROM T;

INSERT INTO T VALUES
 -- 5: a gap of one day keeps two rows apart
 (1, 5, 10, DATE '2024-01-11', DATE '2024-01-20'),
 (2, 5, 10, DATE '2024-01-01', DATE '2024-01-10'),
 -- 1: the rows meet
 (3, 1, 10, DATE '2024-01-01', DATE '2024-02-01'),
 (4, 1, -1, DATE '2024-02-01', DATE '2024-03-01'),
 -- 2: they overlap
 (5, 2, 9, DATE '2024-02-01', DATE '2024-03-01'),
 (6, 2, 10, DATE '2024-01-01', DATE '2024-02-15'),
 -- 3: one lies in the other
 (7, 3, 10, DATE '2024-01-01', DATE '2024-06-01'),
 (8, 3, 10, DATE '2024-02-01', DATE '2024-03-01'),
 -- 4: they are the same
 (9, 4, 10, DATE '2024-01-01', DATE '2024-02-01'),
 (10, 4, 10, DATE '2024-01-01', DATE '2024-02-01'),
 -- the first days of time, the last day, and all of time
 (11, -6, 10, DATE '0001-01-01', DATE '0001-01-03'),
 (12, 6, 10, DATE '9999-12-30', DATE '9999-12-31'),
 (13, 0, 10, DATE '0001-01-01', DATE '9999-12-31');

VALIDTIME SELECT DISTINCT V FROM T;

-- by the first column, then by the second, then by the first day
VALIDTIME SELECT DISTINCT W, V FROM T
