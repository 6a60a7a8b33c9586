-- Hours: entry ENTRY says that worker WNO works HRS hours a day on project PROJ.
-- Entries 1 and 2 are one fact that was entered twice, and so are entries 5 and 6.
-- Words ignore case. The report shows names in upper case.

create table hours (entry integer, wno integer, proj integer, hrs integer, s date, e date,
  ss timestamp generated always as row start,
  se timestamp generated always as row end,
  period for works (s, e), period for system_time (ss, se),
  primary key (entry, works without overlaps)) with system versioning;

insert into hours values
  (1, 51, 900, 8, date '2024-02-26', date '2024-03-02'),
  (2, 51, 900, 8, date '2024-02-26', date '2024-03-02'),
  (3, 51, 900, 8, date '2024-03-02', date '2024-03-03'),
  (4, 52, 900, 8, date '2024-02-28', date '2024-03-02'),
  (5, 52, 901, 4, date '2024-02-29', date '2024-03-01'),
  (6, 52, 901, 4, date '2024-02-29', date '2024-03-01');

-- Who works how long on what? Six entries, three rows: a repeated entry adds nothing,
-- and entry 3 begins on the day on which entries 1 and 2 end.
validtime select distinct wno, proj, hrs from hours;

-- How long does somebody work on which project? Entry 4 lies inside the days of entries 1 and 2,
-- so it adds nothing: two rows.
validtime select distinct proj, hrs from hours;

-- The columns come in the order of the select list, and the rows are ordered by it:
-- here by the hours first, then by the worker.
validtime select distinct hrs, wno from hours;

-- Entries have a number each, so nothing can be put together: six rows.
validtime select distinct entry, wno from hours;
