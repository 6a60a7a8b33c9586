-- A price list. CENTS is the listed price of product PNO in cents.
-- CORR is a correction in cents that is added to it: below 0 for a rebate, 0 for none.

CREATE TABLE PRICES (PNO INTEGER, CENTS INTEGER, CORR INTEGER, S DATE, E DATE,
  SS TIMESTAMP(12) GENERATED ALWAYS AS ROW START,
  SE TIMESTAMP(12) GENERATED ALWAYS AS ROW END,
  PERIOD FOR SOLD (S, E), PERIOD FOR SYSTEM_TIME (SS, SE),
  PRIMARY KEY (PNO, SOLD WITHOUT OVERLAPS)) WITH SYSTEM VERSIONING;

-- Product 20 is not on sale from 2023-05-01 to 2023-09-01: a gap.
-- A number may have a sign. The plus sign is not printed again.
INSERT INTO PRICES VALUES
  (20,  500,    0, DATE '2023-10-01', DATE '2024-01-01'),
  (20,  500,  +25, DATE '2023-09-01', DATE '2023-10-01'),
  (20,  500,    0, DATE '2023-02-01', DATE '2023-05-01'),
  (10, 1999,    0, DATE '2023-01-01', DATE '2023-06-15'),
  (10, 1999, -200, DATE '2023-06-15', DATE '2023-07-01'),
  (10, 1999,    0, DATE '2023-07-01', DATE '2024-01-01'),
  (10, 2149,    0, DATE '2024-01-01', DATE '2025-01-01'),
  (30, 1999, -200, DATE '2023-06-20', DATE '2023-07-10');

-- What was the listed price of each product, and when?
-- The corrections are not asked for. So the three rows of product 10 at 1999 make one row,
-- and its higher price begins where that row ends. Product 20 keeps two rows: the gap.
-- The order in which the rows were inserted has no effect.
VALIDTIME SELECT DISTINCT PNO, CENTS FROM PRICES;

-- Which corrections were in force for some product, and when?
-- -200: the rebates of products 10 and 30 overlap and make one row.
--    0: product 10 has 0 throughout, but for the days from 2023-06-15 to 2023-07-01. On those
--       product 20 is not on sale and product 30 has no 0 either. So there are two rows.
-- Numbers are in ascending order, the negative ones first.
VALIDTIME SELECT DISTINCT CORR FROM PRICES;

-- Which listed prices were asked for some product, and when?
-- Product 30 costs 1999 only while product 10 does too, so it adds no row.
-- Numbers compare as numbers: 500 comes before 1999.
VALIDTIME SELECT DISTINCT CENTS FROM PRICES;
