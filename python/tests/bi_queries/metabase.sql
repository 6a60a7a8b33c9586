-- Queries of Metabase through JDBC, besides DatabaseMetaData: the time zone of the connection.
--= UTC
select current_setting('TIMEZONE') as "timezone"

-- A text of its own begins with a comment.
--= 1
-- Metabase:: userID: 1 queryType: native queryHash: 0
SELECT 1

-- The tables, with their sizes.
--~ the sizes are known there
--= public | EMP | TABLE | NULL | NULL
--= public | PAY | TABLE | NULL | NULL
SELECT "n"."nspname" AS "schema", "c"."relname" AS "name", CASE "c"."relkind" WHEN 'r' THEN 'TABLE' WHEN 'p' THEN 'PARTITIONED TABLE' WHEN 'v' THEN 'VIEW' WHEN 'f' THEN 'FOREIGN TABLE' WHEN 'm' THEN 'MATERIALIZED VIEW' ELSE NULL END AS "type", "d"."description" AS "description", "stat"."n_live_tup" AS "estimated_row_count" FROM "pg_catalog"."pg_class" AS "c" INNER JOIN "pg_catalog"."pg_namespace" AS "n" ON "c"."relnamespace" = "n"."oid" LEFT JOIN "pg_catalog"."pg_description" AS "d" ON ("c"."oid" = "d"."objoid") AND ("d"."objsubid" = 0) AND ("d"."classoid" = 'pg_class'::regclass) LEFT JOIN "pg_stat_user_tables" AS "stat" ON ("n"."nspname" = "stat"."schemaname") AND ("c"."relname" = "stat"."relname") WHERE ("c"."relnamespace" = "n"."oid") AND ("n"."nspname" !~ '^pg_') AND ("n"."nspname" <> 'information_schema') AND "c"."relkind" IN ('r', 'p', 'v', 'f', 'm') AND ("n"."nspname" IN ('public')) ORDER BY "type" ASC, "schema" ASC, "name" ASC

-- The columns of a schema.
--= ENO | int8 | 0 | public | EMP | t | NULL | t | f
--= NAME | varchar | 1 | public | EMP | f | NULL | t | f
--= S | date | 2 | public | EMP | f | NULL | t | f
--= E | date | 3 | public | EMP | f | NULL | t | f
--= SS | timestamp | 4 | public | EMP | f | NULL | t | f
--= SE | timestamp | 5 | public | EMP | f | NULL | t | f
SELECT "c"."column_name" AS "name", CASE WHEN "c"."udt_schema" IN ('public', 'pg_catalog') THEN FORMAT('%s', "c"."udt_name") ELSE FORMAT('"%s"."%s"', "c"."udt_schema", "c"."udt_name") END AS "database-type", "c"."ordinal_position" - 1 AS "database-position", "c"."table_schema" AS "table-schema", "c"."table_name" AS "table-name", "pk"."column_name" IS NOT NULL AS "pk?", COL_DESCRIPTION(CAST(CAST(FORMAT('%I.%I', CAST("c"."table_schema" AS TEXT), CAST("c"."table_name" AS TEXT)) AS REGCLASS) AS OID), "c"."ordinal_position") AS "field-comment", (("c"."column_default" IS NULL) OR (LOWER("c"."column_default") = 'null')) AND ("c"."is_nullable" = 'NO') AND NOT ((("c"."column_default" IS NOT NULL) AND ("c"."column_default" LIKE '%nextval(%')) OR ("c"."is_identity" <> 'NO')) AS "database-required", (("c"."column_default" IS NOT NULL) AND ("c"."column_default" LIKE '%nextval(%')) OR ("c"."is_identity" <> 'NO') AS "database-is-auto-increment" FROM "information_schema"."columns" AS "c" LEFT JOIN (SELECT "tc"."table_schema", "tc"."table_name", "kc"."column_name" FROM "information_schema"."table_constraints" AS "tc" INNER JOIN "information_schema"."key_column_usage" AS "kc" ON ("tc"."constraint_name" = "kc"."constraint_name") AND ("tc"."table_schema" = "kc"."table_schema") AND ("tc"."table_name" = "kc"."table_name") WHERE "tc"."constraint_type" = 'PRIMARY KEY') AS "pk" ON ("c"."table_schema" = "pk"."table_schema") AND ("c"."table_name" = "pk"."table_name") AND ("c"."column_name" = "pk"."column_name") WHERE c.table_schema !~ '^information_schema|catalog_history|pg_' AND ("c"."table_schema" IN ('public')) AND ("c"."table_name" IN ('EMP')) ORDER BY "table-schema" ASC, "table-name" ASC, "database-position" ASC

-- The references between tables.
--= public | PAY | ENO | public | EMP | ENO
SELECT "fk_ns"."nspname" AS "fk-table-schema", "fk_table"."relname" AS "fk-table-name", "fk_column"."attname" AS "fk-column-name", "pk_ns"."nspname" AS "pk-table-schema", "pk_table"."relname" AS "pk-table-name", "pk_column"."attname" AS "pk-column-name" FROM "pg_constraint" AS "c" INNER JOIN "pg_class" AS "fk_table" ON "c"."conrelid" = "fk_table"."oid" INNER JOIN "pg_namespace" AS "fk_ns" ON "c"."connamespace" = "fk_ns"."oid" INNER JOIN "pg_attribute" AS "fk_column" ON "c"."conrelid" = "fk_column"."attrelid" INNER JOIN "pg_class" AS "pk_table" ON "c"."confrelid" = "pk_table"."oid" INNER JOIN "pg_namespace" AS "pk_ns" ON "pk_table"."relnamespace" = "pk_ns"."oid" INNER JOIN "pg_attribute" AS "pk_column" ON "c"."confrelid" = "pk_column"."attrelid" WHERE fk_ns.nspname !~ '^information_schema|catalog_history|pg_' AND ("c"."contype" = 'f'::char) AND "fk_column"."attnum" = ANY("c"."conkey") AND "pk_column"."attnum" = ANY("c"."confkey") ORDER BY "fk-table-schema" ASC, "fk-table-name" ASC

-- Rights of the user to each table.
--= NULL | public | EMP | t | t | t | t
--= NULL | public | PAY | t | t | t | t
with table_privileges as (
 select
   NULL as role,
   t.schemaname as schema,
   t.objectname as table,
   pg_catalog.has_any_column_privilege(current_user, '"' || replace(t.schemaname, '"', '""') || '"' || '.' || '"' || replace(t.objectname, '"', '""') || '"',  'update') as update,
   pg_catalog.has_any_column_privilege(current_user, '"' || replace(t.schemaname, '"', '""') || '"' || '.' || '"' || replace(t.objectname, '"', '""') || '"',  'select') as select,
   pg_catalog.has_any_column_privilege(current_user, '"' || replace(t.schemaname, '"', '""') || '"' || '.' || '"' || replace(t.objectname, '"', '""') || '"',  'insert') as insert,
   pg_catalog.has_table_privilege(     current_user, '"' || replace(t.schemaname, '"', '""') || '"' || '.' || '"' || replace(t.objectname, '"', '""') || '"',  'delete') as delete
 from (
   select schemaname, tablename as objectname from pg_catalog.pg_tables
   union
   select schemaname, viewname as objectname from pg_views
   union
   select schemaname, matviewname as objectname from pg_matviews
 ) t
 where t.schemaname !~ '^pg_'
   and t.schemaname <> 'information_schema'
   and pg_catalog.has_schema_privilege(current_user, t.schemaname, 'usage')
)
select t.*
from table_privileges t

-- The values of its own types: none.
--= none
SELECT nspname, typname FROM pg_type t JOIN pg_namespace n ON n.oid = t.typnamespace WHERE t.oid IN (SELECT DISTINCT enumtypid FROM pg_enum)

-- Whether a table may be read.
--= none
SELECT TRUE AS "_" FROM "public"."PAY" WHERE 1 <> 1 LIMIT 0

-- A sample for the fingerprints of columns.
--= 1 | Ann
--= 2 | Max
SELECT "public"."EMP"."ENO" AS "ENO", SUBSTRING("public"."EMP"."NAME", 1, 1234) AS "substring123" FROM "public"."EMP" LIMIT 10000

-- A table's rows, as the browser of data shows them.
--= 1 | 310000 | 2024-01-01 | 9999-12-31 | 2024-01-01 00:00:00 | 9999-12-31 23:59:59.999999
SELECT "public"."PAY"."ENO" AS "ENO", "public"."PAY"."CENTS" AS "CENTS", "public"."PAY"."S" AS "S", "public"."PAY"."E" AS "E", "public"."PAY"."SS" AS "SS", "public"."PAY"."SE" AS "SE" FROM "public"."PAY" WHERE "public"."PAY"."ENO" = 1 LIMIT 2000

-- A count, behind such a comment.
--= 3
-- Metabase:: userID: 1 queryType: MBQL queryHash: 0
SELECT COUNT(*) AS "count" FROM "public"."PAY"

-- A count by name, over a join.
--= Max | 2 | 301525.0
--= Ann | 1 | 310000.0
SELECT "EMP__via__ENO"."NAME" AS "EMP__via__ENO__NAME", COUNT(*) AS "count", AVG("public"."PAY"."CENTS") AS "avg" FROM "public"."PAY" LEFT JOIN "public"."EMP" AS "EMP__via__ENO" ON "public"."PAY"."ENO" = "EMP__via__ENO"."ENO" GROUP BY "EMP__via__ENO"."NAME" ORDER BY "count" DESC, "EMP__via__ENO"."NAME" ASC

-- By month, with a filter of dates.
--= 2024-01-01 | 2
--= 2024-07-01 | 1
SELECT CAST(DATE_TRUNC('month', "public"."PAY"."S") AS DATE) AS "S", COUNT(*) AS "count" FROM "public"."PAY" WHERE ("public"."PAY"."S" >= DATE '2024-01-01') AND ("public"."PAY"."S" < DATE '2025-01-01') GROUP BY CAST(DATE_TRUNC('month', "public"."PAY"."S") AS DATE) ORDER BY CAST(DATE_TRUNC('month', "public"."PAY"."S") AS DATE) ASC

-- By what was recorded in a span, by moments.
--= 3
SELECT COUNT(*) AS "count" FROM "public"."PAY" WHERE ("public"."PAY"."SS" >= timestamp with time zone '2024-01-01 00:00:00.000Z') AND ("public"."PAY"."SS" < timestamp with time zone '2024-01-02 00:00:00.000Z')

-- By the time of today: since a hundred years.
--= 3
SELECT COUNT(*) AS "count" FROM "public"."PAY" WHERE ("public"."PAY"."S" >= DATE_TRUNC('month', (NOW() + INTERVAL '-1200 month'))) AND ("public"."PAY"."S" < DATE_TRUNC('month', NOW()))

-- A question over a question, with a parameter.
--$ 300000
--= 2 | 305000
SELECT "source"."ENO" AS "ENO", "source"."max" AS "max" FROM (SELECT "public"."PAY"."ENO" AS "ENO", MAX("public"."PAY"."CENTS") AS "max" FROM "public"."PAY" WHERE "public"."PAY"."ENO" > 1 GROUP BY "public"."PAY"."ENO") AS "source" WHERE "source"."max" > $1 LIMIT 1048575

-- Names in lower case.
--~ there they are others
--= 1 | 310000
SELECT "public"."pay"."eno" AS "eno", "public"."pay"."cents" AS "cents" FROM "public"."pay" WHERE "public"."pay"."eno" = 1 LIMIT 5

-- A table that is not there.
--! 42P01
SELECT "public"."NONE"."ENO" AS "ENO" FROM "public"."NONE" LIMIT 1

-- The time zone, as older versions ask; settings of a connection.
--= UTC
show timezone;

--= done
SET SESSION TIMEZONE TO 'UTC';

--= done
SET SESSION CHARACTERISTICS AS TRANSACTION ISOLATION LEVEL READ UNCOMMITTED

--= done
SET SESSION CHARACTERISTICS AS TRANSACTION READ ONLY

-- The indexes.
--= public | EMP | ENO
SELECT "tmp"."table-schema", "tmp"."table-name", TRIM(BOTH '"' FROM PG_CATALOG.PG_GET_INDEXDEF("tmp"."ci_oid", "tmp"."pos", FALSE)) AS "field-name" FROM (SELECT "n"."nspname" AS "table-schema", "ct"."relname" AS "table-name", "ci"."oid" AS "ci_oid", (information_schema._pg_expandarray("i"."indkey"))."n" AS "pos" FROM "pg_catalog"."pg_class" AS "ct" INNER JOIN "pg_catalog"."pg_namespace" AS "n" ON "ct"."relnamespace" = "n"."oid" INNER JOIN "pg_catalog"."pg_index" AS "i" ON "ct"."oid" = "i"."indrelid" INNER JOIN "pg_catalog"."pg_class" AS "ci" ON "ci"."oid" = "i"."indexrelid" WHERE (pg_catalog.pg_get_expr("i"."indpred", "i"."indrelid") IS NULL) AND n.nspname !~ '^information_schema|catalog_history|pg_' AND ("n"."nspname" IN ('public')) AND ("ct"."relname" IN ('EMP'))) AS "tmp" WHERE "tmp"."pos" = 1

-- The columns and those of materialized views, of which there are none.
--= ENO | int8 | 0 | public | EMP | f
--= NAME | varchar | 1 | public | EMP | f
--= S | date | 2 | public | EMP | f
--= E | date | 3 | public | EMP | f
--= SS | timestamp | 4 | public | EMP | f
--= SE | timestamp | 5 | public | EMP | f
--= ENO | int8 | 0 | public | PAY | f
--= CENTS | int8 | 1 | public | PAY | f
--= S | date | 2 | public | PAY | f
--= E | date | 3 | public | PAY | f
--= SS | timestamp | 4 | public | PAY | f
--= SE | timestamp | 5 | public | PAY | f
SELECT "c"."column_name" AS "name", "c"."udt_name" AS "database-type", "c"."ordinal_position" - 1 AS "database-position", "c"."table_schema" AS "table-schema", "c"."table_name" AS "table-name", FALSE AS "pk?" FROM "information_schema"."columns" AS "c" WHERE c.table_schema !~ '^information_schema|catalog_history|pg_' AND ("c"."table_schema" IN ('public')) UNION ALL SELECT "pa"."attname" AS "name", CASE WHEN "ptn"."nspname" IN ('public', 'pg_catalog') THEN FORMAT('%s', "pt"."typname") ELSE FORMAT('"%s"."%s"', "ptn"."nspname", "pt"."typname") END AS "database-type", "pa"."attnum" - 1 AS "database-position", "pn"."nspname" AS "table-schema", "pc"."relname" AS "table-name", FALSE AS "pk?" FROM "pg_catalog"."pg_class" AS "pc" INNER JOIN "pg_catalog"."pg_namespace" AS "pn" ON "pn"."oid" = "pc"."relnamespace" INNER JOIN "pg_catalog"."pg_attribute" AS "pa" ON "pa"."attrelid" = "pc"."oid" INNER JOIN "pg_catalog"."pg_type" AS "pt" ON "pt"."oid" = "pa"."atttypid" INNER JOIN "pg_catalog"."pg_namespace" AS "ptn" ON "ptn"."oid" = "pt"."typnamespace" WHERE "pc"."relkind" = 'm' AND "pa"."attnum" >= 1 ORDER BY "table-schema" ASC, "table-name" ASC, "database-position" ASC

-- The values of a column, for lists; how many there are.
--= Ann
--= Max
SELECT "public"."EMP"."NAME" AS "NAME" FROM "public"."EMP" GROUP BY "public"."EMP"."NAME" ORDER BY "public"."EMP"."NAME" ASC LIMIT 1001

--= 2 | 298050 | 310000
SELECT COUNT(DISTINCT "public"."PAY"."ENO") AS "count", MIN("public"."PAY"."CENTS") AS "min", MAX("public"."PAY"."CENTS") AS "max" FROM "public"."PAY"

-- By week, as older versions write it, and newer ones.
--= 2023-12-31 00:00:00 | 2
--= 2024-06-30 00:00:00 | 1
SELECT (CAST(date_trunc('week', (CAST("public"."PAY"."S" AS timestamp) + (INTERVAL '1 day'))) AS timestamp) + (INTERVAL '-1 day')) AS "S", count(*) AS "count" FROM "public"."PAY" GROUP BY (CAST(date_trunc('week', (CAST("public"."PAY"."S" AS timestamp) + (INTERVAL '1 day'))) AS timestamp) + (INTERVAL '-1 day')) ORDER BY (CAST(date_trunc('week', (CAST("public"."PAY"."S" AS timestamp) + (INTERVAL '1 day'))) AS timestamp) + (INTERVAL '-1 day')) ASC

--= 2023-12-31 | 2
--= 2024-06-30 | 1
SELECT CAST((CAST(DATE_TRUNC('week', ("public"."PAY"."S" + INTERVAL '1 day')) AS DATE) + INTERVAL '-1 day') AS DATE) AS "S", COUNT(*) AS "count" FROM "public"."PAY" GROUP BY CAST((CAST(DATE_TRUNC('week', ("public"."PAY"."S" + INTERVAL '1 day')) AS DATE) + INTERVAL '-1 day') AS DATE) ORDER BY CAST((CAST(DATE_TRUNC('week', ("public"."PAY"."S" + INTERVAL '1 day')) AS DATE) + INTERVAL '-1 day') AS DATE) ASC

-- By quarter and year; by month of the year; by parts of dates.
--= 2024-01-01 | 2024-01-01 | 298050
--= 2024-01-01 | 9999-01-01 | 310000
--= 2024-07-01 | 2025-01-01 | 305000
SELECT CAST(DATE_TRUNC('quarter', "public"."PAY"."S") AS DATE) AS "S", CAST(DATE_TRUNC('year', "public"."PAY"."E") AS DATE) AS "E", SUM("public"."PAY"."CENTS") AS "sum" FROM "public"."PAY" GROUP BY CAST(DATE_TRUNC('quarter', "public"."PAY"."S") AS DATE), CAST(DATE_TRUNC('year', "public"."PAY"."E") AS DATE) ORDER BY CAST(DATE_TRUNC('quarter', "public"."PAY"."S") AS DATE) ASC, CAST(DATE_TRUNC('year', "public"."PAY"."E") AS DATE) ASC

--= 1 | 2
--= 7 | 1
SELECT CAST(extract(month from "public"."PAY"."S") AS integer) AS "S", COUNT(*) AS "count" FROM "public"."PAY" GROUP BY CAST(extract(month from "public"."PAY"."S") AS integer) ORDER BY CAST(extract(month from "public"."PAY"."S") AS integer) ASC

--= 1 | 2 | 1
--= 1 | 2 | 1
--= 3 | 2 | 183
SELECT CAST(extract(quarter from "public"."PAY"."S") AS integer) AS "q", (CAST(extract(dow from "public"."PAY"."S") AS integer) + 1) AS "d", CAST(extract(doy from "public"."PAY"."S") AS integer) AS "y" FROM "public"."PAY" LIMIT 3

-- Filters of texts.
--= Ann
SELECT "public"."EMP"."NAME" AS "NAME" FROM "public"."EMP" WHERE (LOWER("public"."EMP"."NAME") LIKE '%an%') AND ("public"."EMP"."NAME" <> 'Max' OR "public"."EMP"."NAME" IS NULL) AND (NOT (LOWER("public"."EMP"."NAME") LIKE 'z%') OR ("public"."EMP"."NAME" IS NULL)) LIMIT 2000

-- Filters of days: by today, by days.
--= 3
SELECT COUNT(*) AS "count" FROM "public"."PAY" WHERE "public"."PAY"."S" >= CAST((NOW() + INTERVAL '-36500 day') AS date) AND "public"."PAY"."S" < CAST(NOW() AS date)

--= 3
SELECT COUNT(*) AS "count" FROM "public"."PAY" WHERE ("public"."PAY"."SS" >= CAST(CAST((NOW() + INTERVAL '-36500 day') AS date) AS timestamp)) AND ("public"."PAY"."SS" < CAST(CAST(NOW() AS date) AS timestamp))

--= 3
SELECT COUNT(*) AS "count" FROM "public"."PAY" WHERE ("public"."PAY"."S" = date '2024-07-01') OR ("public"."PAY"."S" BETWEEN date '2024-01-01' AND date '2024-02-01')

-- Groups of numbers.
--= 295000.0 | 1
--= 305000.0 | 1
--= 310000.0 | 1
SELECT ((FLOOR((("public"."PAY"."CENTS" - 290000.0) / 5000.0)) * 5000.0) + 290000.0) AS "CENTS", COUNT(*) AS "count" FROM "public"."PAY" GROUP BY ((FLOOR((("public"."PAY"."CENTS" - 290000.0) / 5000.0)) * 5000.0) + 290000.0) ORDER BY ((FLOOR((("public"."PAY"."CENTS" - 290000.0) / 5000.0)) * 5000.0) + 290000.0) ASC

-- A share; a deviation and a variance; a median.
--= 2.0 | 0.6666666666666666
SELECT SUM(CASE WHEN "public"."PAY"."CENTS" > 300000 THEN 1 ELSE 0.0 END) AS "count-where", CAST(SUM(CASE WHEN "public"."PAY"."CENTS" > 300000 THEN 1 ELSE 0.0 END) AS DOUBLE PRECISION) / NULLIF(CAST(COUNT(*) AS DOUBLE PRECISION), 0.0) AS "share" FROM "public"."PAY"

--~ more digits there
--= 4900.170065075973 | 24011666.666666668
SELECT STDDEV_POP("public"."PAY"."CENTS") AS "stddev", VAR_POP("public"."PAY"."CENTS") AS "var" FROM "public"."PAY"

--= 305000.0
SELECT PERCENTILE_CONT(0.5) within group (order by "public"."PAY"."CENTS") AS "median" FROM "public"."PAY"

-- A sum so far.
--= 2024-01-01 | 2
--= 2024-07-01 | 3
SELECT CAST(DATE_TRUNC('month', "public"."PAY"."S") AS DATE) AS "S", SUM(COUNT(*)) OVER (ORDER BY CAST(DATE_TRUNC('month', "public"."PAY"."S") AS DATE) ASC ROWS UNBOUNDED PRECEDING) AS "count" FROM "public"."PAY" GROUP BY CAST(DATE_TRUNC('month', "public"."PAY"."S") AS DATE) ORDER BY CAST(DATE_TRUNC('month', "public"."PAY"."S") AS DATE) ASC

-- Expressions of numbers, of texts, and the days between dates.
--= 3100.0 | x1 | 310000 | 310000.0 | 44285.71428571428 | 44285.7
SELECT "public"."PAY"."CENTS" / 100.0 AS "Euros", CONCAT('x', "public"."PAY"."ENO") AS "c", COALESCE("public"."PAY"."CENTS", 0) AS "k", "public"."PAY"."CENTS"::float AS "f", CAST("public"."PAY"."CENTS" AS float) / 7 AS "g", ROUND("public"."PAY"."CENTS" / 7.0, 1) AS "r" FROM "public"."PAY" LIMIT 1

--= An | 3 | ANN | Ann | Amm
SELECT SUBSTRING("public"."EMP"."NAME", 1, 2) AS "s", LENGTH("public"."EMP"."NAME") AS "l", UPPER("public"."EMP"."NAME") AS "u", TRIM("public"."EMP"."NAME") AS "t", REPLACE("public"."EMP"."NAME", 'n', 'm') AS "r" FROM "public"."EMP" ORDER BY "public"."EMP"."ENO" ASC LIMIT 1

--= 182 | 2024-02-01
--= 184 | 2024-08-01
SELECT (CAST("public"."PAY"."E" AS DATE) - CAST("public"."PAY"."S" AS DATE)) AS "days", CAST(("public"."PAY"."S" + INTERVAL '1 month') AS DATE) AS "next" FROM "public"."PAY" WHERE "public"."PAY"."ENO" = 2

--= 366 | 2024-12-31
SELECT "source"."last" - "source"."first" AS "days", "source"."last" - 1 AS "last_day" FROM (SELECT MIN("public"."PAY"."S") AS "first", MAX("public"."PAY"."E") AS "last" FROM "public"."PAY" WHERE "public"."PAY"."ENO" = 2) AS "source"

-- A question joined with a table, and one with a common table.
--= 1 | 1
--= 2 | 2
SELECT "source"."ENO" AS "ENO", "Question 1"."count" AS "c" FROM (SELECT "public"."EMP"."ENO" AS "ENO" FROM "public"."EMP") AS "source" LEFT JOIN (SELECT "public"."PAY"."ENO" AS "ENO", COUNT(*) AS "count" FROM "public"."PAY" GROUP BY "public"."PAY"."ENO" ORDER BY "public"."PAY"."ENO" ASC) AS "Question 1" ON "source"."ENO" = "Question 1"."ENO" LIMIT 1048575

--= 3
WITH "base" AS (SELECT "public"."PAY"."ENO" AS "ENO" FROM "public"."PAY") SELECT COUNT(*) AS "count" FROM "base"

-- A question over one in the profile's own words.
--~ no statement of PostgreSQL
--= 1 | 310000
--= 2 | 603050
SELECT "source"."ENO" AS "ENO", SUM("source"."CENTS") AS "sum" FROM (VALIDTIME SELECT DISTINCT ENO, CENTS FROM PAY) AS "source" GROUP BY "source"."ENO" ORDER BY "source"."ENO" ASC
