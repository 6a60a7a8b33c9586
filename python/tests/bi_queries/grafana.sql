-- Queries of Grafana's data source of PostgreSQL: the version, first of all.
--~ of another version
--= 906
SELECT current_setting('server_version_num')::int/100 as version

-- Whether TimescaleDB is there.
--= none
SELECT extversion FROM pg_extension WHERE extname = 'timescaledb'

-- The tables of the query builder's list.
--= "EMP"
--= "PAY"
select
      case
        when quote_ident(table_schema) in (
          select
            case
              when trim(s[i]) = '"$user"' then user
              else trim(s[i])
            end
            from
              generate_series(
                array_lower(string_to_array(current_setting('search_path'),','),1),
                array_upper(string_to_array(current_setting('search_path'),','),1)
              ) as i,
              string_to_array(current_setting('search_path'),',') s
          )
        then quote_ident(table_name)
        else quote_ident(table_schema) || '.' || quote_ident(table_name)
      end as "table"
      from information_schema.tables
      where quote_ident(table_schema) not in (
          'information_schema',
          'pg_catalog',
          '_timescaledb_cache',
          '_timescaledb_catalog',
          '_timescaledb_internal',
          '_timescaledb_config',
          'timescaledb_information',
          'timescaledb_experimental'
        )
      order by
        case
          when quote_ident(table_schema) in (
            select
              case
                when trim(s[i]) = '"$user"' then user
                else trim(s[i])
              end
              from
                generate_series(
                  array_lower(string_to_array(current_setting('search_path'),','),1),
                  array_upper(string_to_array(current_setting('search_path'),','),1)
                ) as i,
                string_to_array(current_setting('search_path'),',') s
          )
        then 0
        else 1
      end,
      1

-- The columns of a table of that list.
--= "ENO" | bigint
--= "CENTS" | bigint
--= "S" | date
--= "E" | date
--= "SS" | timestamp without time zone
--= "SE" | timestamp without time zone
select
      quote_ident(column_name) as "column",
      data_type as "type"
    from information_schema.columns
    where
      case
          when array_length(parse_ident('"PAY"'),1) = 2
            then quote_ident(table_schema) = (parse_ident('"PAY"'))[1]
            and quote_ident(table_name) = (parse_ident('"PAY"'))[2]
          else quote_ident(table_name) = '"PAY"'
          and quote_ident(table_schema) in (
            select
              case
                when trim(s[i]) = '"$user"' then user
                else trim(s[i])
              end
            from generate_series(
                array_lower(string_to_array(current_setting('search_path'),','),1),
                array_upper(string_to_array(current_setting('search_path'),','),1)
              ) as i,
              string_to_array(current_setting('search_path'),',') s
          )
        end

-- A query of the builder.
--= 2 | 298050
--= 2 | 305000
--= 1 | 310000
SELECT "ENO", "CENTS" FROM "PAY" ORDER BY 2 LIMIT 50

-- A table of totals, by the builder.
--= 310000 | 1
--= 603050 | 2
SELECT SUM("CENTS"), "ENO" FROM "PAY" GROUP BY "ENO" ORDER BY 1 LIMIT 50

-- A chart: $__time and $__timeFilter as they are expanded.
--= 2024-07-01 | 305000
SELECT "S" AS "time", "CENTS" FROM "PAY" WHERE "S" BETWEEN '2024-06-30T22:00:00Z' AND '2024-12-31T22:59:59.999Z' ORDER BY 1

-- A chart: $__timeGroupAlias(.., 1d) as it is expanded.
--= 1704067200 | 298050.0
--= 1719792000 | 305000.0
SELECT floor(extract(epoch from "S")/86400)*86400 AS "time", avg("CENTS") AS "pay" FROM "PAY" WHERE "ENO" = 2 GROUP BY 1 ORDER BY 1

-- The choices of a variable.
--= Ann
--= Max
SELECT DISTINCT "NAME" FROM "EMP" ORDER BY 1

-- A question by hand, over what held on each day.
--~ no statement of PostgreSQL
--= 2024-01-01 | 298050
--= 2024-07-01 | 305000
SELECT valid_from AS "time", "CENTS" FROM (VALIDTIME SELECT DISTINCT ENO, CENTS FROM PAY WHERE ENO = 2) AS a WHERE valid_from BETWEEN '2023-12-31T23:00:00Z' AND '2024-12-31T22:59:59.999Z' ORDER BY 1

-- Whether the server is there, by the older driver and the newer one.
--= done
;

--= done
-- ping

-- The builder of versions to 9.2: a first table with a column of moments and one of numbers.
--= none
SELECT
    quote_ident(table_name) as table_name,
    ( SELECT
        quote_ident(column_name) as column_name
      FROM information_schema.columns c
      WHERE
        c.table_schema = t.table_schema AND
        c.table_name = t.table_name AND
        udt_name IN ('timestamptz','timestamp')
      ORDER BY ordinal_position LIMIT 1
    ) AS time_column,
    ( SELECT
        quote_ident(column_name) AS column_name
      FROM information_schema.columns c
      WHERE
        c.table_schema = t.table_schema AND
        c.table_name = t.table_name AND
        udt_name='float8'
      ORDER BY ordinal_position LIMIT 1
    ) AS value_column
  FROM information_schema.tables t
  WHERE
        quote_ident(table_schema) IN (
          SELECT
            CASE WHEN trim(s[i]) = '"$user"' THEN user ELSE trim(s[i]) END
          FROM
            generate_series(
              array_lower(string_to_array(current_setting('search_path'),','),1),
              array_upper(string_to_array(current_setting('search_path'),','),1)
            ) as i,
            string_to_array(current_setting('search_path'),',') s
          ) AND
    EXISTS
    ( SELECT 1
      FROM information_schema.columns c
      WHERE
        c.table_schema = t.table_schema AND
        c.table_name = t.table_name AND
        udt_name IN ('timestamptz','timestamp')
    ) AND
    EXISTS
    ( SELECT 1
      FROM information_schema.columns c
      WHERE
        c.table_schema = t.table_schema AND
        c.table_name = t.table_name AND
        udt_name='float8'
    )
  LIMIT 1
;

-- The tables.
--= "EMP"
--= "PAY"
SELECT quote_ident(table_name) FROM information_schema.tables WHERE
        quote_ident(table_schema) IN (
          SELECT
            CASE WHEN trim(s[i]) = '"$user"' THEN user ELSE trim(s[i]) END
          FROM
            generate_series(
              array_lower(string_to_array(current_setting('search_path'),','),1),
              array_upper(string_to_array(current_setting('search_path'),','),1)
            ) as i,
            string_to_array(current_setting('search_path'),',') s
          ) ORDER BY table_name

-- Columns that may be the time.
--= "CENTS"
--= "ENO"
--= "SE"
--= "SS"
SELECT quote_ident(column_name) FROM information_schema.columns WHERE
          quote_ident(table_name) = '"PAY"' AND
        quote_ident(table_schema) IN (
          SELECT
            CASE WHEN trim(s[i]) = '"$user"' THEN user ELSE trim(s[i]) END
          FROM
            generate_series(
              array_lower(string_to_array(current_setting('search_path'),','),1),
              array_upper(string_to_array(current_setting('search_path'),','),1)
            ) as i,
            string_to_array(current_setting('search_path'),',') s
          ) AND data_type IN ('timestamp without time zone','timestamp with time zone','bigint','integer','double precision','real') ORDER BY column_name

-- The type of a column.
--= int8
SELECT udt_name FROM information_schema.columns WHERE
          quote_ident(table_name) = '"PAY"' AND
        quote_ident(table_schema) IN (
          SELECT
            CASE WHEN trim(s[i]) = '"$user"' THEN user ELSE trim(s[i]) END
          FROM
            generate_series(
              array_lower(string_to_array(current_setting('search_path'),','),1),
              array_upper(string_to_array(current_setting('search_path'),','),1)
            ) as i,
            string_to_array(current_setting('search_path'),',') s
          ) AND quote_ident(column_name) = '"CENTS"'

-- Aggregates, and the values of a column.
--~ they are there
--= none
SELECT DISTINCT proname FROM pg_aggregate INNER JOIN pg_proc ON pg_aggregate.aggfnoid = pg_proc.oid INNER JOIN pg_type ON pg_type.oid=pg_proc.prorettype WHERE pronargs=1 AND typname IN ('float8') AND aggkind='n' ORDER BY 1

--= 'Ann'
--= 'Max'
SELECT DISTINCT quote_literal("NAME") FROM "EMP" WHERE "SS" BETWEEN '2023-06-30T22:00:00Z' AND '2024-12-31T22:59:59.999Z' AND "NAME" IS NOT NULL ORDER BY 1 LIMIT 100

-- A chart of that builder, with a metric.
--= 1704067200 | 1 | 310000.0
--= 1704067200 | 2 | 298050.0
--= 1719792000 | 2 | 305000.0
SELECT
  floor(extract(epoch from "S")/86400)*86400 AS "time",
  "ENO" AS metric,
  avg("CENTS") AS "CENTS"
FROM "PAY"
WHERE
  "S" BETWEEN '2023-12-31T22:00:00Z' AND '2024-12-31T22:59:59.999Z'
GROUP BY 1,2
ORDER BY 1,2

-- Changes and rates.
--= 2024-01-01 | NULL
--= 2024-01-01 | NULL
--= 2024-07-01 | 6950
SELECT
  "S" AS "time",
  "CENTS" - lag("CENTS") OVER (PARTITION BY "ENO" ORDER BY "S") AS "CENTS"
FROM "PAY"
WHERE
  "S" BETWEEN '2023-12-31T22:00:00Z' AND '2024-12-31T22:59:59.999Z'
ORDER BY 1

--= 2024-01-01 | NULL
--= 2024-01-01 | 298050
--= 2024-07-01 | 6950
SELECT
  "S" AS "time",
  (CASE WHEN "CENTS" >= lag("CENTS") OVER (ORDER BY "S") THEN "CENTS" - lag("CENTS") OVER (ORDER BY "S") WHEN lag("CENTS") OVER (ORDER BY "S") IS NULL THEN NULL ELSE "CENTS" END) AS "CENTS"
FROM "PAY"
WHERE
  "S" BETWEEN '2023-12-31T22:00:00Z' AND '2024-12-31T22:59:59.999Z'
ORDER BY 1

--= 2024-01-01 00:00:00 | NULL
SELECT
  "SS" AS "time",
  (CASE WHEN "CENTS" >= lag("CENTS") OVER (ORDER BY "SS") THEN "CENTS" - lag("CENTS") OVER (ORDER BY "SS") WHEN lag("CENTS") OVER (ORDER BY "SS") IS NULL THEN NULL ELSE "CENTS" END)/extract(epoch from "SS" - lag("SS") OVER (ORDER BY "SS")) AS "CENTS"
FROM "PAY"
WHERE
  "SS" BETWEEN '2023-12-31T22:00:00Z' AND '2024-12-31T22:59:59.999Z' AND
  "ENO" = 1
ORDER BY 1

--= 2024-01-01 | NULL
--= 2024-07-01 | 15724800
SELECT "S" AS "time", extract(epoch from CAST("S" AS timestamp) - lag(CAST("S" AS timestamp)) OVER (ORDER BY "S")) AS "seconds" FROM "PAY" WHERE "ENO" = 2 ORDER BY 1

-- Averages of a moving window, and percentiles.
--= 2024-01-01 | 310000.0
--= 2024-01-01 | 304025.0
--= 2024-07-01 | 304350.0
SELECT
  "S" AS "time",
  avg("CENTS") OVER (ORDER BY "S" ROWS 5 PRECEDING) AS "CENTS"
FROM "PAY"
ORDER BY 1

--= 1704067200 | 309402.5
--= 1719792000 | 305000.0
SELECT
  floor(extract(epoch from "S")/86400)*86400 AS "time",
  percentile_cont(0.95) WITHIN GROUP (ORDER BY "CENTS") AS "CENTS"
FROM "PAY"
GROUP BY 1
ORDER BY 1

-- The tables, as version 10 lists them.
--= "EMP"
--= "PAY"
select
      case when 
          quote_ident(table_schema) IN (
          SELECT
            CASE WHEN trim(s[i]) = '"$user"' THEN user ELSE trim(s[i]) END
          FROM
            generate_series(
              array_lower(string_to_array(current_setting('search_path'),','),1),
              array_upper(string_to_array(current_setting('search_path'),','),1)
            ) as i,
            string_to_array(current_setting('search_path'),',') s
          )
        then quote_ident(table_name)
        else quote_ident(table_schema) || '.' || quote_ident(table_name)
      end as "table"
    from information_schema.tables
    where quote_ident(table_schema) not in ('information_schema',
                                  'pg_catalog',
                                  '_timescaledb_cache',
                                  '_timescaledb_catalog',
                                  '_timescaledb_internal',
                                  '_timescaledb_config',
                                  'timescaledb_information',
                                  'timescaledb_experimental')
    order by table_name

-- Groups of thirty days.
--= 1702944000.0 | 304025.0
--= 1718496000.0 | 305000.0
SELECT floor(extract(epoch from "S")/2.592e+06)*2.592e+06 AS "time", avg("CENTS") AS "CENTS" FROM "PAY" WHERE "S" BETWEEN '2023-12-31T22:00:00Z' AND '2024-12-31T22:59:59.999Z' GROUP BY 1 ORDER BY 1

-- $__timeEpoch, $__timeFrom and $__timeTo, $__unixEpochFilter and $__unixEpochGroup as they are expanded.
--= 1704067200 | 310000
--= 1704067200 | 298050
--= 1704067200 | 305000
SELECT extract(epoch from "SS") as "time", "CENTS" FROM "PAY" WHERE extract(epoch from "SS") >= 1704060000 AND extract(epoch from "SS") <= 1735689599 ORDER BY 1

--= 2024-01-01 | 310000
--= 2024-01-01 | 298050
--= 2024-07-01 | 305000
SELECT "S" AS "time", "CENTS" FROM "PAY" WHERE "S" > '2023-12-31T23:00:00Z' AND "S" < '2024-12-31T22:59:59.999Z' ORDER BY 1

--= none
SELECT "ENO" FROM "PAY" WHERE "CENTS" >= 1704060 AND "CENTS" <= 1735689599

--= 298020 | 1
--= 304980 | 1
--= 309960 | 1
SELECT floor(("CENTS")/60)*60 AS "time", count("ENO") AS "n" FROM "PAY" GROUP BY 1 ORDER BY 1

-- Annotations.
--= 1577836800 | Ann | x
--= 1577836800 | Max | x
SELECT
  extract(epoch from "S") AS time,
  "NAME" as text,
  'x' as tags
FROM
  "EMP"
WHERE
  "S" BETWEEN '2019-12-31T22:00:00Z' AND '2024-12-31T22:59:59.999Z'

-- The choices of a variable with texts and values, and a query of two chosen ones.
--= Ann | 1
--= Max | 2
SELECT "NAME" AS __text, "ENO" AS __value FROM "EMP"

--= Ann
--= Max
SELECT "NAME" FROM "EMP" WHERE "NAME" IN ('Ann','Max') ORDER BY 1

-- The builder, with a filter, and with names of its columns.
--= 301525.0 | 2
SELECT AVG("CENTS"), "ENO" FROM "PAY" WHERE ("ENO" = 2 AND "CENTS" > 1) GROUP BY "ENO" LIMIT 50

--= 2 | 2
--= 1 | 1
SELECT COUNT("CENTS") AS "value", "ENO" AS "metric" FROM "PAY" WHERE "CENTS" IS NOT NULL GROUP BY "metric" ORDER BY COUNT("CENTS") DESC LIMIT 50
