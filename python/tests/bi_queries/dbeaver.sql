-- Queries of DBeaver through JDBC, besides DatabaseMetaData: the session.
--: current_schema()
--= public
SELECT current_schema(),session_user

-- The settings that it looks at.
--$ standard_conforming_strings
--= standard_conforming_strings | on
--: name, setting
select * from pg_catalog.pg_settings where name=$1

-- The search path.
--~ there the user's own schema comes first
--= public
SHOW search_path

-- Settings that it makes.
--= done
SET extra_float_digits = 3

-- The databases.
--: datname
--= store
SELECT db.oid,db.* FROM pg_catalog.pg_database db WHERE datallowconn AND NOT datistemplate OR db.datname ='store'

-- The schemas.
--= pg_catalog | NULL
--= public | NULL
--: nspname, description
SELECT n.oid,n.*,d.description FROM pg_catalog.pg_namespace n LEFT OUTER JOIN pg_catalog.pg_description d ON d.objoid=n.oid AND d.objsubid=0 AND d.classoid='pg_namespace'::regclass ORDER BY nspname

-- The types.
--: typname
--= bool
--= "char"
--= name
--= int8
--= int4
--= text
--= oid
--= varchar
--= date
--= timestamp
SELECT t.oid,t.*,c.relkind,format_type(nullif(t.typbasetype, 0), t.typtypmod) as base_type_name, d.description FROM pg_catalog.pg_type t LEFT OUTER JOIN pg_catalog.pg_type et ON et.oid=t.typelem LEFT OUTER JOIN pg_catalog.pg_class c ON c.oid=t.typrelid LEFT OUTER JOIN pg_catalog.pg_description d ON t.oid=d.objoid WHERE t.typname IS NOT NULL AND (c.relkind IS NULL OR c.relkind = 'c') AND (et.typcategory IS NULL OR et.typcategory <> 'C')

-- The roles.
--: oid, rolsuper
--= 10 | f
SELECT a.oid,a.*,pd.description FROM pg_catalog.pg_roles a left join pg_catalog.pg_shdescription pd on a.oid = pd.objoid ORDER BY a.rolname

-- The tables of a schema.
--$ 2200
--= EMP | r | NULL
--= PAY | r | NULL
--: relname, relkind, description
SELECT c.oid,c.*,d.description,pg_catalog.pg_get_expr(c.relpartbound, c.oid) as partition_expr, pg_catalog.pg_get_partkeydef(c.oid) as partition_key FROM pg_catalog.pg_class c LEFT OUTER JOIN pg_catalog.pg_description d ON d.objoid=c.oid AND d.objsubid=0 AND d.classoid='pg_class'::regclass WHERE c.relnamespace=$1 AND c.relkind not in ('i','I','c')

-- The columns of a table.
--$ 16404
--= PAY | ENO | 20 | NULL
--= PAY | CENTS | 20 | NULL
--= PAY | S | 1082 | NULL
--= PAY | E | 1082 | NULL
--= PAY | SS | 1114 | NULL
--= PAY | SE | 1114 | NULL
--: relname, attname, atttypid, def_value
SELECT c.relname,a.*,pg_catalog.pg_get_expr(ad.adbin, ad.adrelid, true) as def_value,dsc.description,dep.objid FROM pg_catalog.pg_attribute a INNER JOIN pg_catalog.pg_class c ON (a.attrelid=c.oid) LEFT OUTER JOIN pg_catalog.pg_attrdef ad ON (a.attrelid=ad.adrelid AND a.attnum = ad.adnum) LEFT OUTER JOIN pg_catalog.pg_description dsc ON (c.oid=dsc.objoid AND a.attnum = dsc.objsubid) LEFT OUTER JOIN pg_depend dep on dep.refobjid = a.attrelid AND dep.deptype = 'i' and dep.refobjsubid = a.attnum and dep.classid = dep.refclassid WHERE NOT a.attisdropped AND c.relkind not in ('i','I','c') AND c.oid=$1 ORDER BY a.attnum

-- The constraints of a table.
--$ 16404
--= PAY_pkey | p | {1} | NULL
--= PAY_EMP_fkey | f | {1} | {1}
--: conname, contype, conkey, confkey
SELECT c.oid,c.*,t.relname as tabrelname,rt.relnamespace as refnamespace,d.description, case when c.contype='c' then "substring"(pg_get_constraintdef(c.oid), 7) else null end consrc_copy FROM pg_catalog.pg_constraint c INNER JOIN pg_catalog.pg_class t ON t.oid=c.conrelid LEFT OUTER JOIN pg_catalog.pg_class rt ON rt.oid=c.confrelid LEFT OUTER JOIN pg_catalog.pg_description d ON d.objoid=c.oid AND d.objsubid=0 AND d.classoid='pg_constraint'::regclass WHERE c.conrelid=$1 ORDER BY c.oid

-- The indexes of a table.
--$ 16404
--= PAY_pkey | 1 | PAY
--: relname, keys, tabrelname
SELECT i.*,i.indkey as keys,c.relname,c.relnamespace,c.relam,c.reltablespace,tc.relname as tabrelname,dsc.description,pg_catalog.pg_get_expr(i.indpred, i.indrelid) as pred_expr,pg_catalog.pg_get_expr(i.indexprs, i.indrelid, true) as expr,pg_catalog.pg_relation_size(i.indexrelid) as index_rel_size,pg_catalog.pg_stat_get_numscans(i.indexrelid) as index_num_scans FROM pg_catalog.pg_index i INNER JOIN pg_catalog.pg_class c ON c.oid=i.indexrelid INNER JOIN pg_catalog.pg_class tc ON tc.oid=i.indrelid LEFT OUTER JOIN pg_catalog.pg_description dsc ON i.indexrelid=dsc.objoid WHERE i.indrelid=$1 ORDER BY tabrelname, c.relname

-- Sequences, functions, triggers, extensions, event triggers: there are none.
--= none
SELECT c.oid,c.relname FROM pg_catalog.pg_class c WHERE c.relnamespace=2200 AND c.relkind = 'S'

--= none
SELECT p.oid as poid,p.*,pg_catalog.pg_get_expr(p.proargdefaults, 0) as arg_defaults,d.description FROM pg_catalog.pg_proc p LEFT OUTER JOIN pg_catalog.pg_description d ON d.objoid=p.oid WHERE p.pronamespace=2200 ORDER BY p.proname

--= none
SELECT x.oid,x.*,p.pronamespace as func_schema_id,d.description FROM pg_catalog.pg_trigger x LEFT OUTER JOIN pg_catalog.pg_proc p ON p.oid=x.tgfoid LEFT OUTER JOIN pg_catalog.pg_description d ON d.objoid=x.oid AND d.objsubid=0 WHERE x.tgrelid=16404 AND NOT x.tgisinternal

--~ there is plpgsql
--= none
SELECT e.oid, e.extname, n.nspname as schema_name, e.extversion FROM pg_catalog.pg_extension e join pg_catalog.pg_namespace n on n.oid =e.extnamespace ORDER BY e.oid

-- A question of PostgreSQL's tables that sqlite does not understand: it is refused, with a line in the log.
--? 0A000
SELECT r.rulename, r.ev_type FROM pg_catalog.pg_rewrite r, LATERAL (SELECT ROW(1, 2) AS pair) AS p

-- The rows of a table, as its grid shows them.
--= 1 | Ann | 2020-01-01 | 9999-12-31 | 2024-01-01 00:00:00 | 9999-12-31 23:59:59.999999
--= 2 | Max | 2020-01-01 | 2025-01-01 | 2024-01-01 00:00:00 | 9999-12-31 23:59:59.999999
SELECT t.* FROM public."EMP" t
LIMIT 200

-- Rows of a table with a filter and an order.
--= 2 | 298050
--= 2 | 305000
--: ENO, CENTS
SELECT t.* FROM public."PAY" t WHERE (t."ENO" = 2) ORDER BY t."CENTS" LIMIT 200

-- A count of the grid's rows.
--= 3
SELECT count(*) AS total FROM public."PAY" t

-- A table by name, as its editor has it: the engine's own answer.
--= 2 | 298050 | 2024-01-01 | 2024-07-01 | 2024-01-01 00:00:00 | 9999-12-31 23:59:59.999999
SELECT * FROM public."PAY" WHERE "CENTS" = 298050

-- The user, the name of the program, and the schema that is chosen.
--~ of another version
--= PostgreSQL 9.6.0 (bitemporal 0.1.0)
SELECT version()

--= done
SET application_name = 'DBeaver 24.0.0 - Main <store>'

--= done
SET search_path = public,"$user"

-- The database by its name; its size, which is not known.
--$ store
--: datname
--= store
SELECT db.oid,db.* FROM pg_catalog.pg_database db WHERE db.datname=$1

--~ it is known there
--= NULL
SELECT pg_catalog.pg_database_size('store')

-- Tablespaces, access methods, languages, collations, extensions, event triggers: the names of few.
--~ there are two
--= none
SELECT t.oid,t.*,pg_catalog.pg_tablespace_location(t.oid) loc FROM pg_catalog.pg_tablespace t ORDER BY t.oid

--: amname
--~ there are more
--= heap
SELECT am.oid,am.* FROM pg_catalog.pg_am am ORDER BY am.oid

--~ there are some
--= none
SELECT l.oid,l.* FROM pg_catalog.pg_language l ORDER BY l.oid

--= none
SELECT c.oid,c.* FROM pg_catalog.pg_collation c WHERE c.collnamespace=2200 ORDER BY c.oid

--~ there are some
--= none
SELECT * FROM pg_catalog.pg_available_extensions

--= none
SELECT e.oid, e.* FROM pg_catalog.pg_event_trigger e

-- A schema by its name, and the sizes of its tables, which are not known.
--: nspname, description
--~ it has a description there
--= public | NULL
SELECT n.oid,n.*,d.description FROM pg_catalog.pg_namespace n LEFT OUTER JOIN pg_catalog.pg_description d ON d.objoid=n.oid AND d.objsubid=0 AND d.classoid='pg_namespace'::regclass WHERE nspname='public' ORDER BY nspname

--: total_rel_size, rel_size
--= NULL | NULL
--= NULL | NULL
--= NULL | NULL
--= NULL | NULL
SELECT c.oid,pg_catalog.pg_total_relation_size(c.oid) as total_rel_size,pg_catalog.pg_relation_size(c.oid) as rel_size FROM pg_class c WHERE c.relnamespace=2200

-- Tables that a table inherits from, its children, policies, rules, and who may use it.
--= none
SELECT i.*,c.relnamespace FROM pg_catalog.pg_inherits i,pg_catalog.pg_class c WHERE i.inhrelid=16404 AND c.oid=i.inhparent ORDER BY i.inhseqno

--= none
SELECT i.*,c.relnamespace,pc.relnamespace parent_ns FROM pg_catalog.pg_inherits i,pg_catalog.pg_class c,pg_catalog.pg_class pc WHERE i.inhparent=16404 AND c.oid=i.inhrelid AND pc.oid=i.inhparent ORDER BY i.inhseqno

--= none
SELECT * FROM pg_catalog.pg_policies WHERE schemaname='public' AND tablename='PAY'

--= none
SELECT r.oid,r.* FROM pg_catalog.pg_rewrite r WHERE r.ev_class=16404

--~ the rights of its owner are told there
--= none
SELECT * FROM information_schema.table_privileges WHERE table_schema='public' AND table_name='PAY'

-- Objects that depend on a table, and the references to it.
--: refname
--= none
SELECT DISTINCT dep.deptype, dep.classid, cl.relkind, attr.attname, pg_catalog.pg_get_expr(ad.adbin, ad.adrelid) adefval, CASE WHEN cl.relkind IS NOT NULL THEN cl.relkind::text || COALESCE(dep.objsubid::text, '') ELSE '' END AS type, COALESCE(coc.relname, clrw.relname) AS ownertable, COALESCE(cl.relname, conname, rulename, 'x') AS refname FROM pg_depend dep LEFT JOIN pg_class cl ON dep.objid=cl.oid LEFT JOIN pg_attribute attr ON dep.objid=attr.attrelid AND dep.objsubid=attr.attnum LEFT JOIN pg_rewrite rw ON dep.objid=rw.oid LEFT JOIN pg_class clrw ON clrw.oid=rw.ev_class LEFT JOIN pg_constraint con ON dep.objid=con.oid LEFT JOIN pg_class coc ON con.conrelid=coc.oid LEFT JOIN pg_attrdef ad ON ad.oid=dep.objid WHERE dep.refobjid=16404

--: conname, tabrelname
--= PAY_EMP_fkey | PAY
SELECT c.oid,c.*,t.relname as tabrelname,rt.relnamespace as refnamespace,d.description FROM pg_catalog.pg_constraint c INNER JOIN pg_catalog.pg_class t ON t.oid=c.conrelid LEFT OUTER JOIN pg_catalog.pg_class rt ON rt.oid=c.confrelid LEFT OUTER JOIN pg_catalog.pg_description d ON d.objoid=c.oid AND d.objsubid=0 AND d.classoid='pg_constraint'::regclass WHERE c.confrelid=16384 ORDER BY c.oid

-- A table by its name.
--: relname, relkind
--= PAY | r
SELECT c.oid,c.*,d.description,pg_catalog.pg_get_expr(c.relpartbound, c.oid) as partition_expr,  pg_catalog.pg_get_partkeydef(c.oid) as partition_key FROM pg_catalog.pg_class c LEFT OUTER JOIN pg_catalog.pg_description d ON d.objoid=c.oid AND d.objsubid=0 AND d.classoid='pg_class'::regclass WHERE c.relnamespace=2200 AND c.relkind not in ('i','I','c') AND c.relname='PAY'

-- The columns of all tables of a schema.
--: relname, attname
--= EMP | ENO
--= PAY | ENO
--= EMP | NAME
--= PAY | CENTS
--= EMP | S
--= PAY | S
--= EMP | E
--= PAY | E
--= EMP | SS
--= PAY | SS
--= EMP | SE
--= PAY | SE
SELECT c.relname,a.*,pg_catalog.pg_get_expr(ad.adbin, ad.adrelid, true) as def_value,dsc.description,dep.objid FROM pg_catalog.pg_attribute a INNER JOIN pg_catalog.pg_class c ON (a.attrelid=c.oid) LEFT OUTER JOIN pg_catalog.pg_attrdef ad ON (a.attrelid=ad.adrelid AND a.attnum = ad.adnum) LEFT OUTER JOIN pg_catalog.pg_description dsc ON (c.oid=dsc.objoid AND a.attnum = dsc.objsubid) LEFT OUTER JOIN pg_depend dep on dep.refobjid = a.attrelid AND dep.deptype = 'i' and dep.refobjsubid = a.attnum and dep.classid = dep.refclassid WHERE NOT a.attisdropped AND c.relkind not in ('i','I','c') AND c.relnamespace=2200 ORDER BY a.attnum

-- The grid with an order, a page, and filters; the lists of values for a filter and for a reference.
--= 2 | 305000 | 2024-07-01 | 2025-01-01 | 2024-01-01 00:00:00 | 9999-12-31 23:59:59.999999
--= 1 | 310000 | 2024-01-01 | 9999-12-31 | 2024-01-01 00:00:00 | 9999-12-31 23:59:59.999999
SELECT t.* FROM public."PAY" t ORDER BY t."ENO" DESC, t."CENTS" LIMIT 200 OFFSET 1

--= 1 | Ann | 2020-01-01 | 9999-12-31 | 2024-01-01 00:00:00 | 9999-12-31 23:59:59.999999
SELECT t.* FROM public."EMP" t WHERE (t."NAME" LIKE 'A%' AND t."S" = '2020-01-01') LIMIT 200

--= 1 | 310000 | 2024-01-01 | 9999-12-31 | 2024-01-01 00:00:00 | 9999-12-31 23:59:59.999999
--= 2 | 298050 | 2024-01-01 | 2024-07-01 | 2024-01-01 00:00:00 | 9999-12-31 23:59:59.999999
--= 2 | 305000 | 2024-07-01 | 2025-01-01 | 2024-01-01 00:00:00 | 9999-12-31 23:59:59.999999
SELECT t.* FROM public."PAY" t WHERE (t."ENO" IN (1,2) AND t."CENTS" IS NOT NULL) LIMIT 200

--= Ann
--= Max
SELECT DISTINCT "NAME" FROM public."EMP" ORDER BY "NAME" LIMIT 100

--= 1 | Ann
--= 2 | Max
SELECT "ENO","NAME" FROM public."EMP" WHERE "ENO" IN (1,2) ORDER BY "NAME" LIMIT 200

-- Counts and sums of what the grid shows.
--= 3
SELECT COUNT(*) FROM (SELECT t.* FROM public."PAY" t) dbvrcnt

--= 298050 | 310000 | 304350.0 | 3
SELECT MIN("CENTS"),MAX("CENTS"),AVG("CENTS"),COUNT("CENTS") FROM (SELECT t.* FROM public."PAY" t) dbvrcnt

-- A row that is added, one that is edited, and one that is deleted.
--$ 3
--$ Zoe
--$ 2024-01-01
--$ 9999-12-31
--~ there the moments are columns as others
--= done
INSERT INTO public."EMP" ("ENO","NAME","S","E") VALUES ($1,$2,$3,$4)

--$ Zoë
--$ 3
--= done
UPDATE public."EMP" SET "NAME"=$1 WHERE "ENO"=$2

--$ 3
--= done
DELETE FROM public."EMP" WHERE "ENO"=$1

-- A cell that is edited.
--= done
UPDATE public."PAY" SET "CENTS"=311000 WHERE "ENO"=1
