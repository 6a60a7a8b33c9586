"""The rows of PostgreSQL's own tables that are about a store's."""
from typing import Any, Dict, Iterable, List

from bitemporal_tools.sql.catalog import Catalog, Table
from bitemporal_tools.sql.lexis import RESERVED

from . import values
from .settings import FIXED

# PostgreSQL's name of each type, its short name and its category, by the number of the type.
TYPES = {16: ('boolean', 'bool', 'B'), 18: ('"char"', '"char"', 'Z'), 19: ('name', 'name', 'S'),
         20: ('bigint', 'int8', 'N'), 23: ('integer', 'int4', 'N'), 25: ('text', 'text', 'S'),
         26: ('oid', 'oid', 'N'), 1043: ('character varying', 'varchar', 'S'),
         1082: ('date', 'date', 'D'), 1114: ('timestamp without time zone', 'timestamp', 'D')}
FIRST = 16384  # the oid of the first table
MOST_PLACES = 32  # of columns of a key, as PostgreSQL has it
# The columns of PostgreSQL's tables, each with its value in a row that has no other, NULL if none
# is named.
COLUMNS: 'dict[str, dict[str, str | None]]' = {}
for part in '''\
information_schema_columns: table_catalog=store table_schema=public table_name column_name
ordinal_position is_nullable=NO data_type udt_schema=pg_catalog udt_name is_identity=NO
is_generated=NEVER character_maximum_length column_default; information_schema_key_column_usage:
constraint_catalog=store constraint_schema=public constraint_name table_catalog=store
table_schema=public table_name column_name ordinal_position; information_schema_table_constraints:
constraint_catalog=store constraint_schema=public constraint_name table_catalog=store
table_schema=public table_name constraint_type; information_schema_table_privileges: grantor grantee
table_schema table_name privilege_type; information_schema_tables: table_catalog=store
table_schema=public table_name table_type; pg_aggregate: aggfnoid aggkind; pg_am: amname=heap;
pg_attrdef: adrelid adnum adbin; pg_attribute: attrelid attname atttypid attnum attnotnull=1
atthasdef=0 attisdropped=0 attcollation=0 atttypmod=-1 attidentity= attgenerated= attlen=-1
attstorage=p attacl attstattarget; pg_auth_members: roleid member; pg_available_extensions: name
default_version installed_version comment; pg_cast: castsource casttarget castfunc castcontext
castmethod; pg_class: relname relnamespace=2200 relowner=10 relam=2 relpersistence=p reltablespace=0
reloftype=0 relhasrules=0 relhastriggers=1 relchecks=0 relrowsecurity=0 relforcerowsecurity=0
relispartition=0 reltuples=-1 relreplident=d relkind relhasindex relnatts relacl relhasoids
reloptions relpages relpartbound reltoastrelid; pg_collation: collname collnamespace collencoding
collcollate collctype; pg_constraint: conname connamespace=2200 conrelid conparentid=0
condeferrable=0 condeferred=0 convalidated=1 confupdtype=a confdeltype=a contype conindid
confrelid=0 conkey confkey def_ contypid; pg_database: datname=store datdba=10 encoding=6
datcollate=C datctype=C datistemplate=0 datallowconn=1 datacl; pg_depend: classid objid objsubid
refclassid refobjid refobjsubid deptype; pg_description: objoid classoid objsubid description;
pg_enum: enumtypid enumlabel; pg_event_trigger: evtname evtevent evtowner evtfoid evtenabled
evttags; pg_extension: extname extnamespace extversion; pg_foreign_data_wrapper: fdwname;
pg_foreign_server: srvname srvfdw; pg_foreign_table: ftrelid ftserver; pg_index: indexrelid indrelid
indkey indoption indisprimary=1 indisunique=1 indisclustered=0 indisvalid=1 indisreplident=0
indnatts indexprs indimmediate indpred; pg_inherits: inhrelid inhparent inhseqno; pg_keywords: word;
pg_language: lanname lanowner lanplcallfoid lanpltrusted; pg_matviews: schemaname matviewname;
pg_namespace: nspname nspowner=10 nspacl; pg_numbers: n; pg_opclass: opcname opcnamespace opcmethod;
pg_operator: oprname oprnamespace oprkind oprleft oprright oprresult oprcode; pg_opfamily: opfname
opfnamespace opfmethod; pg_policies: schemaname tablename policyname; pg_policy: polname polrelid
polcmd polroles polqual polwithcheck; pg_proc: proname pronamespace prorettype pronargs proisagg
proiswindow proargdefaults; pg_rewrite: rulename ev_class ev_type; pg_roles: rolname rolsuper=0
rolcanlogin=1 rolconnlimit=-1 rolinherit rolcreaterole rolcreatedb rolreplication rolbypassrls
rolvaliduntil; pg_settings: name setting; pg_shdescription: objoid description; pg_stat_user_tables:
schemaname relname n_live_tup; pg_tables: schemaname=public tablename hasindexes=1; pg_tablespace:
spcname spcowner; pg_trigger: tgname tgrelid tgfoid tgenabled tgisinternal; pg_type: typname
typnamespace=11 typtype=b typelem=0 typarray=0 typbasetype=0 typrelid=0 typnotnull=0 typlen=-1
typtypmod=-1 typinput typcategory typcollation typdefault; pg_views: schemaname viewname
'''.split(';'):
    name, _, columns = part.strip().partition(':')
    words = columns if name.startswith('information') else f'oid tableoid {columns}'
    COLUMNS[name] = {column: value if sign else None for column, sign, value in
                     (word.partition('=') for word in words.split())}
COLUMNS['pg_index_places'] = {**COLUMNS['pg_index'], 'attnum': None, 'ord': None}
Rows = Dict[str, List[Dict[str, Any]]]


def tables_of(catalog: Catalog, user: str) -> Rows:
    """The rows of PostgreSQL's tables about a catalog's, without what COLUMNS has."""
    found: Rows = {
        **{name: [] for name in COLUMNS}, 'pg_database': [{'oid': 1}], 'pg_am': [{'oid': 2}],
        'pg_namespace': [{'oid': 11, 'nspname': 'pg_catalog'}, {'oid': 2200, 'nspname': 'public'}],
        'pg_roles': [{'oid': 10, 'rolname': user}],
        'pg_type': [{'oid': oid, 'typname': short, 'typinput': f'{short}in', 'typcategory': kind}
                    for oid, (_, short, kind) in TYPES.items()],
        'pg_settings': [{'name': name, 'setting': setting} for name, setting in
                        {**FIXED, 'max_index_keys': str(MOST_PLACES)}.items()],
        'pg_keywords': [{'word': word.lower()} for word in sorted(RESERVED)],
        'pg_numbers': [{'n': number} for number in range(1, MOST_PLACES + 1)]}
    numbers = {name: FIRST + 20 * number for number, name in enumerate(catalog.tables)}
    for table in catalog.tables.values():
        add_relation(found, table, numbers[table.name])
        add_columns(found, table, numbers[table.name])
        add_constraints(found, table, catalog, numbers)
    return found


def add_relation(found: Rows, table: Table, oid: int) -> None:
    """A table and the index of its key."""
    found['pg_class'] += [
        {'oid': oid, 'relname': table.name, 'relkind': 'r', 'relhasindex': 1,
         'relnatts': len(table.columns)},
        {'oid': oid + 1, 'relname': f'{table.name}_pkey', 'relkind': 'i', 'relhasindex': 0}]
    found['information_schema_tables'].append({'table_name': table.name,
                                               'table_type': 'BASE TABLE'})
    found['pg_tables'].append({'tablename': table.name})


def add_columns(found: Rows, table: Table, oid: int) -> None:
    """The columns of a table."""
    for number, column in enumerate(table.columns, 1):
        kind = values.KINDS[column.kind].oid
        full, short, _ = TYPES[kind]
        own = {'attrelid': oid, 'attname': column.name, 'atttypid': kind, 'attnum': number}
        length = column.number if column.kind == 'VARCHAR' else None
        found['pg_attribute'].append(
            {**own, 'atttypmod': length + 4, 'attstorage': 'x'} if length else own)
        found['information_schema_columns'].append({
            'table_name': table.name, 'column_name': column.name, 'ordinal_position': number,
            'data_type': full, 'udt_name': short, 'character_maximum_length': length})


def add_constraints(found: Rows, table: Table, catalog: Catalog, numbers: 'dict[str, int]') -> None:
    """The key of a table and its references."""
    oid, names = numbers[table.name], [column.name for column in table.columns]
    places = [names.index(it) + 1 for it in table.key]
    index = {'indexrelid': oid + 1, 'indrelid': oid, 'indkey': ' '.join(map(str, places)),
             'indoption': ' '.join('0' * len(places)), 'indnatts': len(places)}
    found['pg_index'].append(index)
    found['pg_index_places'] += [{**index, 'attnum': place, 'ord': number}
                                 for number, place in enumerate(places, 1)]
    key = f'PRIMARY KEY ({", ".join(table.key)}, {table.period.name} WITHOUT OVERLAPS)'
    found['pg_constraint'].append({
        'oid': oid + 2, 'conrelid': oid, 'conname': f'{table.name}_pkey', 'contype': 'p',
        'conindid': oid + 1, 'conkey': array(places), 'def_': key})
    add_named(found, table, f'{table.name}_pkey', 'PRIMARY KEY', table.key)
    for number, it in enumerate(table.references, 3):
        name = f'{table.name}_{it.table}_fkey'
        theirs = [column.name for column in catalog.tables[it.table].columns]
        text = f'FOREIGN KEY ({", ".join(it.columns)}, PERIOD {table.period.name}) REFERENCES' \
               f' {it.table} ({", ".join(it.table_columns)}, PERIOD {it.table_period})'
        found['pg_constraint'].append({
            'oid': oid + number, 'conrelid': oid, 'conname': name, 'contype': 'f',
            'conindid': numbers[it.table] + 1, 'confrelid': numbers[it.table],
            'conkey': array(names.index(column) + 1 for column in it.columns),
            'confkey': array(theirs.index(column) + 1 for column in it.table_columns),
            'def_': text})
        add_named(found, table, name, 'FOREIGN KEY', it.columns)


def array(places: 'Iterable[int]') -> str:
    """Places of columns as PostgreSQL writes an array."""
    return '{' + ','.join(map(str, places)) + '}'


def add_named(found: Rows, table: Table, name: str, kind: str, columns: 'Iterable[str]') -> None:
    """A constraint of a name and a kind, over these columns."""
    own = {'constraint_name': name, 'table_name': table.name}
    found['information_schema_table_constraints'].append({**own, 'constraint_type': kind})
    found['information_schema_key_column_usage'] += [
        {**own, 'column_name': column, 'ordinal_position': number}
        for number, column in enumerate(columns, 1)]
