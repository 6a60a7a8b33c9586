#!/usr/bin/env python3
"""Tests the server by the clients that are installed: psycopg2, psycopg 3, asyncpg, SQLAlchemy,
pandas and JDBC. The ones in Python are Debian's, so they are run by its Python.

The program is the built one, or the one that the variable BITEMPORAL names.
"""
import contextlib
import os
import pathlib
import shutil
import signal
import subprocess
import sys
import tempfile
import textwrap
import unittest
from typing import Iterator

import support
from folders import ROOT

PYTHON = '/usr/bin/python3'
JDBC = '/usr/share/java/postgresql.jar'
HAS_JDBC = shutil.which('javac') and pathlib.Path(JDBC).exists()
CREATE = support.create_table('PAY', 'ENO INTEGER, NAME VARCHAR(20), CENTS INTEGER', 'ENO', 'EP')
# The head of each script of Python. A script gets the folder of the socket, or the port.
HEAD = f'''
import datetime, sys
D = datetime.date
where = sys.argv[1]
CREATE = """{CREATE}"""
ROWS = [(1, "O'Neil; --", 310000, D(2024, 1, 1), D(9999, 12, 31)),
        (2, "M\\u00e4x", 298050, D(2024, 1, 1), D(2024, 7, 1))]
'''
PSYCOPG2 = '''
import psycopg2, psycopg2.extras, psycopg2.errors
connection = psycopg2.connect(host=where, dbname='store')
connection.autocommit = True
cursor = connection.cursor()
cursor.execute(CREATE)
psycopg2.extras.execute_values(cursor, 'INSERT INTO PAY VALUES %s', ROWS)
cursor.execute('SELECT * FROM PAY WHERE NAME = %s AND EP CONTAINS %s',
               ("O'Neil; --", D(2024, 2, 1)))
assert [row[:5] for row in cursor.fetchall()] == ROWS[:1]
try:
    cursor.execute('INSERT INTO PAY VALUES (%s, %s, %s, %s, %s)', ROWS[0])
    assert False
except psycopg2.errors.ExclusionViolation as error:
    assert error.diag.message_primary == '42 KeyOverlap on 2024-01-01', error.diag.message_primary
import io
cursor.copy_expert('COPY PAY FROM STDIN WITH CSV', io.StringIO('3,a,5,2024-01-01,2024-07-01\\n'))
cursor.copy_from(io.StringIO('4\\tb\\t5\\t2024-01-01\\t2024-07-01\\n'), 'pay',
                 columns=('eno', 'name', 'cents', 's', 'e'))
cursor.execute('SELECT COUNT(*) FROM (SELECT * FROM PAY) AS p')
assert cursor.fetchall() == [(4,)]
connection.autocommit = False
cursor.execute('SELECT * FROM PAY')
connection.commit()
try:
    cursor.execute('DELETE FROM PAY')
    assert False
except psycopg2.errors.FeatureNotSupported:
    connection.rollback()
'''
PSYCOPG = '''
import psycopg
with psycopg.connect(host=where, dbname='store', autocommit=True) as connection:
    cursor = connection.cursor()
    cursor.execute(CREATE)
    cursor.executemany('INSERT INTO PAY VALUES (%s, %s, %s, %s, %s)', ROWS)
    for binary in (False, True):
        for _ in range(7):
            found = connection.cursor(binary=binary).execute(
                'SELECT * FROM PAY WHERE ENO = %s', (2,)).fetchall()
            assert [row[:5] for row in found] == ROWS[1:], found
    with cursor.copy('COPY PAY FROM STDIN') as copy:
        copy.write_row((3, 'a\\tb', 5, D(2024, 1, 1), D(2024, 7, 1)))
    found = connection.execute('VALIDTIME SELECT DISTINCT NAME FROM PAY WHERE ENO = 3').fetchall()
    assert found == [('a\\tb', D(2024, 1, 1), D(2024, 7, 1), D(2024, 1, 1), D(2023, 12, 31))], found
'''
ASYNCPG = '''
import asyncio, asyncpg
async def main():
    connection = await asyncpg.connect(host=where, database='store', user='x')
    await connection.execute(CREATE)
    await connection.executemany('INSERT INTO PAY VALUES ($1, $2, $3, $4, $5)', ROWS)
    found = await connection.fetch('SELECT * FROM PAY WHERE EP CONTAINS $1', D(2024, 2, 1))
    assert [tuple(row)[:5] for row in found] == ROWS, found
    found = await connection.fetch('SELECT NAME, SUM(CENTS) AS total FROM (VALIDTIME SELECT'
                                   ' DISTINCT NAME, CENTS FROM PAY WHERE ENO > $1) AS a'
                                   ' GROUP BY NAME', 1)
    assert [tuple(row) for row in found] == [(ROWS[1][1], 298050)], found
    await connection.close()
asyncio.run(main())
'''
SQLALCHEMY = '''
import sqlalchemy
engine = sqlalchemy.create_engine('postgresql+psycopg2://@/store?host=' + where,
                                  isolation_level='AUTOCOMMIT')
with engine.connect() as connection:
    connection.execute(sqlalchemy.text(CREATE))
    pay = sqlalchemy.Table('PAY', sqlalchemy.MetaData(), autoload_with=connection)
    assert [it.name for it in pay.columns][:3] == ['ENO', 'NAME', 'CENTS']
    assert [it.name for it in pay.primary_key] == ['ENO']
    connection.execute(pay.insert(), [dict(zip(('ENO', 'NAME', 'CENTS', 'S', 'E'), row))
                                      for row in ROWS])
    connection.execute(sqlalchemy.text("UPDATE PAY SET CENTS = :cents WHERE ENO = :eno"),
                       {'cents': 7, 'eno': 2})
    found = connection.execute(sqlalchemy.text('SELECT * FROM PAY WHERE ENO = 2')).fetchall()
    assert [row[2] for row in found] == [7], found
    assert sqlalchemy.inspect(connection).get_table_names() == ['PAY']
    names = sqlalchemy.select(pay.c.NAME, sqlalchemy.func.max(pay.c.CENTS).label('top')) \\
        .where(pay.c.S >= D(2024, 1, 1)).group_by(pay.c.NAME).order_by(pay.c.NAME).limit(1)
    assert [tuple(row) for row in connection.execute(names)] == [(ROWS[1][1], 7)]
'''
PANDAS = '''
import pandas, psycopg2, sqlalchemy
engine = sqlalchemy.create_engine('postgresql+psycopg2://@/store?host=' + where,
                                  isolation_level='AUTOCOMMIT')
with engine.connect() as connection:
    connection.execute(sqlalchemy.text(CREATE))
    frame = pandas.DataFrame(ROWS, columns=['ENO', 'NAME', 'CENTS', 'S', 'E'])
    frame.to_sql('PAY', connection, if_exists='append', index=False)
    found = pandas.read_sql('VALIDTIME SELECT DISTINCT ENO, CENTS FROM PAY', connection)
    assert list(found['CENTS']) == [310000, 298050], found
    assert list(found.columns) == ['ENO', 'CENTS', 'valid_from', 'valid_to', 'held', 'absent']
    found = pandas.read_sql_table('PAY', connection)
    assert sorted(found['ENO']) == [1, 2], found
'''
DBAPI = '''
import pandas, bitemporal_tools, tempfile, os, warnings
warnings.simplefilter('ignore')
with tempfile.TemporaryDirectory() as folder:
    with bitemporal_tools.connect(os.path.join(folder, 'a.store')) as connection:
        cursor = connection.cursor()
        cursor.execute(CREATE)
        cursor.executemany('INSERT INTO PAY VALUES (?, ?, ?, ?, ?)', ROWS)
        found = pandas.read_sql('SELECT * FROM PAY WHERE ENO = ?', connection, params=[2])
        assert list(found['CENTS']) == [298050], found
'''
JAVA = '''
import java.sql.*;
public class Client {
  public static void main(String[] words) throws Exception {
    try (Connection c = DriverManager.getConnection(
        "jdbc:postgresql://127.0.0.1:" + words[0] + "/store", "x", "")) {
      c.createStatement().execute(words[1]);
      PreparedStatement in = c.prepareStatement("INSERT INTO PAY VALUES (?, ?, ?, ?, ?)");
      for (int i = 1; i < 9; i++) {
        in.setLong(1, i);
        in.setString(2, "O'Neil; --");
        in.setLong(3, 5 * i);
        in.setDate(4, Date.valueOf("2024-01-01"));
        in.setDate(5, Date.valueOf("2024-07-01"));
        in.addBatch();
      }
      in.executeBatch();
      PreparedStatement q = c.prepareStatement("SELECT * FROM PAY WHERE ENO = ?");
      for (int i = 1; i < 9; i++) {
        q.setLong(1, i);
        ResultSet r = q.executeQuery();
        r.next();
        if (r.getLong("CENTS") != 5 * i || !r.getString(2).equals("O'Neil; --")
            || !r.getDate("S").toString().equals("2024-01-01")) throw new Exception("row " + i);
      }
      ResultSet t = c.getMetaData().getTables(null, null, "%", new String[] {"TABLE"});
      t.next();
      if (!t.getString("TABLE_NAME").equals("PAY")) throw new Exception("tables");
      ResultSet k = c.getMetaData().getColumns(null, null, "PAY", "%");
      int n = 0;
      while (k.next()) n++;
      if (n != 7) throw new Exception("columns " + n);
      try {
        c.createStatement().execute("DELETE FROM PAYS");
        throw new Exception("no refusal");
      } catch (SQLException e) {
        if (!e.getSQLState().equals("42P01")) throw e;
      }
    }
  }
}
'''
# The metadata that tools ask for: of each call, the columns that are reported.
METADATA = '''
import java.sql.*;
public class Metadata {
  static void tell(ResultSet r, String... names) throws SQLException {
    while (r.next()) {
      StringBuilder line = new StringBuilder();
      for (String name : names) line.append(r.getString(name)).append(' ');
      System.out.println(line.toString().trim());
    }
  }
  public static void main(String[] words) throws Exception {
    try (Connection c = DriverManager.getConnection(
        "jdbc:postgresql://127.0.0.1:" + words[0] + "/store", "x", "")) {
      c.createStatement().execute(words[1]);
      c.createStatement().execute(words[2]);
      DatabaseMetaData d = c.getMetaData();
      tell(d.getCatalogs(), "TABLE_CAT");
      tell(d.getSchemas(), "TABLE_SCHEM");
      tell(d.getTables(null, "public", "%", new String[] {"TABLE", "VIEW"}),
           "TABLE_NAME", "TABLE_TYPE");
      tell(d.getColumns(null, "public", "PAY", "%"), "COLUMN_NAME", "TYPE_NAME", "COLUMN_SIZE",
           "NULLABLE", "ORDINAL_POSITION");
      tell(d.getPrimaryKeys(null, "public", "PAY"), "COLUMN_NAME", "KEY_SEQ", "PK_NAME");
      tell(d.getImportedKeys(null, "public", "NOTE"), "FKTABLE_NAME", "FKCOLUMN_NAME",
           "PKTABLE_NAME", "PKCOLUMN_NAME", "KEY_SEQ");
      tell(d.getExportedKeys(null, "public", "PAY"), "FKTABLE_NAME", "FKCOLUMN_NAME");
      tell(d.getIndexInfo(null, "public", "PAY", true, false), "INDEX_NAME", "COLUMN_NAME",
           "NON_UNIQUE");
      tell(d.getBestRowIdentifier(null, "public", "PAY", 0, false), "COLUMN_NAME");
      tell(d.getFunctions(null, "public", "%"), "FUNCTION_NAME");
      ResultSet types = d.getTypeInfo();
      int found = 0;
      while (types.next()) {
        if ("int8 varchar date timestamp".contains(types.getString("TYPE_NAME"))) found++;
      }
      System.out.println("types " + found);
      System.out.println("words " + d.getSQLKeywords().contains("period"));
      c.setReadOnly(true);
      c.setAutoCommit(false);
      Statement s = c.createStatement();
      s.setFetchSize(2);
      s.setMaxRows(3);
      tell(s.executeQuery("SELECT t.* FROM public.\\"PAY\\" t"), "ENO");
    }
  }
}
'''
NOTE = CREATE.replace('TABLE PAY', 'TABLE NOTE').replace(
    'OVERLAPS))', 'OVERLAPS), FOREIGN KEY (ENO, PERIOD EP) REFERENCES PAY (ENO, PERIOD EP))')
TOLD = """store
pg_catalog
public
NOTE TABLE
PAY TABLE
ENO int8 19 0 1
NAME varchar 20 0 2
CENTS int8 19 0 3
S date 13 0 4
E date 13 0 5
SS timestamp 29 0 6
SE timestamp 29 0 7
ENO 1 PAY_pkey
NOTE ENO PAY ENO 1
NOTE ENO
PAY_pkey ENO f
ENO
types 4
words true
"""


def has(*names: str) -> bool:
    """Whether Debian's Python has these modules."""
    return shutil.which(PYTHON) is not None and subprocess.run(
        [PYTHON, '-c', 'import ' + ', '.join(names)], capture_output=True,
        check=False).returncode == 0


@contextlib.contextmanager
def served(*words: str) -> Iterator[str]:
    """A server of a new store, by its command: the folder of its socket, or its port."""
    with tempfile.TemporaryDirectory() as folder:
        with subprocess.Popen(
                [sys.executable, str(ROOT / 'tools/serve'), f'{folder}/a.store', '--folder',
                 f'{folder}/socket', *words], stderr=subprocess.PIPE) as process:
            assert process.stderr is not None
            told = process.stderr.readline().decode()
            assert 'is served' in told, told
            try:
                yield told.split()[-2] if words else f'{folder}/socket'
            finally:
                process.send_signal(signal.SIGTERM)
                process.wait(30)


class Clients(unittest.TestCase):
    """Each client runs its script."""

    def run_script(self, script: str) -> None:
        with served() as folder:
            done = subprocess.run([PYTHON, '-c', HEAD + textwrap.dedent(script), folder],
                                  env={**os.environ, 'PYTHONPATH': str(ROOT / 'python')},
                                  capture_output=True, timeout=120, check=False)
            self.assertEqual((done.returncode, done.stderr.decode()), (0, ''))

    @unittest.skipUnless(has('psycopg2'), 'apt-get install python3-psycopg2')
    def test_psycopg2(self) -> None:
        self.run_script(PSYCOPG2)

    @unittest.skipUnless(has('psycopg'), 'apt-get install python3-psycopg')
    def test_psycopg(self) -> None:
        self.run_script(PSYCOPG)

    @unittest.skipUnless(has('asyncpg'), 'apt-get install python3-asyncpg')
    def test_asyncpg(self) -> None:
        self.run_script(ASYNCPG)

    @unittest.skipUnless(has('sqlalchemy', 'psycopg2'), 'apt-get install python3-sqlalchemy')
    def test_sqlalchemy(self) -> None:
        self.run_script(SQLALCHEMY)

    @unittest.skipUnless(has('pandas', 'sqlalchemy', 'psycopg2'), 'apt-get install python3-pandas')
    def test_pandas(self) -> None:
        self.run_script(PANDAS)

    @unittest.skipUnless(has('pandas'), 'apt-get install python3-pandas')
    def test_pandas_without_a_server(self) -> None:
        self.run_script(DBAPI)

    def run_java(self, name: str, text: str, *words: str) -> str:
        """The output of a program, which gets the port and these words."""
        with tempfile.TemporaryDirectory() as folder, \
                served('--listen', '127.0.0.1:0') as port:
            pathlib.Path(folder, f'{name}.java').write_text(text)
            subprocess.run(['javac', f'{name}.java'], cwd=folder, check=True, capture_output=True)
            done = subprocess.run(['java', '-cp', f'{folder}:{JDBC}', name, port, *words],
                                  capture_output=True, timeout=120, check=False)
            self.assertEqual((done.returncode, done.stderr.decode()), (0, ''))
            return done.stdout.decode()

    @unittest.skipUnless(HAS_JDBC, 'apt-get install default-jdk-headless libpostgresql-jdbc-java')
    def test_jdbc(self) -> None:
        self.run_java('Client', JAVA, CREATE)

    @unittest.skipUnless(HAS_JDBC, 'apt-get install default-jdk-headless libpostgresql-jdbc-java')
    def test_metadata_of_jdbc(self) -> None:
        self.assertEqual(self.run_java('Metadata', METADATA, CREATE, NOTE), TOLD)


if __name__ == '__main__':
    support.run_cases()
