"""PostgreSQL's SQL where SQLite has other words, and its catalog: as it is asked by statements of this file, by psql, SQLAlchemy and Django
where they are installed, and by queries of the kind that DBeaver sends."""
from __future__ import annotations

import os
import shutil
import subprocess
import sys
import tempfile
from collections.abc import Iterator
from pathlib import Path

from tests.postgres import Postgres
from tests.sql.clients import python_with, said
from tests.sql.host import Built, Served
from tests.sql.simple import code_of
from tests.sql.units import differs

TABLES = """CREATE TABLE account(id INTEGER PRIMARY KEY, name VARCHAR(30) NOT NULL DEFAULT 'x', balance NUMERIC(10,2) CHECK(balance >= 0),
    born DATE, is_ok BOOLEAN, UNIQUE(name));
CREATE TABLE entry(id SERIAL, account INTEGER NOT NULL REFERENCES account ON DELETE CASCADE, text TEXT, PRIMARY KEY (id));
CREATE TABLE pair(a INT, b TEXT, n GENERATED ALWAYS AS (a + 1), CONSTRAINT whole CHECK (a <> ')' AND b <> ''), PRIMARY KEY(b, a)) WITHOUT ROWID;
CREATE TABLE part(a INT, b TEXT, FOREIGN KEY (b, a) REFERENCES pair ON UPDATE SET NULL);
CREATE INDEX entry_account ON entry(account);
CREATE INDEX entry_text ON entry(lower(text), account DESC) WHERE text IS NOT NULL;
CREATE VIEW rich AS SELECT * FROM account WHERE balance > 100;
CREATE TRIGGER noted AFTER DELETE ON entry BEGIN DELETE FROM part; END"""
# Statements, and their rows.
ANSWERED = [
    (r"SELECT E'a\\b\'c''d\n\x41\101\u00e4\U0001f600\q'", [("a\\b'c'd\nAA\u00e4\U0001f600q",)]),
    (r"SELECT E'a;\'b;', 2", [("a;'b;", 2)]), (r"SELECT e'', 'E''x'", [("", "E'x")]),
    ("SELECT '7'::int + 1, 1.5::text || 'x', 'x'::character varying(3)::text, '2026-01-02T03:04:05'::timestamp with time zone",
     [(8, "1.5x", "x", "2026-01-02 03:04:05")]),
    ("SELECT CAST('7' AS pg_catalog.int4), CAST('7' AS INTEGER), '2026-01-02 03:04'::date, date '2026-01-02', 't'::bool, 'off'::boolean",
     [(7, 7, "2026-01-02", "2026-01-02", 1, 0)]),
    ("SELECT '\\x6100'::bytea, (1 + 2)::float8, CASE 1 WHEN 1 THEN 'a' END::text, count(*)::int FROM account", [(b"a\0", 3.0, "a", 0)]),
    ("SELECT 1 = ANY(ARRAY[1, 2]), 3 = ANY('{1,2}'), 3 <> ALL(ARRAY[1, 2]), 1 = ANY (SELECT 1), 'b' = SOME(ARRAY['a', 'b'])", [(1, 0,
     1, 1, 1)]),
    ("SELECT (ARRAY['a', 'b'])[2], array_to_string(ARRAY['a', NULL, 'c d'], ','), array_length('{1,2,3}', 1), ARRAY[]", [("b", "a,c d",
     3, "{}")]),
    ("SELECT array(SELECT x FROM unnest('{3,1,2}') x ORDER BY 1), ARRAY(SELECT 1 WHERE 0)", [("{1,2,3}", "{}")]),
    ("SELECT array_agg(x ORDER BY n), string_agg(x, '-' ORDER BY n) FROM unnest(ARRAY['b','a, \"'], '{2,1}') AS u(x, n)",
     [('{"a, \\"",b}', 'a, "-b')]),
    ("SELECT * FROM generate_series(1, 2)", [(1,), (2,)]), ("SELECT u.* FROM unnest('{a}', '{b,c}') u(x, y)", [("a", "b"), (None, "c")]),
    ("SELECT s, n FROM generate_series(1, 5, 2) WITH ORDINALITY AS t(s, n)", [(1, 1), (3, 2), (5, 3)]),
    ("SELECT i FROM generate_series(3, 1, -1) i WHERE i <> 2", [(3,), (1,)]),
    ("SELECT unnest(a) AS x, generate_subscripts(a, 1) AS n FROM (SELECT '{b,c}' AS a UNION ALL SELECT '{d}') ORDER BY x", [("b", 1),
     ("c", 2), ("d", 1)]),
    ("SELECT unnest('{x,y}'::text[]) LIMIT 1", [("x",)]),
    ("SELECT x FROM (SELECT 'ab1' AS x UNION ALL SELECT 'Abc' UNION ALL SELECT 'zz') WHERE x ~ '^[ab]+[0-9]$' OR x ~* '^a.c$' OR x !~ 'b'",
     [("ab1",), ("Abc",), ("zz",)]),
    ("SELECT 'account' OPERATOR(pg_catalog.~) '^(acc.*|entry)$' COLLATE pg_catalog.default, ~ 5, 'x' ~~ 'X%', 'x' !~~ 'y', 'a' ILIKE 'A'",
     [(1, -6, 1, 1, 1)]),
    ("SELECT 'a1b22' ~ '(\\d{2,3}|x)$', 'ab' ~ '^(a(b)?)+$', 'abab' ~ '^(?:ab){2}$', 'c' ~ '^[^[:digit:]]$', '' ~ '^$', 'a.c' ~ 'a\\.c'",
     [(1, 1, 1, 1, 1, 1)]),
    ("SELECT 1 AS default, 2 AS key, 3 AS \"order\"", [(1, 2, 3)]),
    ("SELECT public.account.id, pg_catalog.lower('X') FROM public.account UNION ALL SELECT 1, 'y'", [(1, "y")]),
    ("SELECT current_schema(), current_database(), current_schema, pg_catalog.current_schemas(false)", [("public", "db", "public",
     "{public}")]),
    ("SELECT 'account'::regclass::oid = oid, oid::regclass, 'pg_catalog.pg_class'::regclass <> 0 FROM pg_class WHERE relname = 'account'",
     [(1, "account", 1)]),
    ("SELECT nspname, 20::regtype, 'public'::regnamespace::int FROM pg_catalog.pg_namespace ORDER BY 1", [
        ("information_schema", "bigint", 2200), ("pg_catalog", "bigint", 2200), ("public", "bigint", 2200)]),
]
# What is refused, and how.
REFUSED = [
    ("SELECT 'nowhere'::regclass", "42P01"), ("SELECT 1::nothing", "42704"), ("SELECT ::int", "42601"), ("SELECT 1 < ANY(ARRAY[1])",
     "0A000"),
    ("SELECT unnest(a), unnest(b) FROM (SELECT '{1}' a, '{2}' b)", "0A000"), ("SELECT * FROM unnest('x')", "42000"), ("SELECT 1 FROM "
     "generate_series(1, 2, 0)", "22023"),
    ("SELECT 1 FROM unnest('{1}') AS u(x, n)", "42P10"),
    ("SELECT array_agg(x ORDER BY x DESC) FROM unnest('{1}') x", "0A000"), ("SELECT 'x' ~ '('", "42000"), ("SELECT 'x' ~ 'a{99}'", "42000"),
    ("SELECT 'x'::bool", "42000"), ("SELECT * FROM pg_catalog.pg_nothing", "42P01"), ("SELECT pg_nothing()", "42883"),
    ("CREATE TABLE s(a INTEGER PRIMARY KEY, b SERIAL)", "0A000"), ("CREATE TABLE s(a SERIAL, b INT, PRIMARY KEY(a, b))", "0A000"),
    ("INSERT INTO pg_class(oid) VALUES(1)", "42501"), ("SELECT E'\\xff'", "22021"), ("SELECT a FROM nowhere", "42P01"),
    ("SELECT '{1}'::int[] = '{1}' FROM nowhere", "42P01"), (f"SELECT {'(' * 70}1::int{')' * 70}", "54001"),
    ("SELECT array_agg(x ORDER BY x) FROM generate_series(1, 5000) x", "54000"),
]
# Queries of the kind that DBeaver and its driver send (written from memory: it wasn't there to be asked), and the first column's name
# and the values of two of the columns.
DBEAVER = [
    ("SELECT current_schema(), session_user", [("public", "anyone")]),
    ("SELECT db.oid,db.* FROM pg_catalog.pg_database db WHERE datname='db'", [(5, 5)]),
    ("SELECT n.oid,n.*,d.description FROM pg_catalog.pg_namespace n LEFT OUTER JOIN pg_catalog.pg_description d ON d.objoid=n.oid AND "
     "d.objsubid=0 "
     "AND d.classoid='pg_namespace'::regclass ORDER BY nspname", [(12, 12), (11, 11), (2200, 2200)]),
    ("SELECT t.oid,t.*,c.relkind,format_type(nullif(t.typbasetype, 0), t.typtypmod) as base_type_name, d.description FROM "
     "pg_catalog.pg_type t "
     "LEFT OUTER JOIN pg_catalog.pg_type et ON et.oid=t.typelem LEFT OUTER JOIN pg_catalog.pg_class c ON c.oid=t.typrelid LEFT OUTER JOIN "
     "pg_catalog.pg_description d ON t.oid=d.objoid WHERE t.typname IS NOT NULL AND (c.relkind IS NULL OR c.relkind = 'c') AND "
     "(et.typcategory IS NULL OR et.typcategory <> 'C') AND t.oid = 20", [(20, 20)]),
    ("select c.oid,c.*,d.description,pg_catalog.pg_get_expr(c.relpartbound, c.oid) as partition_expr, "
     "pg_catalog.pg_get_partkeydef(c.oid) as "
     "partition_key from pg_catalog.pg_class c left outer join pg_catalog.pg_description d on d.objoid=c.oid and d.objsubid=0 and "
     "d.classoid='pg_class'::regclass where c.relnamespace=2200 and c.relkind not in ('i','I','c') and c.relname = 'part'", None),
    ("SELECT c.relname,a.attname,pg_catalog.pg_get_expr(ad.adbin, ad.adrelid, true) as def_value,dsc.description,dep.objid FROM "
     "pg_catalog.pg_attribute a INNER JOIN pg_catalog.pg_class c ON (a.attrelid=c.oid) LEFT OUTER JOIN pg_catalog.pg_attrdef ad ON "
     "(a.attrelid=ad.adrelid AND a.attnum = ad.adnum) LEFT OUTER JOIN pg_catalog.pg_description dsc ON (c.oid=dsc.objoid AND a.attnum = "
     "dsc.objsubid) LEFT OUTER JOIN pg_depend dep on dep.refobjid = a.attrelid AND dep.deptype = 'i' and dep.refobjsubid = a.attnum and "
     "dep.classid = dep.refclassid WHERE NOT a.attisdropped AND c.oid='account'::regclass ORDER BY a.attnum",
     [("account", name) for name in ("id", "name", "balance", "born", "is_ok")]),
    ("SELECT c.conname,t.relname as tabrelname,c.oid,c.*,rt.relnamespace as refnamespace,d.description, case when c.contype='c' then "
     "\"substring\"(pg_get_constraintdef(c.oid), 7) else null end consrc_copy FROM pg_catalog.pg_constraint c INNER JOIN "
     "pg_catalog.pg_class t ON "
     "t.oid=c.conrelid LEFT OUTER JOIN pg_catalog.pg_class rt ON rt.oid=c.confrelid LEFT OUTER JOIN pg_catalog.pg_description d ON "
     "d.objoid=c.oid "
     "AND d.objsubid=0 AND d.classoid='pg_constraint'::regclass WHERE c.conrelid='part'::regclass ORDER BY c.oid", [("part_b_a_fkey",
     "part")]),
    ("SELECT c.relname,i.indkey as keys,i.*,c.relnamespace,c.relam,c.reltablespace,tc.relname as tabrelname,dsc.description,"
     "pg_catalog.pg_get_expr(i.indpred, i.indrelid) as pred_expr,pg_catalog.pg_get_expr(i.indexprs, i.indrelid, true) as expr,"
     "pg_catalog.pg_relation_size(i.indexrelid) as index_rel_size,pg_catalog.pg_stat_get_numscans(i.indexrelid) as index_num_scans FROM "
     "pg_catalog.pg_index i INNER JOIN pg_catalog.pg_class c ON c.oid=i.indexrelid INNER JOIN pg_catalog.pg_class tc ON "
     "tc.oid=i.indrelid LEFT OUTER "
     "JOIN pg_catalog.pg_description dsc ON i.indexrelid=dsc.objoid WHERE i.indrelid='entry'::regclass ORDER BY tabrelname, c.relname",
     [("entry_account", "2"), ("entry_pkey", "1"), ("entry_text", "0 2")]),
    ("SELECT x.oid,x.tgname,p.pronamespace AS func_schema_id,d.description FROM pg_catalog.pg_trigger x LEFT OUTER JOIN "
     "pg_catalog.pg_description d "
     "ON d.objoid=x.oid AND d.objsubid=0 LEFT OUTER JOIN (SELECT NULL AS oid, NULL AS pronamespace) p ON p.oid = x.tgfoid WHERE "
     "x.tgrelid='entry'::regclass AND NOT x.tgisinternal", None),
    ("SELECT a.rolname, a.oid FROM pg_catalog.pg_roles a ORDER BY a.rolname", [("anyone", 10)]),
    ("SELECT t.spcname, t.oid, pg_tablespace_location(t.oid) loc FROM pg_catalog.pg_tablespace t", [("pg_default", 1663)]),
    ("select * from pg_catalog.pg_settings where name='standard_conforming_strings'", [("standard_conforming_strings", "on")]),
    ("SELECT typinput='array_in'::regproc as is_array, typtype, typname, pg_type.oid FROM pg_catalog.pg_type WHERE oid = "
     "'_text'::regtype", [(1, "b")]),
]
SCHEMA = [
    ("SELECT table_name, table_type FROM information_schema.tables WHERE table_schema = 'public' ORDER BY 1",
     [("account", "BASE TABLE"), ("entry", "BASE TABLE"), ("pair", "BASE TABLE"), ("part", "BASE TABLE"), ("rich", "VIEW")]),
    ("SELECT column_name, data_type, character_maximum_length, is_nullable, column_default FROM information_schema.columns WHERE "
     "table_name = "
     "'account' ORDER BY ordinal_position",
     [("id", "bigint", None, "NO", "nextval('account_id_seq'::regclass)"), ("name", "character varying", 30, "NO", "'x'"),
      ("balance", "numeric", None, "YES", None), ("born", "date", None, "YES", None), ("is_ok", "boolean", None, "YES", None)]),
    ("SELECT kcu.column_name, ccu.table_name, ccu.column_name FROM information_schema.table_constraints tc JOIN "
     "information_schema.key_column_usage kcu ON tc.constraint_name = kcu.constraint_name JOIN "
     "information_schema.constraint_column_usage ccu ON "
     "ccu.constraint_name = tc.constraint_name WHERE constraint_type = 'FOREIGN KEY' AND tc.table_name='entry'", [("account",
     "account", "id")]),
    ("SELECT constraint_name, update_rule, delete_rule FROM information_schema.referential_constraints ORDER BY 1",
     [("entry_account_fkey", "NO ACTION", "CASCADE"), ("part_b_a_fkey", "SET NULL", "NO ACTION")]),
    ("SELECT conname, contype, conkey, pg_get_constraintdef(oid) FROM pg_constraint WHERE conrelid = 'pair'::regclass ORDER BY 2",
     [("whole", "c", None, "CHECK (a <> ')' AND b <> '')"), ("sqlite_autoindex_pair_1", "p", "{2,1}", "PRIMARY KEY (b, a)")]),
    ("SELECT attname, attnotnull, attgenerated FROM pg_attribute WHERE attrelid = 'pair'::regclass ORDER BY attnum",
     [("a", "t", ""), ("b", "t", ""), ("n", "f", "s")]),
    ("SELECT indexrelid::regclass, indisunique, indisprimary, indkey, indoption, indpred FROM pg_index WHERE indrelid = "
     "'entry'::regclass AND "
     "indisprimary = 'f' ORDER BY 1", [("entry_account", "f", "f", "2", "0", None), ("entry_text", "f", "f", "0 2", "0 3", "text IS NOT "
     "NULL")]),
    ("SELECT pg_get_indexdef('entry_text'::regclass), pg_get_viewdef('rich'), pg_get_indexdef('entry_text'::regclass, 1, true)",
     [("CREATE INDEX entry_text ON public.entry USING btree (lower(text), account DESC) WHERE text IS NOT NULL",
       "SELECT * FROM account WHERE balance > 100", "lower(text)")]),
    ("SELECT tgname, tgrelid::regclass FROM pg_trigger", [("noted", "entry")]),
]
PSQL = r"""                                    Table "public.account"
 Column  |         Type          | Collation | Nullable |               Default               
---------+-----------------------+-----------+----------+-------------------------------------
 id      | bigint                |           | not null | nextval('account_id_seq'::regclass)
 name    | character varying(30) |           | not null | 'x'
 balance | numeric(10,2)         |           |          | 
 born    | date                  |           |          | 
 is_ok   | boolean               |           |          | 
Indexes:
    "account_pkey" PRIMARY KEY, btree (id)
    "sqlite_autoindex_account_1" UNIQUE CONSTRAINT, btree (name)
Check constraints:
    "account_check" CHECK (balance >= 0)
Referenced by:
    TABLE "entry" CONSTRAINT "entry_account_fkey" FOREIGN KEY (account) REFERENCES account(id) ON DELETE CASCADE

                            Table "public.entry"
 Column  |  Type  | Collation | Nullable |              Default              
---------+--------+-----------+----------+-----------------------------------
 id      | bigint |           | not null | nextval('entry_id_seq'::regclass)
 account | bigint |           | not null | 
 text    | text   |           |          | 
Indexes:
    "entry_pkey" PRIMARY KEY, btree (id)
    "entry_account" btree (account)
    "entry_text" btree (lower(text), account DESC) WHERE text IS NOT NULL
Foreign-key constraints:
    "entry_account_fkey" FOREIGN KEY (account) REFERENCES account(id) ON DELETE CASCADE
Triggers:
    noted AFTER DELETE ON entry BEGIN DELETE FROM part; END

         Index "public.entry_text"
   Column    |  Type  | Key? | Definition  
-------------+--------+------+-------------
 lower(text) | text   | yes  | lower(text)
 account     | bigint | yes  | account
btree, for table "public.entry", predicate (text IS NOT NULL)

"""
LISTS = r"""public|account|table|anyone
public|entry|table|anyone
public|pair|table|anyone
public|part|table|anyone
public|rich|view|anyone
public|entry|table|anyone
public|rich|view|anyone
public|account_pkey|index|anyone|account
public|entry_account|index|anyone|entry
public|entry_pkey|index|anyone|entry
public|entry_text|index|anyone|entry
public|sqlite_autoindex_account_1|index|anyone|account
public|sqlite_autoindex_pair_1|index|anyone|pair
db|anyone|UTF8|C|C||libc|
anyone|Superuser|{}
public|anyone
"""
ALCHEMY = """import sys, warnings
from sqlalchemy import create_engine, inspect, MetaData
warnings.simplefilter("ignore")
engine = create_engine(f"postgresql+psycopg2://me@127.0.0.1:{sys.argv[1]}/db?sslmode=disable")
there = inspect(engine)
print(there.get_schema_names(), sorted(there.get_table_names()), there.get_view_names(), there.has_table("nowhere"))
for table in ("account", "pair"):
    print(*(f"{column['name']} {column['type']} {column['nullable']}" for column in there.get_columns(table)), sep=", ")
    print(there.get_pk_constraint(table)["constrained_columns"], there.get_unique_constraints(table), there.get_check_constraints(table))
print([(key["constrained_columns"], key["referred_table"], key["referred_columns"]) for key in there.get_foreign_keys("part")])
print([(index["name"], index["column_names"]) for index in there.get_indexes("entry")])
tables = MetaData()
tables.reflect(engine)
with engine.begin() as client:
    account = tables.tables["account"]
    print(client.execute(account.insert().values(name="a \\\\ b", is_ok=True)).inserted_primary_key)
    print(client.execute(account.select()).fetchall())
    client.execute(account.delete())
"""
ALCHEMY_SAYS = """['information_schema', 'public'] ['account', 'entry', 'pair', 'part'] ['rich'] False
id BIGINT False, name VARCHAR(30) False, balance NUMERIC(10, 2) True, born DATE True, is_ok BOOLEAN True
['id'] [{'name': 'sqlite_autoindex_account_1', 'column_names': ['name']}] [{'name': 'account_check', 'sqltext': 'balance >= 0'}]
a BIGINT False, b TEXT False, n TEXT True
['b', 'a'] [] [{'name': 'whole', 'sqltext': "a <> ')' AND b <> ''"}]
[(['b', 'a'], 'pair', ['b', 'a'])]
[('entry_account', ['account'])]
(1,)
[(1, 'a \\\\ b', None, None, 1)]
"""
DJANGO = """import sys
from django.conf import settings
from django.core.management import call_command
import django
settings.configure(DATABASES={"default": {"ENGINE": "django.db.backends.postgresql", "NAME": "db", "USER": "me", "HOST": "127.0.0.1",
                                          "PORT": sys.argv[1], "OPTIONS": {"sslmode": "disable"}}})
django.setup()
call_command("inspectdb", "account", "entry", "pair")
"""
DJANGO_SAYS = """class Account(models.Model):
    id = models.BigAutoField(primary_key=True)
    name = models.TextField(unique=True)
    balance = models.FloatField(blank=True, null=True)
    born = models.TextField(blank=True, null=True)
    is_ok = models.BigIntegerField(blank=True, null=True)

    class Meta:
        managed = False
        db_table = 'account'


class Entry(models.Model):
    id = models.BigAutoField(primary_key=True)
    account = models.ForeignKey(Account, models.DO_NOTHING, db_column='account')
    text = models.TextField(blank=True, null=True)

    class Meta:
        managed = False
        db_table = 'entry'


class Pair(models.Model):
    a = models.BigIntegerField()
    b = models.TextField(primary_key=True)
    n = models.TextField(blank=True, null=True)

    class Meta:
        managed = False
        db_table = 'pair'
        unique_together = (('b', 'a'),)
"""


def statements(client: Postgres) -> Iterator[tuple[str, str | None]]:
    for sql, rows in [*ANSWERED, *SCHEMA]:
        yield sql[:60], differs(client.rows(sql), rows)
    for sql, code in REFUSED:
        yield f"refused: {sql[:50]}", differs([code_of(lambda: client.ask(sql)), client.status], [code, "I"])
    for sql, rows in DBEAVER:
        came = client.rows(sql)
        yield f"DBeaver: {sql[:50]}", differs([row[:2] for row in came], rows) if rows else None if len(came) == 1 else f"{came}"
    types = [client.ask(sql)[0].types[0] for sql in ("SELECT relhasindex FROM pg_class", "SELECT conkey FROM pg_constraint", "SELECT "
     "ARRAY['a']",
                                                     "SELECT array_agg(oid) FROM pg_class")]
    yield "types of the catalog's columns", differs(types, [16, 1005, 1009, 1016])
    result = client.execute("SELECT relname, relhasindex FROM pg_class WHERE relname = $1::name AND relkind = ANY($2::text[])",
     (b"pair", b"{r,v}"))
    yield "by an extended query", differs(result.rows, [("pair", "t")])
    client.ask("BEGIN; CREATE TABLE brief(a)")
    seen = client.rows("SELECT count(*) FROM pg_class WHERE relname = 'brief'")
    client.ask("ROLLBACK")
    yield "within a transaction", differs([seen, client.rows("SELECT count(*) FROM pg_class WHERE relname = 'brief'")], [[(1,)], [(0,)]])
    yield "the file has none of it", differs(client.rows("SELECT count(*) FROM sqlite_schema WHERE name LIKE 'pg%' OR name LIKE "
     "'sql\\_%' ESCAPE '\\'"),
                                             [(0,)])


def psql(served: Served) -> Iterator[tuple[str, str | None]]:
    if not shutil.which("psql"):
        print("skipped: psql isn't installed", flush=True)
        return
    command = ["psql", "-h", "127.0.0.1", "-p", str(served.postgres), "-U", "me", "-X"]
    asked = [word for name in ("account", "entry", "entry_text") for word in ("-c", f"\\d {name}")]
    yield "psql's \\d of a table", differs(said([*command, *asked, "db"]), PSQL)
    asked = [word for name in ("\\d", "\\dt e*", "\\dv", "\\di", "\\l", "\\du", "\\dn") for word in ("-c", name)]
    yield "psql's lists", differs(said([*command, "-A", "-t", *asked, "db"]), LISTS)


def programs(served: Served) -> Iterator[tuple[str, str | None]]:
    os.environ["PGSSLMODE"] = "disable"
    for name, script, wanted in (("sqlalchemy", ALCHEMY, ALCHEMY_SAYS), ("django", DJANGO, DJANGO_SAYS)):
        python = python_with(f"{name}, psycopg2")
        if python is None:
            print(f"skipped: {name} or psycopg2 isn't installed", flush=True)
            continue
        came = said([python, "-c", "import sys; exec(sys.stdin.read())", str(served.postgres)], script)
        yield name, differs(came[came.find("class "):].rstrip("\n") + "\n" if name == "django" else came, wanted)


def tests(built: Built) -> Iterator[tuple[str, str | None]]:
    with tempfile.TemporaryDirectory() as folder, Served(built, Path(folder) / "catalog") as served:
        client = Postgres(served.postgres)
        client.ask(TABLES)
        yield from statements(client)
        yield from psql(served)
        yield from programs(served)
        client.close()
