#include "catalog_queries.h"

#include <stddef.h>

/* An object's number (oid) is that of its row in sqlite_schema, and of what has no row there that of its table and a number that tells
   what it is. */
#define FIRST "16384"
#define KEYS "268435456"        /* the keys of tables that are kept by them, which SQLite has no index for */
#define KEY_CONSTRAINTS "536870912"
#define FOREIGN_KEYS "1073741824"
#define CHECKS "1610612736"
#define DEFAULTS "2147483648"

#define PUBLIC "2200"
#define ANYONE "10" /* the only role: whoever has the password, or anyone where there is none */


const struct relation catalog_relations[] = {
    /* What the others stand on. */
    {"sql_relation", "oid INTEGER, name TEXT, kind TEXT, sql TEXT",
     "SELECT rowid + " FIRST ", name, CASE type WHEN 'table' THEN 'r' ELSE 'v' END, sql FROM main.sqlite_schema "
     "WHERE type IN ('table', 'view') AND name NOT LIKE 'sqlite\\_%' ESCAPE '\\'"},
    {"sql_key", "oid INTEGER, relid INTEGER, name TEXT, is_unique INTEGER, origin TEXT, sql TEXT, is_table INTEGER",
     "SELECT coalesce(s.rowid + " FIRST ", t.oid + " KEYS "), t.oid, l.name, l.\"unique\", l.origin, s.sql, 0 "
     "FROM sql_relation t JOIN pragma_index_list(t.name, 'main') l LEFT JOIN main.sqlite_schema s ON s.type = 'index' AND s.name = l.name "
     "WHERE t.kind = 'r' UNION ALL "
     "SELECT t.oid + " KEYS ", t.oid, t.name || '_pkey', 1, 'pk', NULL, 1 FROM sql_relation t WHERE t.kind = 'r' "
     "AND EXISTS(SELECT 1 FROM pragma_table_xinfo(t.name, 'main') WHERE pk > 0) "
     "AND NOT EXISTS(SELECT 1 FROM pragma_index_list(t.name, 'main') WHERE origin = 'pk')"},
    {"sql_key_column", "oid INTEGER, relid INTEGER, place INTEGER, number INTEGER, name TEXT, is_down INTEGER, is_table INTEGER",
     "SELECT k.oid, k.relid, x.seqno + 1, CASE WHEN x.cid < 0 THEN 0 ELSE x.cid + 1 END, coalesce(x.name, sql_term(k.sql, x.seqno + 1)), "
     "x.desc, 0 FROM sql_key k JOIN pragma_index_xinfo(k.name, 'main') x WHERE NOT k.is_table AND x.key UNION ALL "
     "SELECT k.oid, k.relid, c.pk, c.cid + 1, c.name, 0, 1 FROM sql_key k JOIN sql_relation t ON t.oid = k.relid "
     "JOIN pragma_table_xinfo(t.name, 'main') c WHERE k.is_table AND c.pk > 0"},
    {"sql_foreign_key",
     "oid INTEGER, relid INTEGER, target TEXT, on_update TEXT, on_delete TEXT, numbers TEXT, names TEXT, target_numbers TEXT, target_names TEXT",
     "SELECT " FOREIGN_KEYS " + (t.oid - " FIRST ") * 256 + f.id, t.oid, f.\"table\", f.on_update, f.on_delete, "
     "array_agg(c.cid + 1, f.seq), string_agg(quote_ident(c.name), ', ', f.seq), array_agg(coalesce(d.cid, p.cid) + 1, f.seq), "
     "string_agg(quote_ident(coalesce(d.name, p.name)), ', ', f.seq) "
     "FROM sql_relation t JOIN pragma_foreign_key_list(t.name, 'main') f "
     "JOIN pragma_table_xinfo(t.name, 'main') c ON c.name = f.\"from\" COLLATE NOCASE "
     "LEFT JOIN pragma_table_xinfo(f.\"table\", 'main') d ON d.name = f.\"to\" COLLATE NOCASE "
     "LEFT JOIN pragma_table_xinfo(f.\"table\", 'main') p ON f.\"to\" IS NULL AND p.pk = f.seq + 1 "
     "WHERE t.kind = 'r' GROUP BY t.oid, f.id"},
    /* pg_catalog. */
    {"pg_namespace", "oid INTEGER, nspname TEXT, nspowner INTEGER, nspacl " TEXTS,
     "VALUES(" PUBLIC ", 'public', " ANYONE ", NULL), (11, 'pg_catalog', " ANYONE ", NULL), (12, 'information_schema', " ANYONE ", NULL)"},
    {"pg_class",
     "oid INTEGER, relname TEXT, relnamespace INTEGER, relkind TEXT, reltype INTEGER, reloftype INTEGER, relowner INTEGER, relam INTEGER, "
     "relfilenode INTEGER, reltablespace INTEGER, relpages INTEGER, reltuples INTEGER, reltoastrelid INTEGER, relhasindex " TRUTH ", "
     "relisshared " TRUTH ", relpersistence TEXT, relnatts INTEGER, relchecks INTEGER, relhasrules " TRUTH ", relhastriggers " TRUTH ", "
     "relhassubclass " TRUTH ", relrowsecurity " TRUTH ", relforcerowsecurity " TRUTH ", relispopulated " TRUTH ", relreplident TEXT, "
     "relispartition " TRUTH ", relacl " TEXTS ", reloptions " TEXTS ", relpartbound TEXT",
     "SELECT t.oid, t.name, " PUBLIC ", t.kind, 0, 0, " ANYONE ", CASE t.kind WHEN 'r' THEN 2 ELSE 0 END, t.oid, 0, 0, -1, 0, "
     "EXISTS(SELECT 1 FROM sql_key k WHERE k.relid = t.oid), 0, 'p', (SELECT count(*) FROM pragma_table_xinfo(t.name, 'main')), "
     "CASE t.kind WHEN 'r' THEN json_array_length(sql_checks(t.sql)) ELSE 0 END, 0, "
     "EXISTS(SELECT 1 FROM main.sqlite_schema s WHERE s.type = 'trigger' AND s.tbl_name = t.name COLLATE NOCASE) "
     "OR EXISTS(SELECT 1 FROM sql_foreign_key f WHERE f.relid = t.oid OR f.target = t.name COLLATE NOCASE), 0, 0, 0, 1, 'd', 0, NULL, "
     "NULL, NULL FROM sql_relation t UNION ALL "
     "SELECT k.oid, k.name, " PUBLIC ", 'i', 0, 0, " ANYONE ", 403, k.oid, 0, 0, -1, 0, 0, 0, 'p', "
     "(SELECT count(*) FROM sql_key_column c WHERE c.oid = k.oid), 0, 0, 0, 0, 0, 0, 1, 'n', 0, NULL, NULL, NULL FROM sql_key k"},
    {"pg_attribute",
     "attrelid INTEGER, attname TEXT, attnum INTEGER, atttypid INTEGER, atttypmod INTEGER, attlen INTEGER, attndims INTEGER, "
     "attstattarget INTEGER, attcacheoff INTEGER, attbyval " TRUTH ", attalign TEXT, attstorage TEXT, attcompression TEXT, "
     "attnotnull " TRUTH ", atthasdef " TRUTH ", atthasmissing " TRUTH ", attidentity TEXT, attgenerated TEXT, attisdropped " TRUTH ", "
     "attislocal " TRUTH ", attinhcount INTEGER, attcollation INTEGER, attacl " TEXTS ", attoptions " TEXTS ", attfdwoptions " TEXTS,
     "WITH c AS (SELECT t.oid, x.cid, x.name, x.hidden, type_of_declared(x.type) AS kind, x.type, x.dflt_value, x.\"notnull\" OR "
     "(x.pk > 0 AND EXISTS(SELECT 1 FROM sql_key k WHERE k.relid = t.oid AND (k.is_table OR k.oid > " KEYS ") AND k.origin = 'pk')) AS is_set, "
     "x.pk = 1 AND EXISTS(SELECT 1 FROM sql_key k WHERE k.relid = t.oid AND k.is_table) AS is_numbered "
     "FROM sql_relation t JOIN pragma_table_xinfo(t.name, 'main') x WHERE x.hidden <> 1) "
     "SELECT oid, name, cid + 1, kind, length_of_declared(type, kind), -1, 0, -1, -1, 0, 'i', 'x', '', is_set, "
     "dflt_value IS NOT NULL OR is_numbered OR hidden > 1, 0, '', CASE WHEN hidden > 1 THEN 's' ELSE '' END, 0, 1, 0, "
     "CASE WHEN kind IN (25, 1042, 1043) THEN 100 ELSE 0 END, NULL, NULL, NULL FROM c UNION ALL "
     "SELECT k.oid, k.name, k.place, coalesce(a.kind, 25), coalesce(length_of_declared(a.type, a.kind), -1), -1, 0, -1, -1, 0, 'i', 'x', '', 0, 0, "
     "0, '', '', 0, 1, 0, 0, NULL, NULL, NULL FROM sql_key_column k LEFT JOIN c a ON a.oid = k.relid AND a.cid + 1 = k.number"},
    {"pg_attrdef", "oid INTEGER, adrelid INTEGER, adnum INTEGER, adbin TEXT",
     "SELECT " DEFAULTS " + (t.oid - " FIRST ") * 1024 + x.cid, t.oid, x.cid + 1, coalesce(x.dflt_value, 'nextval(''' || t.name || '_' || "
     "x.name || '_seq''::regclass)') FROM sql_relation t JOIN pragma_table_xinfo(t.name, 'main') x WHERE x.dflt_value IS NOT NULL "
     "OR (x.pk = 1 AND EXISTS(SELECT 1 FROM sql_key k WHERE k.relid = t.oid AND k.is_table))"},
    {"pg_index",
     "indexrelid INTEGER, indrelid INTEGER, indnatts INTEGER, indnkeyatts INTEGER, indisunique " TRUTH ", indnullsnotdistinct " TRUTH ", "
     "indisprimary " TRUTH ", indisexclusion " TRUTH ", indimmediate " TRUTH ", indisclustered " TRUTH ", indisvalid " TRUTH ", "
     "indcheckxmin " TRUTH ", indisready " TRUTH ", indislive " TRUTH ", indisreplident " TRUTH ", indkey TEXT, indcollation TEXT, "
     "indclass TEXT, indoption TEXT, indexprs TEXT, indpred TEXT, definition TEXT",
     "SELECT k.oid, k.relid, count(*), count(*), k.is_unique, 0, k.origin = 'pk', 0, 1, 0, 1, 0, 1, 1, 0, string_agg(c.number, ' ', c.place), "
     "string_agg(0, ' ', c.place), string_agg(0, ' ', c.place), string_agg(CASE WHEN c.is_down THEN 3 ELSE 0 END, ' ', c.place), "
     "string_agg(CASE c.number WHEN 0 THEN c.name END, ', ', c.place), sql_behind(k.sql, 'WHERE'), "
     "'CREATE ' || CASE WHEN k.is_unique THEN 'UNIQUE ' ELSE '' END || 'INDEX ' || quote_ident(k.name) || ' ON public.' || quote_ident(t.name) "
     "|| ' USING btree ' || coalesce(sql_terms(k.sql), '(' || string_agg(quote_ident(c.name), ', ', c.place) || ')') "
     "|| coalesce(' WHERE ' || sql_behind(k.sql, 'WHERE'), '') "
     "FROM sql_key k JOIN sql_relation t ON t.oid = k.relid JOIN sql_key_column c ON c.oid = k.oid GROUP BY k.oid"},
    {"pg_constraint",
     "oid INTEGER, conname TEXT, connamespace INTEGER, contype TEXT, condeferrable " TRUTH ", condeferred " TRUTH ", convalidated " TRUTH ", "
     "conrelid INTEGER, contypid INTEGER, conindid INTEGER, conparentid INTEGER, confrelid INTEGER, confupdtype TEXT, confdeltype TEXT, "
     "confmatchtype TEXT, conislocal " TRUTH ", coninhcount INTEGER, connoinherit " TRUTH ", conkey " NUMBERS ", confkey " NUMBERS ", "
     "conbin TEXT, definition TEXT",
     "SELECT k.oid + " KEY_CONSTRAINTS ", k.name, " PUBLIC ", substr(k.origin, 1, 1), 0, 0, 1, k.relid, 0, k.oid, 0, 0, ' ', ' ', ' ', 1, 0, 1, "
     "array_agg(c.number, c.place), NULL, NULL, CASE k.origin WHEN 'pk' THEN 'PRIMARY KEY (' ELSE 'UNIQUE (' END "
     "|| string_agg(quote_ident(c.name), ', ', c.place) || ')' FROM sql_key k JOIN sql_key_column c ON c.oid = k.oid WHERE k.origin <> 'c' "
     "GROUP BY k.oid UNION ALL "
     "SELECT f.oid, t.name || '_' || replace(replace(f.names, ', ', '_'), '\"', '') || '_fkey', " PUBLIC ", 'f', 0, 0, 1, f.relid, 0, 0, 0, "
     "coalesce(d.oid, 0), CASE f.on_update WHEN 'RESTRICT' THEN 'r' WHEN 'CASCADE' THEN 'c' WHEN 'SET NULL' THEN 'n' WHEN 'SET DEFAULT' THEN 'd' "
     "ELSE 'a' END, CASE f.on_delete WHEN 'RESTRICT' THEN 'r' WHEN 'CASCADE' THEN 'c' WHEN 'SET NULL' THEN 'n' WHEN 'SET DEFAULT' THEN 'd' "
     "ELSE 'a' END, 's', 1, 0, 1, f.numbers, f.target_numbers, NULL, 'FOREIGN KEY (' || f.names || ') REFERENCES ' || quote_ident(f.target) || '(' "
     "|| f.target_names || ')' || CASE f.on_update WHEN 'NO ACTION' THEN '' ELSE ' ON UPDATE ' || f.on_update END "
     "|| CASE f.on_delete WHEN 'NO ACTION' THEN '' ELSE ' ON DELETE ' || f.on_delete END "
     "FROM sql_foreign_key f JOIN sql_relation t ON t.oid = f.relid LEFT JOIN sql_relation d ON d.name = f.target COLLATE NOCASE UNION ALL "
     "SELECT " CHECKS " + (t.oid - " FIRST ") * 256 + j.key, coalesce(nullif(j.value ->> 'name', ''), t.name || '_check' || coalesce(nullif(j.key, 0), "
     "'')), " PUBLIC ", 'c', 0, 0, 1, t.oid, 0, 0, 0, 0, ' ', ' ', ' ', 1, 0, 0, NULL, NULL, j.value ->> 'is', 'CHECK ' || (j.value ->> 'is') "
     "FROM sql_relation t JOIN json_each(sql_checks(t.sql)) j WHERE t.kind = 'r'"},
    {"pg_trigger",
     "oid INTEGER, tgrelid INTEGER, tgparentid INTEGER, tgname TEXT, tgfoid INTEGER, tgtype INTEGER, tgenabled TEXT, tgisinternal " TRUTH ", "
     "tgconstrrelid INTEGER, tgconstrindid INTEGER, tgconstraint INTEGER, tgdeferrable " TRUTH ", tginitdeferred " TRUTH ", definition TEXT",
     "SELECT s.rowid + " FIRST ", t.oid, 0, s.name, 0, 0, 'O', 0, 0, 0, 0, 0, 0, s.sql FROM main.sqlite_schema s "
     "JOIN sql_relation t ON t.name = s.tbl_name COLLATE NOCASE WHERE s.type = 'trigger'"},
    {"pg_type",
     "oid INTEGER, typname TEXT, typnamespace INTEGER, typowner INTEGER, typlen INTEGER, typbyval " TRUTH ", typtype TEXT, typcategory TEXT, "
     "typispreferred " TRUTH ", typisdefined " TRUTH ", typdelim TEXT, typrelid INTEGER, typelem INTEGER, typarray INTEGER, typinput TEXT, "
     "typnotnull " TRUTH ", typbasetype INTEGER, typtypmod INTEGER, typndims INTEGER, typcollation INTEGER, typdefault TEXT, formatted TEXT",
     "WITH t(oid, name, length, category, element, array, formatted) AS (VALUES"
     "(16, 'bool', 1, 'B', 0, 1000, 'boolean'), (17, 'bytea', -1, 'U', 0, 1001, 'bytea'), (18, 'char', 1, 'Z', 0, 1002, '\"char\"'), "
     "(19, 'name', 64, 'S', 18, 1003, 'name'), (20, 'int8', 8, 'N', 0, 1016, 'bigint'), (21, 'int2', 2, 'N', 0, 1005, 'smallint'), "
     "(22, 'int2vector', -1, 'A', 21, 1006, 'int2vector'), (23, 'int4', 4, 'N', 0, 1007, 'integer'), (25, 'text', -1, 'S', 0, 1009, 'text'), "
     "(26, 'oid', 4, 'N', 0, 1028, 'oid'), (114, 'json', -1, 'U', 0, 199, 'json'), (700, 'float4', 4, 'N', 0, 1021, 'real'), "
     "(701, 'float8', 8, 'N', 0, 1022, 'double precision'), (1042, 'bpchar', -1, 'S', 0, 1014, 'character'), "
     "(1043, 'varchar', -1, 'S', 0, 1015, 'character varying'), (1082, 'date', 4, 'D', 0, 1182, 'date'), "
     "(1083, 'time', 8, 'D', 0, 1183, 'time without time zone'), (1114, 'timestamp', 8, 'D', 0, 1115, 'timestamp without time zone'), "
     "(1184, 'timestamptz', 8, 'D', 0, 1185, 'timestamp with time zone'), (1700, 'numeric', -1, 'N', 0, 1231, 'numeric'), "
     "(2950, 'uuid', 16, 'U', 0, 2951, 'uuid'), (3802, 'jsonb', -1, 'U', 0, 3807, 'jsonb'), (1005, '_int2', -1, 'A', 21, 0, 'smallint[]'), "
     "(1009, '_text', -1, 'A', 25, 0, 'text[]')) "
     "SELECT oid, name, 11, " ANYONE ", length, length BETWEEN 1 AND 8, 'b', category, 0, 1, ',', 0, element, array, "
     "CASE WHEN category = 'A' AND element <> 0 AND oid > 1000 THEN 'array_in' ELSE name || 'in' END, 0, 0, -1, 0, "
     "CASE WHEN category = 'S' THEN 100 ELSE 0 END, NULL, formatted FROM t"},
    {"pg_am", "oid INTEGER, amname TEXT, amhandler INTEGER, amtype TEXT", "VALUES(2, 'heap', 0, 't'), (403, 'btree', 0, 'i')"},
    {"pg_database",
     "oid INTEGER, datname TEXT, datdba INTEGER, encoding INTEGER, datlocprovider TEXT, datistemplate " TRUTH ", datallowconn " TRUTH ", "
     "datconnlimit INTEGER, dattablespace INTEGER, datcollate TEXT, datctype TEXT, daticulocale TEXT, datacl " TEXTS,
     "VALUES(5, 'db', " ANYONE ", 6, 'c', 0, 1, -1, 1663, 'C', 'C', NULL, NULL)"},
    {"pg_roles",
     "oid INTEGER, rolname TEXT, rolsuper " TRUTH ", rolinherit " TRUTH ", rolcreaterole " TRUTH ", rolcreatedb " TRUTH ", rolcanlogin " TRUTH
     ", rolreplication " TRUTH ", rolconnlimit INTEGER, rolpassword TEXT, rolvaliduntil TEXT, rolbypassrls " TRUTH ", rolconfig " TEXTS,
     "VALUES(" ANYONE ", 'anyone', 1, 1, 0, 0, 1, 0, -1, NULL, NULL, 0, NULL)"},
    {"pg_user", "usename TEXT, usesysid INTEGER, usecreatedb " TRUTH ", usesuper " TRUTH, "VALUES('anyone', " ANYONE ", 0, 1)"},
    {"pg_collation", "oid INTEGER, collname TEXT, collnamespace INTEGER, collowner INTEGER, collprovider TEXT, collcollate TEXT, collctype TEXT",
     "VALUES(100, 'default', 11, " ANYONE ", 'd', NULL, NULL), (950, 'C', 11, " ANYONE ", 'c', 'C', 'C')"},
    {"pg_tablespace", "oid INTEGER, spcname TEXT, spcowner INTEGER, spcacl " TEXTS ", spcoptions " TEXTS,
     "VALUES(1663, 'pg_default', " ANYONE ", NULL, NULL)"},
    {"pg_settings", "name TEXT, setting TEXT, unit TEXT, category TEXT, short_desc TEXT",
     "SELECT value, current_setting(value), NULL, NULL, NULL FROM json_each('[\"client_encoding\", \"default_transaction_isolation\", "
     "\"idle_in_transaction_session_timeout\", \"lock_timeout\", \"max_identifier_length\", \"search_path\", \"server_encoding\", "
     "\"server_version\", \"server_version_num\", \"standard_conforming_strings\", \"statement_timeout\", \"transaction_isolation\", "
     "\"transaction_read_only\"]')"},
    {"pg_tables", "schemaname TEXT, tablename TEXT, tableowner TEXT, tablespace TEXT, hasindexes " TRUTH ", hasrules " TRUTH ", hastriggers " TRUTH
     ", rowsecurity " TRUTH,
     "SELECT 'public', relname, 'anyone', NULL, relhasindex, 0, relhastriggers, 0 FROM pg_class WHERE relkind = 'r'"},
    {"pg_views", "schemaname TEXT, viewname TEXT, viewowner TEXT, definition TEXT",
     "SELECT 'public', name, 'anyone', sql_behind(sql, 'AS') FROM sql_relation WHERE kind = 'v'"},
    {"pg_indexes", "schemaname TEXT, tablename TEXT, indexname TEXT, tablespace TEXT, indexdef TEXT",
     "SELECT 'public', t.name, k.name, NULL, i.definition FROM pg_index i JOIN sql_key k ON k.oid = i.indexrelid "
     "JOIN sql_relation t ON t.oid = i.indrelid"},
    /* Of what isn't here. */
    {"pg_auth_members", "roleid INTEGER, member INTEGER, grantor INTEGER, admin_option " TRUTH, NULL},
    {"pg_description", "objoid INTEGER, classoid INTEGER, objsubid INTEGER, description TEXT", NULL},
    {"pg_shdescription", "objoid INTEGER, classoid INTEGER, description TEXT", NULL},
    {"pg_depend", "classid INTEGER, objid INTEGER, objsubid INTEGER, refclassid INTEGER, refobjid INTEGER, refobjsubid INTEGER, deptype TEXT", NULL},
    {"pg_inherits", "inhrelid INTEGER, inhparent INTEGER, inhseqno INTEGER, inhdetachpending " TRUTH, NULL},
    {"pg_policy", "oid INTEGER, polname TEXT, polrelid INTEGER, polcmd TEXT, polpermissive " TRUTH ", polroles " TEXTS ", polqual TEXT, "
     "polwithcheck TEXT", NULL},
    {"pg_statistic_ext", "oid INTEGER, stxrelid INTEGER, stxname TEXT, stxnamespace INTEGER, stxowner INTEGER, stxstattarget INTEGER, "
     "stxkeys TEXT, stxkind " TEXTS, NULL},
    {"pg_publication", "oid INTEGER, pubname TEXT, pubowner INTEGER, puballtables " TRUTH, NULL},
    {"pg_publication_rel", "oid INTEGER, prpubid INTEGER, prrelid INTEGER, prqual TEXT, prattrs TEXT", NULL},
    {"pg_publication_namespace", "oid INTEGER, pnpubid INTEGER, pnnspid INTEGER", NULL},
    {"pg_sequence", "seqrelid INTEGER, seqtypid INTEGER, seqstart INTEGER, seqincrement INTEGER, seqmax INTEGER, seqmin INTEGER, seqcache INTEGER, "
     "seqcycle " TRUTH, NULL},
    {"pg_enum", "oid INTEGER, enumtypid INTEGER, enumsortorder INTEGER, enumlabel TEXT", NULL},
    {"pg_range", "rngtypid INTEGER, rngsubtype INTEGER", NULL},
    {"pg_extension", "oid INTEGER, extname TEXT, extowner INTEGER, extnamespace INTEGER, extrelocatable " TRUTH ", extversion TEXT", NULL},
    {"pg_foreign_table", "ftrelid INTEGER, ftserver INTEGER, ftoptions " TEXTS, NULL},
    {"pg_foreign_server", "oid INTEGER, srvname TEXT, srvowner INTEGER, srvfdw INTEGER", NULL},
    {"pg_foreign_data_wrapper", "oid INTEGER, fdwname TEXT, fdwowner INTEGER", NULL},
    {"pg_event_trigger", "oid INTEGER, evtname TEXT, evtevent TEXT, evtowner INTEGER, evtenabled TEXT", NULL},
    {"pg_rewrite", "oid INTEGER, rulename TEXT, ev_class INTEGER, ev_type TEXT, ev_enabled TEXT, is_instead " TRUTH, NULL},
    {"pg_partitioned_table", "partrelid INTEGER, partstrat TEXT", NULL},
    {"pg_matviews", "schemaname TEXT, matviewname TEXT, matviewowner TEXT, definition TEXT", NULL},
    {"pg_sequences", "schemaname TEXT, sequencename TEXT, sequenceowner TEXT", NULL},
    /* information_schema. */
    {"information_schema.schemata", "catalog_name TEXT, schema_name TEXT, schema_owner TEXT",
     "SELECT 'db', nspname, 'anyone' FROM pg_namespace"},
    {"information_schema.tables", "table_catalog TEXT, table_schema TEXT, table_name TEXT, table_type TEXT, is_insertable_into TEXT",
     "SELECT 'db', 'public', name, CASE kind WHEN 'r' THEN 'BASE TABLE' ELSE 'VIEW' END, CASE kind WHEN 'r' THEN 'YES' ELSE 'NO' END "
     "FROM sql_relation"},
    {"information_schema.views", "table_catalog TEXT, table_schema TEXT, table_name TEXT, view_definition TEXT",
     "SELECT 'db', schemaname, viewname, definition FROM pg_views"},
    {"information_schema.columns",
     "table_catalog TEXT, table_schema TEXT, table_name TEXT, column_name TEXT, ordinal_position INTEGER, column_default TEXT, is_nullable TEXT, "
     "data_type TEXT, character_maximum_length INTEGER, numeric_precision INTEGER, numeric_scale INTEGER, datetime_precision INTEGER, "
     "udt_catalog TEXT, udt_schema TEXT, udt_name TEXT, collation_name TEXT, is_identity TEXT, is_generated TEXT, generation_expression TEXT, "
     "is_updatable TEXT",
     "SELECT 'db', 'public', t.name, a.attname, a.attnum, d.adbin, CASE WHEN a.attnotnull THEN 'NO' ELSE 'YES' END, y.formatted, "
     "CASE WHEN a.atttypmod > 0 AND a.atttypid <> 1700 THEN a.atttypmod - 4 END, "
     "CASE a.atttypid WHEN 20 THEN 64 WHEN 701 THEN 53 WHEN 1700 THEN CASE WHEN a.atttypmod > 0 THEN (a.atttypmod - 4) >> 16 END END, "
     "CASE a.atttypid WHEN 20 THEN 0 WHEN 1700 THEN CASE WHEN a.atttypmod > 0 THEN (a.atttypmod - 4) & 65535 END END, NULL, "
     "'db', 'pg_catalog', y.typname, NULL, 'NO', CASE a.attgenerated WHEN '' THEN 'NEVER' ELSE 'ALWAYS' END, NULL, "
     "CASE t.kind WHEN 'r' THEN 'YES' ELSE 'NO' END FROM sql_relation t JOIN pg_attribute a ON a.attrelid = t.oid JOIN pg_type y ON y.oid = a.atttypid "
     "LEFT JOIN pg_attrdef d ON d.adrelid = t.oid AND d.adnum = a.attnum"},
    {"information_schema.table_constraints",
     "constraint_catalog TEXT, constraint_schema TEXT, constraint_name TEXT, table_catalog TEXT, table_schema TEXT, table_name TEXT, "
     "constraint_type TEXT, is_deferrable TEXT, initially_deferred TEXT",
     "SELECT 'db', 'public', c.conname, 'db', 'public', t.name, CASE c.contype WHEN 'p' THEN 'PRIMARY KEY' WHEN 'u' THEN 'UNIQUE' WHEN 'f' THEN "
     "'FOREIGN KEY' ELSE 'CHECK' END, 'NO', 'NO' FROM pg_constraint c JOIN sql_relation t ON t.oid = c.conrelid"},
    {"information_schema.key_column_usage",
     "constraint_catalog TEXT, constraint_schema TEXT, constraint_name TEXT, table_catalog TEXT, table_schema TEXT, table_name TEXT, "
     "column_name TEXT, ordinal_position INTEGER, position_in_unique_constraint INTEGER",
     "SELECT 'db', 'public', c.conname, 'db', 'public', t.name, a.attname, u.ordinality, CASE c.contype WHEN 'f' THEN u.ordinality END "
     "FROM pg_constraint c JOIN \"unnest value ordinality\"(c.conkey) u JOIN sql_relation t ON t.oid = c.conrelid "
     "JOIN pg_attribute a ON a.attrelid = t.oid AND a.attnum = u.value WHERE c.contype IN ('p', 'u', 'f')"},
    {"information_schema.constraint_column_usage",
     "table_catalog TEXT, table_schema TEXT, table_name TEXT, column_name TEXT, constraint_catalog TEXT, constraint_schema TEXT, "
     "constraint_name TEXT",
     "SELECT 'db', 'public', t.name, a.attname, 'db', 'public', c.conname FROM pg_constraint c "
     "JOIN \"unnest value ordinality\"(coalesce(c.confkey, c.conkey)) u "
     "JOIN sql_relation t ON t.oid = CASE c.contype WHEN 'f' THEN c.confrelid ELSE c.conrelid END "
     "JOIN pg_attribute a ON a.attrelid = t.oid AND a.attnum = u.value WHERE c.contype IN ('p', 'u', 'f')"},
    {"information_schema.referential_constraints",
     "constraint_catalog TEXT, constraint_schema TEXT, constraint_name TEXT, unique_constraint_catalog TEXT, unique_constraint_schema TEXT, "
     "unique_constraint_name TEXT, match_option TEXT, update_rule TEXT, delete_rule TEXT",
     "SELECT 'db', 'public', c.conname, 'db', 'public', (SELECT k.conname FROM pg_constraint k WHERE k.conrelid = c.confrelid AND "
     "k.conkey = c.confkey AND k.contype IN ('p', 'u')), 'NONE', f.on_update, f.on_delete "
     "FROM pg_constraint c JOIN sql_foreign_key f ON f.oid = c.oid WHERE c.contype = 'f'"},
    {"information_schema.check_constraints", "constraint_catalog TEXT, constraint_schema TEXT, constraint_name TEXT, check_clause TEXT",
     "SELECT 'db', 'public', conname, conbin FROM pg_constraint WHERE contype = 'c'"},
    {"information_schema.sequences", "sequence_catalog TEXT, sequence_schema TEXT, sequence_name TEXT", NULL},
    {"information_schema.routines", "routine_catalog TEXT, routine_schema TEXT, routine_name TEXT, routine_type TEXT", NULL},
    {NULL, NULL, NULL},
};

#define YES "SELECT 1"
#define UNKNOWN "SELECT NULL"

const struct function catalog_functions[] = {
    {"version", 0, 0, "SELECT 'PostgreSQL 15.0 (SQLite ' || sqlite_version() || ')'", NULL},
    {"current_database", 0, 0, "SELECT 'db'", NULL},
    {"current_schema", 0, 0, "SELECT 'public'", NULL},
    {"current_schemas", 1, 1, "SELECT CASE WHEN ?1 THEN '{pg_catalog,public}' ELSE '{public}' END", NULL},
    {"current_user", 0, 0, "SELECT 'anyone'", NULL},
    {"session_user", 0, 0, "SELECT 'anyone'", NULL},
    {"now", 0, 0, "SELECT strftime('%Y-%m-%d %H:%M:%f+00', 'now')", NULL},
    {"pg_is_in_recovery", 0, 0, "SELECT 0", NULL},
    {"pg_get_userbyid", 1, 1, "SELECT CASE ?1 WHEN " ANYONE " THEN 'anyone' ELSE 'unknown (OID=' || ?1 || ')' END", NULL},
    {"pg_encoding_to_char", 1, 1, "SELECT CASE ?1 WHEN 6 THEN 'UTF8' ELSE '' END", NULL},
    {"pg_table_is_visible", 1, 1, YES, NULL},
    {"pg_type_is_visible", 1, 1, YES, NULL},
    {"has_database_privilege", 2, 3, YES, NULL},
    {"has_schema_privilege", 2, 3, YES, NULL},
    {"has_table_privilege", 2, 3, YES, NULL},
    {"has_column_privilege", 3, 4, YES, NULL},
    {"pg_has_role", 2, 3, YES, NULL},
    {"pg_relation_is_publishable", 1, 1, "SELECT 0", NULL},
    {"obj_description", 1, 2, UNKNOWN, NULL},
    {"col_description", 2, 2, UNKNOWN, NULL},
    {"shobj_description", 2, 2, UNKNOWN, NULL},
    {"pg_get_statisticsobjdef_columns", 1, 1, UNKNOWN, NULL},
    {"pg_get_partkeydef", 1, 1, UNKNOWN, NULL},
    {"pg_get_serial_sequence", 2, 2, UNKNOWN, NULL},
    {"pg_relation_size", 1, 2, UNKNOWN, NULL},
    {"pg_table_size", 1, 1, UNKNOWN, NULL},
    {"pg_indexes_size", 1, 1, UNKNOWN, NULL},
    {"pg_total_relation_size", 1, 1, UNKNOWN, NULL},
    {"pg_stat_get_numscans", 1, 1, UNKNOWN, NULL},
    {"pg_tablespace_location", 1, 1, "SELECT ''", NULL},
    {"pg_database_size", 1, 1, "SELECT page_count * page_size FROM pragma_page_count, pragma_page_size", NULL},
    {"pg_size_pretty", 1, 1, "SELECT CASE WHEN ?1 < 10240 THEN ?1 || ' bytes' ELSE (?1 + 512) / 1024 || ' kB' END", NULL},
    {"quote_ident", 1, 1,
     "SELECT CASE WHEN ?1 GLOB '[a-z_]*' AND NOT ?1 GLOB '*[^a-z0-9_]*' THEN ?1 ELSE '\"' || replace(?1, '\"', '\"\"') || '\"' END", NULL},
    {"quote_literal", 1, 1, "SELECT quote(?1)", NULL},
    {"format_type", 2, 2,
     "SELECT coalesce(formatted || CASE WHEN ?2 IS NULL OR ?2 < 4 THEN '' WHEN oid IN (1042, 1043) THEN '(' || (?2 - 4) || ')' "
     "WHEN oid = 1700 THEN '(' || ((?2 - 4) >> 16) || ',' || ((?2 - 4) & 65535) || ')' ELSE '' END, 'unknown type') FROM pg_type WHERE oid = ?1 "
     "UNION ALL SELECT CASE ?1 WHEN 0 THEN '-' ELSE 'unknown type' END LIMIT 1", NULL},
    {"pg_get_expr", 2, 3, "SELECT ?1", NULL},
    {"pg_get_indexdef", 1, 1, "SELECT definition FROM pg_index WHERE indexrelid = ?1", NULL},
    {"pg_get_indexdef", 3, 3,
     "SELECT definition FROM pg_index WHERE indexrelid = ?1 AND ?2 = 0 UNION ALL SELECT name FROM sql_key_column WHERE oid = ?1 AND place = ?2",
     NULL},
    {"pg_get_constraintdef", 1, 2, "SELECT definition FROM pg_constraint WHERE oid = ?1", NULL},
    {"pg_get_triggerdef", 1, 2, "SELECT definition FROM pg_trigger WHERE oid = ?1", NULL},
    {"pg_get_viewdef", 1, 2, "SELECT sql_behind(sql, 'AS') FROM sql_relation WHERE oid = regclass_number(?1) AND kind = 'v'", NULL},
    {"regclass_number", 1, 1,
     "SELECT CAST(?1 AS INTEGER) WHERE typeof(?1) = 'integer' OR (?1 <> '' AND NOT ?1 GLOB '*[^0-9]*') UNION ALL "
     "SELECT oid FROM pg_class WHERE relname = replace(replace(replace(?1, 'public.', ''), 'pg_catalog.', ''), '\"', '') UNION ALL "
     "SELECT number FROM (SELECT row_number() OVER () AS number, value AS name FROM json_each('[\"pg_class\", \"pg_attribute\", \"pg_attrdef\", "
     "\"pg_namespace\", \"pg_type\", \"pg_constraint\", \"pg_index\", \"pg_database\", \"pg_trigger\", \"pg_roles\", \"pg_authid\", \"pg_am\", "
     "\"pg_collation\", \"pg_tablespace\", \"pg_proc\", \"pg_description\", \"pg_extension\", \"pg_rewrite\"]')) "
     "WHERE name = replace(?1, 'pg_catalog.', '') LIMIT 1", NULL},
    {"to_regclass", 1, 1, "SELECT regclass_number(?1)", NULL},
    {"regclass", 1, 1,
     "SELECT coalesce((SELECT quote_ident(relname) FROM pg_class WHERE oid = ?1), CASE ?1 WHEN 0 THEN '-' ELSE CAST(?1 AS TEXT) END) "
     "WHERE typeof(?1) = 'integer' UNION ALL "
     "SELECT regclass_number(?1) WHERE typeof(?1) <> 'integer' AND regclass_number(?1) IS NOT NULL", "no such table: %s"},
    {"regtype", 1, 1,
     "SELECT format_type(?1, NULL) WHERE typeof(?1) = 'integer' UNION ALL "
     "SELECT oid FROM pg_type WHERE typeof(?1) <> 'integer' AND (typname = ?1 OR formatted = ?1)", "there is no type %s here"},
    {"regnamespace", 1, 1,
     "SELECT nspname FROM pg_namespace WHERE typeof(?1) = 'integer' AND oid = ?1 UNION ALL "
     "SELECT oid FROM pg_namespace WHERE typeof(?1) <> 'integer' AND nspname = ?1", "there is no schema %s here"},
    {NULL, 0, 0, NULL, NULL},
};
