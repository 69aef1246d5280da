-- The tables of a database, apart from their texts: their columns, references and indexes.
SELECT type, name, tbl_name FROM sqlite_master ORDER BY name;
SELECT 'table', t.name, t.strict, t.wr, c.cid, c.name, c.type, c."notnull", c.dflt_value, c.pk, c.hidden
  FROM pragma_table_list AS t, pragma_table_xinfo(t.name) AS c
  WHERE t.schema = 'main' AND t.name NOT LIKE 'sqlite_%' ORDER BY t.name, c.cid;
SELECT 'reference', m.name, f."table", f."from", f."to", f.on_update, f.on_delete, f."match"
  FROM sqlite_master AS m, pragma_foreign_key_list(m.name) AS f
  WHERE m.type = 'table' ORDER BY m.name, f."from";
SELECT 'index', m.name, i.name, i."unique", i.origin, i.partial, c.seqno, c.name, c."desc", c.coll
  FROM sqlite_master AS m, pragma_index_list(m.name) AS i, pragma_index_xinfo(i.name) AS c
  WHERE m.type = 'table' AND c.key ORDER BY m.name, i.name, c.seqno;
