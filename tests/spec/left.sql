-- What a store file holds, in the words of the cases. One of version 3 has no table of answers.
PRAGMA integrity_check;
PRAGMA foreign_key_check;
SELECT 'version=' || v FROM meta WHERE k = 1;
-- answers
SELECT 'lots=' || count(*) FROM lots;
SELECT 'counted nodes=' || n.v || ' handles=' || h.v FROM meta n, meta h WHERE n.k = 5 AND h.k = 6;
SELECT 'left nodes=' || (SELECT count(*) FROM nodes) || ' handles=' || (SELECT count(*) FROM handles)
  || ' records=' || (SELECT count(*) FROM kept);
SELECT 'settings ' || CASE s.v WHEN 0 THEN 'none'
  ELSE 'minor=' || m.v || ' max_readahead=' || r.v || ' flags=' || printf('0x%x', f.v) END
  FROM meta s, meta m, meta r, meta f WHERE s.k = 7 AND m.k = 8 AND r.k = 9 AND f.k = 10;
SELECT 'blocks' || coalesce((SELECT group_concat(' ' || node || ':' || block, '')
  FROM (SELECT node, block FROM blocks ORDER BY node, block)), '');
