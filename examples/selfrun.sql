-- The statements that the guide runs over generated lines: `sqljson selfrun 2000 selfrun.sql`.
SELECT JSON_VALUE(doc, 'lax $.n' RETURNING INTEGER ERROR ON ERROR);
SELECT x, o FROM JSON_TABLE(doc, 'lax $.v[*] ? (@ > 2)'
  COLUMNS (o FOR ORDINALITY, x INTEGER PATH 'lax $'));
