-- Whether each entry has a member: of a path that is written out, and of the column's own name.
SELECT * FROM JSON_TABLE(doc, 'lax $.g[*]'
  COLUMNS (o FOR ORDINALITY, h BOOLEAN EXISTS PATH 'lax $.a', a BOOLEAN EXISTS));

-- The error of a path raises its state, or gives what ON ERROR says, whatever the table's ON ERROR is.
SELECT * FROM JSON_TABLE(doc, 'lax $.g[*]'
  COLUMNS (o FOR ORDINALITY, h BOOLEAN EXISTS PATH 'strict $.a' ERROR ON ERROR));
SELECT * FROM JSON_TABLE(doc, 'lax $.g[*]' COLUMNS (o FOR ORDINALITY,
    none BOOLEAN EXISTS PATH 'strict $.a',
    f BOOLEAN EXISTS PATH 'strict $.a' FALSE ON ERROR,
    t BOOLEAN EXISTS PATH 'strict $.a' TRUE ON ERROR,
    u BOOLEAN EXISTS PATH 'strict $.a' UNKNOWN ON ERROR) ERROR ON ERROR);

-- In lax mode the first item decides, and a fault behind it is never met; in strict mode it is.
SELECT * FROM JSON_TABLE(doc, 'lax $' COLUMNS (
    first BOOLEAN EXISTS PATH 'lax $.v[*].abs()' ERROR ON ERROR));
SELECT * FROM JSON_TABLE(doc, 'lax $' COLUMNS (
    every BOOLEAN EXISTS PATH 'strict $.v[*].abs()' ERROR ON ERROR));

-- Where a nested path has no item, its columns are NULL. EXISTS is no reserved word.
SELECT exists, big, JSON_OBJECT('big' : big) FROM JSON_TABLE(doc, 'lax $.g[*]' PASSING 5 AS least COLUMNS (
    exists BOOLEAN EXISTS PATH 'lax $.e',
    NESTED 'lax $.e[*]' COLUMNS (big BOOLEAN EXISTS PATH '$ ? (@ > $least)')));

SELECT JSON_ARRAYAGG(a), JSON_OBJECTAGG(k : a) FROM JSON_TABLE(doc, '$.g[*]'
  COLUMNS (k VARCHAR DEFAULT 'none' ON EMPTY, a BOOLEAN EXISTS));
