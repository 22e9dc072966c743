-- What each method that casts gives of one item, and the state in which it refuses it.
SELECT JSON_QUERY(doc, 'strict $.number()' ERROR ON ERROR);
SELECT JSON_VALUE(doc, 'strict $.decimal()' RETURNING NUMERIC ERROR ON ERROR);
SELECT JSON_QUERY(doc, 'strict $.integer()' ERROR ON ERROR);
SELECT JSON_QUERY(doc, 'strict $.bigint()' ERROR ON ERROR);
SELECT JSON_QUERY(doc, 'strict $.boolean()' ERROR ON ERROR);
SELECT JSON_QUERY(doc, 'strict $.string()' ERROR ON ERROR);
