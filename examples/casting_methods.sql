-- The methods that cast, inside larger paths.
SELECT JSON_VALUE(doc, '$.a.number() + 1' ERROR ON ERROR);
SELECT JSON_VALUE(doc, '$.b.integer()' ERROR ON ERROR);
SELECT JSON_VALUE(doc, '$.b.string().type()' ERROR ON ERROR);
SELECT JSON_VALUE(doc, '$.c.string()' ERROR ON ERROR);
SELECT JSON_VALUE(doc, '$.w.string()' ERROR ON ERROR);
SELECT JSON_VALUE(doc, '$.d.string()' ERROR ON ERROR);
SELECT JSON_VALUE(doc, '$.e.number()' ERROR ON ERROR);
SELECT JSON_VALUE(doc, '$.b.boolean()' ERROR ON ERROR);
SELECT JSON_VALUE(doc, '$.w.number()' ERROR ON ERROR);
SELECT JSON_VALUE(doc, '$.h.integer()' ERROR ON ERROR);
SELECT JSON_VALUE(doc, '$.h.bigint()' ERROR ON ERROR);
SELECT JSON_VALUE(doc, 'strict $.f.number()' ERROR ON ERROR);
SELECT JSON_QUERY(doc, 'lax $.f.string()' WITH WRAPPER ERROR ON ERROR);

-- In lax mode a fault behind the first item is never met, and in strict mode it is.
SELECT JSON_EXISTS(doc, 'lax $.*.number()' ERROR ON ERROR);
SELECT JSON_EXISTS(doc, 'strict $.*.number()' ERROR ON ERROR);

-- A refused cast is an Unknown predicate, and keeps no item.
SELECT JSON_QUERY(doc, '$.* ? (@.number() > 2)' WITH WRAPPER ERROR ON ERROR);
SELECT JSON_QUERY(doc, '$.* ? ((@.boolean() == true) is unknown)' WITH WRAPPER ERROR ON ERROR);

-- Methods behind one another; what is a member of that name is none.
SELECT JSON_VALUE(doc, '$.b.string().number().floor()' ERROR ON ERROR), JSON_VALUE(doc, '$.c.string().boolean().type()' ERROR ON ERROR);
SELECT JSON_EXISTS(doc, '$.number'), JSON_EXISTS(doc, '$.string.number()'), JSON_EXISTS(doc, '$.keyvalue().name.string() ? (@ == "h")');
