SELECT JSON_VALUE(doc, '$.a.string()'), JSON_VALUE(doc, '$.a.integer().type()');
SELECT JSON_VALUE(doc, '$.a.text()');
