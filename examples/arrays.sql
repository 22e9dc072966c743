SELECT JSON_EXISTS(doc, 'lax $.a.b');
SELECT JSON_EXISTS(doc, 'lax $.a');
SELECT JSON_EXISTS(doc, 'lax $');
