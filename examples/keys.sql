SELECT JSON_EXISTS(doc, 'lax $.id');
SELECT JSON_EXISTS(doc, 'lax $._private.lax');
