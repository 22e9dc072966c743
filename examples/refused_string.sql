SELECT JSON_EXISTS(doc, 'lax $.a');
SELECT JSON_EXISTS(doc, 'lax $.b);
