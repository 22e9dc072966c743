SELECT JSON_EXISTS(doc, 'lax $.a');
