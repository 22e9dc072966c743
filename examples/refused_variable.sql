-- a variable that is not passed
SELECT JSON_EXISTS(doc, 'lax $.a ? (@ == $least)');
