SELECT JSON_EXISTS(doc, 'lax $ ? (@.v[*] > 5)');
SELECT JSON_EXISTS(doc, 'strict $ ? (@.v[*] > 5)');
SELECT JSON_EXISTS(doc, 'lax $ ? (exists(@.v[*].abs()))');
SELECT JSON_EXISTS(doc, 'strict $ ? (exists(@.v[*].abs()))');
SELECT JSON_EXISTS(doc, 'lax $ ? ((@.none == @.v.abs()) is unknown)');
SELECT JSON_EXISTS(doc, 'lax $.v ? (@ starts with "a")');
