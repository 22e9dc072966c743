SELECT JSON_EXISTS(doc, '$ ? (@ like_regex "a")');
