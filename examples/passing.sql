SELECT JSON_QUERY(doc, '$.lines[*] ? (@.qty >= $least).sku' PASSING 2 AS least WITH WRAPPER), JSON_EXISTS(doc, '$.name ? (@ starts with $front)' PASSING 'An' AS front);
