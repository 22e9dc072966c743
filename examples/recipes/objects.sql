SELECT JSON_OBJECT('id' VALUE JSON_VALUE(doc, '$.id' RETURNING BIGINT ERROR ON EMPTY ERROR ON ERROR),
    'name' VALUE JSON_VALUE(doc, '$.customer.name'), 'note' VALUE JSON_VALUE(doc, '$.note'),
    'price' VALUE JSON_VALUE(doc, '$.lines[0].price' RETURNING NUMERIC(12,2)));
