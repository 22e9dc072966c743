-- typed values of orders, with what stands in their place
SELECT JSON_VALUE(doc, '$.order' RETURNING BIGINT ERROR ON EMPTY ERROR ON ERROR),
       JSON_VALUE(doc, '$.customer.name'),
       JSON_VALUE(doc, '$.total' RETURNING NUMERIC(10,2) DEFAULT 0 ON EMPTY),
       JSON_VALUE(doc, '$.paid' RETURNING BOOLEAN),
       'order';
SELECT JSON_VALUE(doc, '$.x + $.y'), JSON_VALUE(doc, '$.z'), JSON_VALUE(doc, '$.w'), JSON_VALUE(doc, '$.m');
