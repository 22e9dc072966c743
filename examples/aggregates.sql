-- A report of each order: what was bought, how often, and all of it as JSON.
SELECT JSON_ARRAYAGG(sku), JSON_OBJECTAGG(KEY sku VALUE qty NULL ON NULL),
    JSON_ARRAYAGG(JSON_OBJECT('sku' : sku, 'total' : total ABSENT ON NULL))
  FROM JSON_TABLE(doc, 'lax $.lines[*]' COLUMNS (sku VARCHAR, qty INTEGER, total NUMERIC(10,2) PATH 'lax $.qty * $.price'));

-- The same article twice is an error.
SELECT JSON_OBJECTAGG(sku : qty WITH UNIQUE KEYS) FROM JSON_TABLE(doc, 'lax $.lines[*]' COLUMNS (sku VARCHAR, qty INTEGER));

-- A line that is not JSON has no rows, or is an error.
SELECT JSON_ARRAYAGG(sku) FROM JSON_TABLE(doc, 'lax $.lines[*]' COLUMNS (sku VARCHAR) ERROR ON ERROR);
