-- The orders.
SELECT * FROM JSON_TABLE(doc, '$' COLUMNS (
    id BIGINT ERROR ON EMPTY ERROR ON ERROR, name VARCHAR PATH '$.customer.name',
    vip BOOLEAN EXISTS PATH '$ ? (@.customer.vip == true)', note VARCHAR) ERROR ON ERROR) AS orders;
-- Their lines, each with the number of its order.
SELECT * FROM JSON_TABLE(doc, '$' COLUMNS (
    id BIGINT ERROR ON EMPTY ERROR ON ERROR,
    NESTED '$.lines[*]' COLUMNS (sku VARCHAR, total NUMERIC(12,2) PATH '$.qty * $.price'))
    PLAN DEFAULT (INNER, UNION) ERROR ON ERROR) AS order_lines;
