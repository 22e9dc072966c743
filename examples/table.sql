-- The lines of each order, each with its parts: orders without lines are kept, and lines without parts are not.
SELECT * FROM JSON_TABLE(doc, 'lax $' AS orders COLUMNS (
    id INTEGER,
    customer VARCHAR PATH 'lax $.customer.name',
    NESTED PATH 'lax $.lines[*]' AS lines COLUMNS (
      line FOR ORDINALITY,
      sku VARCHAR,
      total NUMERIC(10,2) PATH 'lax $.qty * $.price',
      NESTED PATH 'lax $.parts[*]' AS parts COLUMNS (part VARCHAR PATH 'lax $')))
  PLAN (orders OUTER (lines INNER parts)));

-- Each order with its lines, and then with its notes.
SELECT id, sku, note FROM JSON_TABLE(doc, 'lax $' COLUMNS (
    id INTEGER,
    NESTED 'lax $.lines[*]' COLUMNS (sku VARCHAR),
    NESTED 'lax $.notes[*]' COLUMNS (note VARCHAR PATH 'lax $')))
  AS t;
