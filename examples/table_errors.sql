-- One order has a price that is no number: its rows end in an error row, and the run goes on.
SELECT line, sku, price FROM JSON_TABLE(doc, 'strict $.lines[*]' COLUMNS (
    line FOR ORDINALITY,
    sku VARCHAR,
    price NUMERIC(8,2) ERROR ON ERROR)
  ERROR ON ERROR);
