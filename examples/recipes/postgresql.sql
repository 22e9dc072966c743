CREATE TABLE orders (id bigint NOT NULL, name text, vip boolean, note text);
CREATE TABLE order_lines (id bigint NOT NULL, sku text, total numeric(12,2));
CREATE TABLE errors (line bigint, statement integer, state char(5));
\copy orders from 'loaded/1.tsv' with (encoding 'UTF8')
\copy order_lines from 'loaded/2.tsv' with (encoding 'UTF8')
\copy errors from 'loaded/errors.tsv'
