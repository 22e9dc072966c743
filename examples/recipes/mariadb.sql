CREATE TABLE orders (id bigint NOT NULL, name text, vip boolean, note text) ENGINE = InnoDB CHARACTER SET utf8mb4;
CREATE TABLE order_lines (id bigint NOT NULL, sku text, total decimal(12,2)) ENGINE = InnoDB CHARACTER SET utf8mb4;
CREATE TABLE errors (line bigint, statement integer, state char(5)) ENGINE = InnoDB;
-- LOAD DATA LOCAL makes another value of what a column refuses. So it fills columns of texts, and INSERT the tables:
-- in a strict mode INSERT refuses.
CREATE TEMPORARY TABLE orders_read (id longtext, name longtext, vip longtext, note longtext) CHARACTER SET utf8mb4;
CREATE TEMPORARY TABLE order_lines_read (id longtext, sku longtext, total longtext) CHARACTER SET utf8mb4;
SET sql_mode = 'TRADITIONAL';
START TRANSACTION;
LOAD DATA LOCAL INFILE 'loaded/1.tsv' INTO TABLE orders_read CHARACTER SET utf8mb4;
LOAD DATA LOCAL INFILE 'loaded/2.tsv' INTO TABLE order_lines_read CHARACTER SET utf8mb4;
-- TRUE and FALSE are words, and a boolean of MariaDB is a number.
INSERT INTO orders SELECT id, name, vip = 'TRUE', note FROM orders_read;
INSERT INTO order_lines SELECT id, sku, total FROM order_lines_read;
LOAD DATA LOCAL INFILE 'loaded/errors.tsv' INTO TABLE errors;
COMMIT;
