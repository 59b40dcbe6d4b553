-- Orders are kept in two tables, this year's and the older ones.
CREATE TABLE customer (id INTEGER PRIMARY KEY, name VARCHAR(40) NOT NULL);
CREATE TABLE orders (customer INTEGER NOT NULL REFERENCES customer, placed DATE NOT NULL);
CREATE TABLE archive (customer INTEGER NOT NULL REFERENCES customer, placed DATE NOT NULL);

SELECT c.name, o.placed FROM customer c JOIN orders o ON c.id = o.customer
UNION ALL
SELECT c.name, a.placed FROM customer c JOIN archive a ON c.id = a.customer;

SELECT name, placed FROM customer, archive WHERE id = customer
UNION ALL
SELECT name, placed FROM customer, orders WHERE id = customer;
