-- A view stands for its query.
CREATE TABLE orders (id INTEGER PRIMARY KEY, customer VARCHAR(40) NOT NULL);
CREATE TABLE payment (id INTEGER PRIMARY KEY, orders INTEGER NOT NULL REFERENCES orders, amount DECIMAL(10, 2) NOT NULL);
CREATE VIEW unpaid AS SELECT id, customer FROM orders WHERE NOT EXISTS (SELECT * FROM payment WHERE payment.orders = orders.id);

SELECT customer, COUNT(*) FROM unpaid GROUP BY customer HAVING COUNT(*) > 1;

SELECT u.customer, COUNT(u.id)
FROM (SELECT o.id, o.customer FROM orders o WHERE NOT EXISTS (SELECT * FROM payment p WHERE p.orders = o.id)) u
GROUP BY u.customer
HAVING 1 < COUNT(u.customer);
