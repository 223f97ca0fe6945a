-- A shop: customers order products out of the stock of warehouses, and pay.

CREATE TABLE customer (
    id INT PRIMARY KEY,
    name VARCHAR(40) NOT NULL,
    email VARCHAR(60) NOT NULL CONSTRAINT one_email UNIQUE
);
CREATE TABLE address (
    id INT PRIMARY KEY,
    customer INT NOT NULL CONSTRAINT lives_there REFERENCES customer ON DELETE CASCADE,
    town VARCHAR(40) NOT NULL
);
CREATE TABLE category (
    name VARCHAR(20) PRIMARY KEY
);
CREATE TABLE product (
    id INT PRIMARY KEY,
    name VARCHAR(40) NOT NULL,
    category VARCHAR(20) NOT NULL CONSTRAINT in_category REFERENCES category ON UPDATE CASCADE,
    price INT NOT NULL CONSTRAINT has_price CHECK (price > 0)
);
CREATE TABLE warehouse (
    code VARCHAR(4) PRIMARY KEY
);
CREATE TABLE stock (
    product INT CONSTRAINT stock_of REFERENCES product,
    warehouse VARCHAR(4) CONSTRAINT stock_in REFERENCES warehouse,
    amount INT NOT NULL CONSTRAINT enough CHECK (amount >= 0),
    PRIMARY KEY (product, warehouse)
);
CREATE TABLE orders (
    id INT PRIMARY KEY,
    customer INT NOT NULL CONSTRAINT ordered_by REFERENCES customer ON DELETE RESTRICT,
    address INT CONSTRAINT sent_to REFERENCES address ON DELETE SET NULL,
    state VARCHAR(9) DEFAULT 'open' NOT NULL CONSTRAINT known_state CHECK (state = 'open' OR state = 'paid' OR state = 'sent'),
    first_line INT DEFAULT 1 NOT NULL
);
CREATE TABLE order_line (
    orders INT CONSTRAINT line_of REFERENCES orders ON DELETE CASCADE,
    line INT CONSTRAINT line_from_1 CHECK (line > 0),
    product INT NOT NULL,
    warehouse VARCHAR(4) NOT NULL,
    amount INT NOT NULL CONSTRAINT some_amount CHECK (amount > 0),
    price INT NOT NULL CONSTRAINT fair_price CHECK (price > 0),
    PRIMARY KEY (orders, line),
    CONSTRAINT from_stock FOREIGN KEY (product, warehouse) REFERENCES stock
);
-- An order has a line; since lines refer to orders, this waits for COMMIT.
ALTER TABLE orders ADD CONSTRAINT has_a_line FOREIGN KEY (id, first_line) REFERENCES order_line INITIALLY DEFERRED;

CREATE TABLE method (
    name VARCHAR(12) PRIMARY KEY
);
CREATE TABLE payment (
    id INT PRIMARY KEY,
    orders INT NOT NULL CONSTRAINT paid_for REFERENCES orders ON DELETE RESTRICT,
    method VARCHAR(12) NOT NULL CONSTRAINT paid_by REFERENCES method,
    cents INT NOT NULL CONSTRAINT paid_some CHECK (cents > 0)
);
CREATE TABLE refund (
    payment INT PRIMARY KEY CONSTRAINT refund_of REFERENCES payment,
    cents INT NOT NULL CONSTRAINT refunded_some CHECK (cents > 0)
);
CREATE TABLE journal (
    what VARCHAR(12) NOT NULL,
    id INT NOT NULL,
    cents INT NOT NULL
);

-- Lines take from the stock, and give back when they are deleted.
CREATE TRIGGER only_open BEFORE INSERT ON order_line REFERENCING NEW AS n FOR EACH ROW
    WHEN (EXISTS (SELECT * FROM orders AS o WHERE o.id = n.orders AND o.state <> 'open')) SIGNAL 'the order isn''t open';
CREATE TRIGGER take_stock AFTER INSERT ON order_line REFERENCING NEW AS n FOR EACH ROW
    UPDATE stock SET amount = amount - n.amount WHERE product = n.product AND warehouse = n.warehouse;
CREATE TRIGGER give_back AFTER DELETE ON order_line REFERENCING OLD AS o FOR EACH ROW
    UPDATE stock SET amount = amount + o.amount WHERE product = o.product AND warehouse = o.warehouse;
CREATE TRIGGER lines_stay BEFORE UPDATE ON order_line FOR EACH ROW
    SIGNAL 'a line is deleted and made anew';

-- An order is open, then paid, then sent.
CREATE TRIGGER paid_first BEFORE UPDATE OF state ON orders REFERENCING OLD AS o NEW AS n FOR EACH ROW
    WHEN (o.state = 'open' AND n.state = 'sent') SIGNAL 'an order is paid before it is sent';
CREATE TRIGGER sent_is_sent BEFORE UPDATE OF state ON orders REFERENCING OLD AS o NEW AS n FOR EACH ROW
    WHEN (o.state = 'sent' AND n.state <> 'sent') SIGNAL 'a sent order stays sent';
CREATE TRIGGER pays AFTER INSERT ON payment REFERENCING NEW AS n FOR EACH ROW
    BEGIN ATOMIC
        INSERT INTO journal VALUES ('payment', n.id, n.cents);
        UPDATE orders SET state = 'paid' WHERE id = n.orders AND state = 'open';
    END;
CREATE TRIGGER payments_stay BEFORE DELETE ON payment FOR EACH ROW
    SIGNAL 'payments are kept';
CREATE TRIGGER refund_fits BEFORE INSERT ON refund REFERENCING NEW AS n FOR EACH ROW
    WHEN (EXISTS (SELECT * FROM payment AS p WHERE p.id = n.payment AND p.cents < n.cents)) SIGNAL 'more than was paid';
CREATE TRIGGER refunds AFTER INSERT ON refund REFERENCING NEW AS n FOR EACH ROW
    INSERT INTO journal VALUES ('refund', n.payment, 0 - n.cents);

INSERT INTO customer VALUES (1, 'Ann', 'ann@example.org'), (2, 'Bob', 'bob@example.org');
INSERT INTO address VALUES (10, 1, 'Bath'), (20, 2, 'York');
INSERT INTO category VALUES ('books'), ('maps');
INSERT INTO product VALUES (100, 'Emma', 'books', 800), (101, 'Atlas', 'maps', 4500);
INSERT INTO warehouse VALUES ('EAST'), ('WEST');
INSERT INTO stock VALUES (100, 'EAST', 5), (100, 'WEST', 2), (101, 'EAST', 1);
INSERT INTO method VALUES ('card'), ('invoice');
INSERT INTO orders (id, customer, address) VALUES (1000, 1, 10);
INSERT INTO order_line VALUES (1000, 1, 100, 'EAST', 2, 800);
COMMIT;
