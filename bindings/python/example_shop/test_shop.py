"""Tests of the shop's schema: what it takes, what it refuses, and what follows from a change.

The rows are numbered over all tables in the order of their insertion: customers 1 and 2, addresses 3 and 4, categories 5 and 6, products
7 and 8, warehouses 9 and 10, stock 11 to 13, methods 14 and 15, the order 16, its line 17. The next one is 18.
"""
import pytest
from sqlkeep.testing import assert_accepted, assert_refused, assert_touches


def amounts(db):
    return dict(((product, warehouse), amount) for product, warehouse, amount in db.execute("SELECT product, warehouse, amount FROM stock"))


def pay(db):
    db.execute("INSERT INTO payment VALUES (1, 1000, 'card', 1600)")


# ---- customers and addresses


def test_two_customers_have_two_emails(sqlkeep_db):
    assert_refused(sqlkeep_db, "INSERT INTO customer VALUES (3, 'Eve', 'ann@example.org')", by="ONE_EMAIL", row=1, table="CUSTOMER")


def test_a_customer_has_a_name(sqlkeep_db):
    assert_refused(sqlkeep_db, "INSERT INTO customer VALUES (3, NULL, 'eve@example.org')", by="CUSTOMER_C2", row=18)


def test_an_email_changes(sqlkeep_db):
    assert_touches(sqlkeep_db, "UPDATE customer SET email = 'ann@example.com' WHERE id = 1", {"CUSTOMER": {"update": 1}})


def test_an_email_of_another_is_refused(sqlkeep_db):
    assert_refused(sqlkeep_db, "UPDATE customer SET email = 'bob@example.org' WHERE id = 1", by="ONE_EMAIL")


def test_an_address_has_a_customer(sqlkeep_db):
    assert_refused(sqlkeep_db, "INSERT INTO address VALUES (30, 9, 'Hull')", by="LIVES_THERE", row=18)


def test_a_customer_without_orders_goes_with_the_addresses(sqlkeep_db):
    assert_touches(sqlkeep_db, "DELETE FROM customer WHERE id = 2", {"CUSTOMER": {"delete": 1}, "ADDRESS": {"delete": 1}})


def test_a_customer_with_orders_stays(sqlkeep_db):
    assert_refused(sqlkeep_db, "DELETE FROM customer WHERE id = 1", by="ORDERED_BY", cause="Restrict", row=16, table="ORDERS")


def test_an_address_goes_and_the_order_stays(sqlkeep_db):
    assert_touches(sqlkeep_db, "DELETE FROM address WHERE id = 10", {"ADDRESS": {"delete": 1}, "ORDERS": {"update": 1}})
    assert sqlkeep_db.execute("SELECT id, address FROM orders").fetchall() == [(1000, None)]


# ---- products and stock


def test_a_product_is_in_a_category(sqlkeep_db):
    assert_refused(sqlkeep_db, "INSERT INTO product VALUES (102, 'Globe', 'globes', 9000)", by="IN_CATEGORY", row=18)


@pytest.mark.parametrize("price", [0, -1])
def test_a_price_is_positive(sqlkeep_db, price):
    assert_refused(sqlkeep_db, "INSERT INTO product VALUES (102, 'Map', 'maps', ?)", (price,), by="HAS_PRICE", row=18)


def test_a_price_is_not_null(sqlkeep_db):
    assert_refused(sqlkeep_db, "UPDATE product SET price = NULL WHERE id = 100", by="PRODUCT_C5", row=7)


def test_a_category_is_renamed_with_its_products(sqlkeep_db):
    assert_touches(sqlkeep_db, "UPDATE category SET name = 'novels' WHERE name = 'books'", {"CATEGORY": {"update": 1}, "PRODUCT": {"update": 1}})


def test_a_category_with_products_stays(sqlkeep_db):
    assert_refused(sqlkeep_db, "DELETE FROM category WHERE name = 'maps'", by="IN_CATEGORY", row=8)


def test_stock_is_of_a_product(sqlkeep_db):
    assert_refused(sqlkeep_db, "INSERT INTO stock VALUES (999, 'EAST', 1)", by="STOCK_OF")


def test_stock_is_in_a_warehouse(sqlkeep_db):
    assert_refused(sqlkeep_db, "INSERT INTO stock VALUES (101, 'MOON', 1)", by="STOCK_IN")


def test_stock_of_a_product_in_a_warehouse_is_one_row(sqlkeep_db):
    assert_refused(sqlkeep_db, "INSERT INTO stock VALUES (101, 'EAST', 1)", by="STOCK_C5", row=13)


def test_stock_is_not_negative(sqlkeep_db):
    assert_refused(sqlkeep_db, "UPDATE stock SET amount = -1 WHERE product = 101", by="ENOUGH", row=13)


def test_a_product_in_stock_stays(sqlkeep_db):
    assert_refused(sqlkeep_db, "DELETE FROM product WHERE id = 101", by="STOCK_OF", row=13)


# ---- orders and lines


def test_the_line_took_from_the_stock(sqlkeep_db):
    assert amounts(sqlkeep_db) == {(100, "EAST"): 3, (100, "WEST"): 2, (101, "EAST"): 1}


def test_a_line_takes_from_its_warehouse(sqlkeep_db):
    assert_touches(sqlkeep_db, "INSERT INTO order_line VALUES (1000, 2, 100, 'WEST', 2, 800)", {"ORDER_LINE": {"insert": 1}, "STOCK": {"update": 1}})
    assert amounts(sqlkeep_db) == {(100, "EAST"): 3, (100, "WEST"): 0, (101, "EAST"): 1}


def test_a_line_takes_no_more_than_there_is(sqlkeep_db):
    assert_refused(sqlkeep_db, "INSERT INTO order_line VALUES (1000, 2, 100, 'WEST', 3, 800)", by="ENOUGH", row=12, trigger="TAKE_STOCK")
    assert amounts(sqlkeep_db)[100, "WEST"] == 2


def test_two_lines_take_no_more_than_there_is(sqlkeep_db):
    assert_refused(sqlkeep_db, "INSERT INTO order_line VALUES (1000, 2, 100, 'EAST', 2, 800), (1000, 3, 100, 'EAST', 2, 800)", by="ENOUGH", row=11)


def test_a_line_is_of_what_is_kept_there(sqlkeep_db):
    assert_refused(sqlkeep_db, "INSERT INTO order_line VALUES (1000, 2, 101, 'WEST', 1, 4500)", by="FROM_STOCK", row=18)


def test_a_line_is_of_some_amount(sqlkeep_db):
    assert_refused(sqlkeep_db, "INSERT INTO order_line VALUES (1000, 2, 100, 'EAST', 0, 800)", by="SOME_AMOUNT")


def test_lines_count_from_1(sqlkeep_db):
    assert_refused(sqlkeep_db, "INSERT INTO order_line VALUES (1000, 0, 100, 'EAST', 1, 800)", by="LINE_FROM_1")


def test_a_line_is_not_changed(sqlkeep_db):
    assert_refused(sqlkeep_db, "UPDATE order_line SET amount = 1", by="LINES_STAY", signal="a line is deleted and made anew")


def test_a_deleted_line_gives_back_to_its_warehouse_alone(sqlkeep_db):
    assert_touches(sqlkeep_db, "DELETE FROM order_line WHERE orders = 1000", {"ORDER_LINE": {"delete": 1}, "STOCK": {"update": 1}})
    assert amounts(sqlkeep_db) == {(100, "EAST"): 5, (100, "WEST"): 2, (101, "EAST"): 1}


def test_an_order_has_a_line(sqlkeep_db):
    assert_accepted(sqlkeep_db, "INSERT INTO orders (id, customer) VALUES (1001, 2)")
    assert sqlkeep_db.pending() == [("HAS_A_LINE", 18)]
    assert_refused(sqlkeep_db, "COMMIT", by="HAS_A_LINE", row=18, cause="CommitRefused")


def test_an_order_with_a_line_is_taken(sqlkeep_db):
    assert_accepted(sqlkeep_db, "INSERT INTO orders (id, customer) VALUES (1001, 2)")
    assert_accepted(sqlkeep_db, "INSERT INTO order_line VALUES (1001, 1, 101, 'EAST', 1, 4500)")
    assert_accepted(sqlkeep_db, "COMMIT")


def test_the_only_line_does_not_go(sqlkeep_db):
    assert_accepted(sqlkeep_db, "DELETE FROM order_line WHERE orders = 1000")
    assert_refused(sqlkeep_db, "SET CONSTRAINTS ALL IMMEDIATE", by="HAS_A_LINE", row=16)


def test_an_order_goes_with_its_lines_and_gives_back(sqlkeep_db):
    assert_touches(sqlkeep_db, "DELETE FROM orders WHERE id = 1000", {"ORDERS": {"delete": 1}, "ORDER_LINE": {"delete": 1}, "STOCK": {"update": 1}})
    assert_accepted(sqlkeep_db, "COMMIT")


def test_a_new_order_is_open(sqlkeep_db):
    assert sqlkeep_db.execute("SELECT state FROM orders WHERE id = 1000").fetchone() == ("open",)


def test_an_order_has_a_state(sqlkeep_db):
    assert_refused(sqlkeep_db, "UPDATE orders SET state = NULL", row=16, table="ORDERS")


def test_a_state_is_known(sqlkeep_db):
    assert_refused(sqlkeep_db, "UPDATE orders SET state = 'lost'", by="KNOWN_STATE", row=16)


# ---- payments and refunds


def test_a_payment_is_written_down_and_pays_the_order(sqlkeep_db):
    assert_touches(sqlkeep_db, "INSERT INTO payment VALUES (1, 1000, 'card', 1600)", {"PAYMENT": {"insert": 1}, "JOURNAL": {"insert": 1}, "ORDERS": {"update": 1}})
    assert sqlkeep_db.execute("SELECT state FROM orders").fetchone() == ("paid",)


def test_a_second_payment_changes_no_order(sqlkeep_db):
    pay(sqlkeep_db)
    assert_touches(sqlkeep_db, "INSERT INTO payment VALUES (2, 1000, 'card', 5)", {"PAYMENT": {"insert": 1}, "JOURNAL": {"insert": 1}})


def test_a_paid_order_takes_no_more_lines(sqlkeep_db):
    pay(sqlkeep_db)
    assert_refused(sqlkeep_db, "INSERT INTO order_line VALUES (1000, 2, 100, 'EAST', 1, 800)", by="ONLY_OPEN", signal="the order isn't open")


def test_an_order_is_paid_before_it_is_sent(sqlkeep_db):
    assert_refused(sqlkeep_db, "UPDATE orders SET state = 'sent'", by="PAID_FIRST", cause="Signal")
    pay(sqlkeep_db)
    assert_touches(sqlkeep_db, "UPDATE orders SET state = 'sent'", {"ORDERS": {"update": 1}})
    assert_refused(sqlkeep_db, "UPDATE orders SET state = 'open'", by="SENT_IS_SENT")


def test_payments_stay(sqlkeep_db):
    pay(sqlkeep_db)
    assert_refused(sqlkeep_db, "DELETE FROM payment", by="PAYMENTS_STAY", signal="payments are kept")


def test_a_paid_order_stays(sqlkeep_db):
    pay(sqlkeep_db)
    assert_refused(sqlkeep_db, "DELETE FROM orders", by="PAID_FOR", cause="Restrict")


def test_a_refund_is_written_down(sqlkeep_db):
    pay(sqlkeep_db)
    assert_touches(sqlkeep_db, "INSERT INTO refund VALUES (1, 1600)", {"REFUND": {"insert": 1}, "JOURNAL": {"insert": 1}})
    assert sqlkeep_db.execute("SELECT * FROM journal").fetchall() == [("payment", 1, 1600), ("refund", 1, -1600)]


def test_a_refund_is_no_more_than_the_payment(sqlkeep_db):
    pay(sqlkeep_db)
    assert_refused(sqlkeep_db, "INSERT INTO refund VALUES (1, 1601)", by="REFUND_FITS", signal="more than was paid")


def test_a_payment_is_refunded_once(sqlkeep_db):
    pay(sqlkeep_db)
    assert_accepted(sqlkeep_db, "INSERT INTO refund VALUES (1, 5)")
    assert_refused(sqlkeep_db, "INSERT INTO refund VALUES (1, 5)", by="REFUND_C1")
