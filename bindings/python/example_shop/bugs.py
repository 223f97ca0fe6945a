"""Three bugs that such a schema may have: each a small change of it, and the tests that find it.

    (name, old text, new text, names of the tests that fail)
"""

BUGS = [
    (
        "an order may lose its state",
        "state VARCHAR(9) DEFAULT 'open' NOT NULL CONSTRAINT known_state",
        "state VARCHAR(9) DEFAULT 'open' CONSTRAINT known_state",
        {"test_an_order_has_a_state"},
    ),
    (
        "a deleted line gives back to all warehouses",
        "amount = amount + o.amount WHERE product = o.product AND warehouse = o.warehouse;",
        "amount = amount + o.amount WHERE product = o.product;",
        {"test_a_deleted_line_gives_back_to_its_warehouse_alone", "test_an_order_goes_with_its_lines_and_gives_back"},
    ),
    (
        "an order goes with its address",
        "sent_to REFERENCES address ON DELETE SET NULL",
        "sent_to REFERENCES address ON DELETE CASCADE",
        {"test_an_address_goes_and_the_order_stays"},
    ),
]
