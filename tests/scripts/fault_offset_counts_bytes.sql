-- é €
COMMIT;
@