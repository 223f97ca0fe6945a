SELECT 'é日' FORM t;
