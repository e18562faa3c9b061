@SESSION SECADMIN
-- A table of loans: who has a book, and which.
CREATE TABLE LOANS (READER VARCHAR(20), TITLE VARCHAR(60));
-- Three loans; a quote inside a text is written twice.
INSERT INTO LOANS VALUES ('SECADMIN', 'Ulysses'), ('ANN', 'Emma'), ('BOB', 'Gulliver''s Travels');
-- A reader may see and write the loans under the reader's own name.
CREATE PERMISSION OWN_LOANS ON LOANS FOR ROWS WHERE READER = SESSION_USER ENFORCED FOR ALL ACCESS ENABLE;
-- From here on the permission counts. Without it nobody would see a row.
ALTER TABLE LOANS ACTIVATE ROW ACCESS CONTROL;
-- Of the three rows one is left.
SELECT * FROM LOANS;
