-- On a database made by: ./fts orchard create --columns body

-- The changes of a transaction are made together, by its COMMIT. Until then no search finds them.
BEGIN
INSERT INTO docs (id, body) VALUES (1, 'apple')
SELECT FTS_DOC_ID FROM docs WHERE MATCH (body) AGAINST ('apple' IN BOOLEAN MODE)
COMMIT
SELECT FTS_DOC_ID FROM docs WHERE MATCH (body) AGAINST ('apple' IN BOOLEAN MODE)
COMMIT

-- The number before `:` is that of a session. The two transactions meet in one key: the second COMMIT is refused as a
-- whole, and uses no document id.
1: BEGIN
2: BEGIN
1: INSERT INTO docs (id, body) VALUES (5, 'apple')
2: INSERT INTO docs (id, body) VALUES (6, 'pear')
2: INSERT INTO docs (id, body) VALUES (5, 'plum')
1: COMMIT
2: COMMIT
2: INSERT INTO docs (id, body) VALUES (7, 'apple')
1: SELECT FTS_DOC_ID FROM docs WHERE MATCH (body) AGAINST ('apple pear' IN BOOLEAN MODE)

-- A BEGIN commits what is open before it begins anew, and a ROLLBACK counts what it gives up.
DELETE FROM docs WHERE id = 9
BEGIN
INSERT INTO docs (id, body) VALUES (8, 'apple')
BEGIN
ROLLBACK
INSERT INTO docs (id, body) VALUES (8, 'pear')

-- What stands before a statement is a session's number and `:`, or nothing.
7 BEGIN
0 BEGIN
70000 BEGIN
7:
7: -- x

-- What is still open at the end is given up.
BEGIN
INSERT INTO docs (id, body) VALUES (10, 'apple')
