-- On a database made by: ./fts shelf create --columns title,body --batch-docs 1

INSERT INTO docs (id, title, body) VALUES (1, 'Apple pie', 'Take four apples')
INSERT INTO docs (id, title, body) VALUES (2, 'Pear tart', 'Take two pears')

-- An UPDATE keeps the columns that it does not set, and gives its row a new document id.
UPDATE docs SET body = 'Take four pears' WHERE id = 1
SELECT FTS_DOC_ID FROM docs WHERE MATCH (title, body) AGAINST ('apple' IN BOOLEAN MODE)
SELECT FTS_DOC_ID FROM docs WHERE MATCH (title, body) AGAINST ('pears' IN BOOLEAN MODE)
SELECT FTS_DOC_ID FROM docs WHERE MATCH (title, body) AGAINST ('apples' IN BOOLEAN MODE)

-- The old document is still in the cache, and in the view of the deleted ones.
SELECT * FROM INFORMATION_SCHEMA.INNODB_FT_DELETED

-- A batch leaves out who is dead at its step. The id is in DELETED, since its own commit was flushed before the UPDATE.
SYNC
SELECT * FROM INFORMATION_SCHEMA.INNODB_FT_DELETED
SELECT * FROM INFORMATION_SCHEMA.INNODB_FT_INDEX_TABLE

-- Whoever dies behind it stays in the tables and is listed as deleted; no search finds it.
DELETE FROM docs WHERE id = 2
SYNC
SELECT * FROM INFORMATION_SCHEMA.INNODB_FT_DELETED
SELECT FTS_DOC_ID FROM docs WHERE MATCH (title, body) AGAINST ('take' IN BOOLEAN MODE)

-- A key that no row has is no fault, and uses no document id.
DELETE FROM docs WHERE id = 9
UPDATE docs SET title = 'Plums' WHERE id = 9
INSERT INTO docs (id, title, body) VALUES (2, 'Plum tart', 'Take ten plums')
SELECT FTS_DOC_ID FROM docs WHERE MATCH (title, body) AGAINST ('plum' IN BOOLEAN MODE)

-- A document id can be given: above all that were used, by at most 65,535.
INSERT INTO docs (id, FTS_DOC_ID, title, body) VALUES (3, 100, 'Fig', 'One')
INSERT INTO docs (id, FTS_DOC_ID, title, body) VALUES (4, 100, 'Fig', 'Two')
INSERT INTO docs (id, FTS_DOC_ID, title, body) VALUES (4, 65636, 'Fig', 'Two')
INSERT INTO docs (id, title, body) VALUES (3, 'Fig', 'Three')
INSERT INTO docs (id, title, body) VALUES (4, 'Fig', 'Two')
SELECT FTS_DOC_ID FROM docs WHERE MATCH (title, body) AGAINST ('fig' IN BOOLEAN MODE)

-- What does not fit.
UPDATE docs SET id = '5' WHERE id = 3
UPDATE docs SET title = 'a', TITLE = 'b' WHERE id = 3
UPDATE docs SET author = 'a' WHERE id = 3
DELETE FROM books WHERE id = 3
DELETE FROM docs WHERE id =
