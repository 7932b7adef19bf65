-- On a database made by: ./fts shelf create --columns title,body

INSERT INTO docs (id, title, body) VALUES (1, 'x', 'test, phrase')
INSERT INTO docs (id, title, body) VALUES (2, 'x', 'test the phrase')
INSERT INTO docs (id, title, body) VALUES (3, 'a test', 'phrase b')

-- The words of a phrase stand one behind another in one column; a stopword takes its place.
SELECT FTS_DOC_ID FROM docs WHERE MATCH (title, body) AGAINST ('"test phrase"' IN BOOLEAN MODE)
SELECT FTS_DOC_ID FROM docs WHERE MATCH (title, body) AGAINST ('"test the phrase"' IN BOOLEAN MODE)
SELECT FTS_DOC_ID FROM docs WHERE MATCH (title, body) AGAINST ('"the of"' IN BOOLEAN MODE)

-- Of a distance the words stand near each other in one column, and each stands for itself.
INSERT INTO docs (id, title, body) VALUES (4, '', 'apple the pie')
INSERT INTO docs (id, title, body) VALUES (5, '', 'apple of the pie')
INSERT INTO docs (id, title, body) VALUES (6, '', 'apple apple')
SELECT FTS_DOC_ID FROM docs WHERE MATCH (title, body) AGAINST ('"apple pie" @2' IN BOOLEAN MODE)
SELECT FTS_DOC_ID FROM docs WHERE MATCH (title, body) AGAINST ('"apple pie" @3' IN BOOLEAN MODE)
SELECT FTS_DOC_ID FROM docs WHERE MATCH (title, body) AGAINST ('"apple pie" @0' IN BOOLEAN MODE)
SELECT FTS_DOC_ID FROM docs WHERE MATCH (title, body) AGAINST ('"apple apple" @0' IN BOOLEAN MODE)
