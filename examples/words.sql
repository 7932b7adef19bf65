-- On a database made by: ./fts notes create --columns body

INSERT INTO docs (id, body) VALUES (1, 'The dog''s dinner, at noon')
INSERT INTO docs (id, body) VALUES (2, 'dogs, ''dinner'' and dogs'' beds')
INSERT INTO docs (id, body) VALUES (3, 'rock ''n'' roll; rock-and-roll; rock_and_roll')

-- A word may hold apostrophes, and none at its ends.
SELECT FTS_DOC_ID FROM docs WHERE MATCH (body) AGAINST ('dog''s' IN BOOLEAN MODE)
SELECT FTS_DOC_ID FROM docs WHERE MATCH (body) AGAINST ('dogs' IN BOOLEAN MODE)
SELECT FTS_DOC_ID FROM docs WHERE MATCH (body) AGAINST ('dog' IN BOOLEAN MODE)
SELECT FTS_DOC_ID FROM docs WHERE MATCH (body) AGAINST ('DINNER' IN BOOLEAN MODE)
SELECT FTS_DOC_ID FROM docs WHERE MATCH (body) AGAINST ('roll' IN BOOLEAN MODE)
SELECT FTS_DOC_ID FROM docs WHERE MATCH (body) AGAINST ('rock_and_roll' IN BOOLEAN MODE)

-- Stopwords and words of less than three letters are not indexed.
SELECT FTS_DOC_ID FROM docs WHERE MATCH (body) AGAINST ('the' IN BOOLEAN MODE)
SELECT FTS_DOC_ID FROM docs WHERE MATCH (body) AGAINST ('at' IN BOOLEAN MODE)

-- The words of a query are those of its text.
SELECT FTS_DOC_ID FROM docs WHERE MATCH (body) AGAINST ('dogs''' IN BOOLEAN MODE)
SELECT FTS_DOC_ID FROM docs WHERE MATCH (body) AGAINST ('+dogs +dinner' IN BOOLEAN MODE)
