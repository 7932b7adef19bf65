-- On a database made by: ./fts plot create --columns body --optimize-words 2

INSERT INTO docs (id, body) VALUES (1, 'kiwi mango')
INSERT INTO docs (id, body) VALUES (2, 'apple kiwi')
SYNC

-- A row dies. Its words are in the tables still, and no search finds it.
DELETE FROM docs WHERE id = 1
SELECT FTS_DOC_ID FROM docs WHERE MATCH (body) AGAINST ('kiwi' IN BOOLEAN MODE)
SELECT * FROM INFORMATION_SCHEMA.INNODB_FT_DELETED

-- OPTIMIZE takes out what has died before a batch, so there is nothing to do before this SYNC.
OPTIMIZE TABLE docs
SYNC

-- A pass begins, with the id that it takes out, and works on two words.
OPTIMIZE TABLE docs
SELECT * FROM INFORMATION_SCHEMA.INNODB_FT_BEING_DELETED
SELECT * FROM INFORMATION_SCHEMA.INNODB_FT_INDEX_TABLE
SELECT * FROM INFORMATION_SCHEMA.INNODB_FT_CONFIG

-- The next OPTIMIZE goes on behind `kiwi`, and finishes the pass: `mango` is gone, and so is the id.
OPTIMIZE TABLE docs
SELECT * FROM INFORMATION_SCHEMA.INNODB_FT_INDEX_TABLE
SELECT * FROM INFORMATION_SCHEMA.INNODB_FT_DELETED
OPTIMIZE TABLE docs
