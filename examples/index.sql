-- On a database made by: ./fts shelf create --columns body --batch-docs 1

INSERT INTO docs (id, body) VALUES (1, 'apple pie')
INSERT INTO docs (id, body) VALUES (2, 'Pear and apple: an apple pie')

-- New words are in the cache, each with all its documents as one node.
SELECT * FROM INFORMATION_SCHEMA.INNODB_FT_INDEX_CACHE
SELECT * FROM INFORMATION_SCHEMA.INNODB_FT_INDEX_TABLE

-- SYNC puts them into the tables, here a document at a time, so that a word of both has two nodes.
SYNC
SELECT * FROM INFORMATION_SCHEMA.INNODB_FT_INDEX_TABLE
SELECT * FROM INFORMATION_SCHEMA.INNODB_FT_INDEX_CACHE

-- A search looks into both.
INSERT INTO docs (id, body) VALUES (3, 'an apple a day')
SELECT FTS_DOC_ID FROM docs WHERE MATCH (body) AGAINST ('+apple -pie' IN BOOLEAN MODE)
SELECT FTS_DOC_ID FROM docs WHERE MATCH (body) AGAINST ('"apple pie"' IN BOOLEAN MODE)

-- How far the index is flushed, and the settings that it was made with.
SELECT * FROM information_schema.innodb_ft_config

-- Nothing is left to flush behind the second of these.
SYNC
SYNC
SELECT * FROM INFORMATION_SCHEMA.INNODB_FT_WORDS
