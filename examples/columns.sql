-- On a database made by: ./fts larder create --columns title,body --min 2 --no-stopword

INSERT INTO docs (id, title, body) VALUES (10, 'Apple pie', 'Bake it with butter')
INSERT INTO docs (id, title, body) VALUES (20, 'Plum tart', 'It is the baker''s choice, with apple');
insert into Docs (ID, Title, Body) values (30, '', 'butter')

-- A search names all text columns, in the order in which they were created.
SELECT FTS_DOC_ID FROM docs WHERE MATCH (title, body) AGAINST ('apple' IN BOOLEAN MODE)
SELECT FTS_DOC_ID FROM docs WHERE MATCH (title, body) AGAINST ('BUTTER' IN BOOLEAN MODE)
SELECT FTS_DOC_ID FROM docs WHERE MATCH (title, body) AGAINST ('cherry' IN BOOLEAN MODE)
SELECT FTS_DOC_ID FROM docs WHERE MATCH (body) AGAINST ('apple' IN BOOLEAN MODE)

-- What is refused changes nothing.
INSERT INTO docs (id, title, body) VALUES (20, 'Again', 'cherry')
INSERT INTO docs (id, body) VALUES (40, 'cherry')
INSERT INTO docs (id, title, text) VALUES (40, 'Cherry', 'cherry')
INSERT INTO books (id, title, body) VALUES (40, 'Cherry', 'cherry')
INSERT INTO docs (id, title, body) VALUES (40, 'Cherry', 'cherry
SELECT * FROM docs
SELECT FTS_DOC_ID FROM docs WHERE MATCH (title, body) AGAINST ('cherry' IN BOOLEAN MODE)
