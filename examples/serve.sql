-- On a database made by: ./fts stall create --columns body
-- By `./fts stall serve` it has one of the outputs serve.1.out, serve.2.out and serve.3.out.

-- Both sessions insert a row with the key 1: the one that comes first has it, and the other is refused. The first search
-- finds the row of session 2 where that was there before it, and the last one where session 2 was not refused.
1: SELECT FTS_DOC_ID FROM docs WHERE MATCH (body) AGAINST ('tart' IN BOOLEAN MODE)
1: INSERT INTO docs (id, body) VALUES (1, 'apple pie')
2: INSERT INTO docs (id, body) VALUES (1, 'apple tart')
2: SELECT FTS_DOC_ID FROM docs WHERE MATCH (body) AGAINST ('tart' IN BOOLEAN MODE)
