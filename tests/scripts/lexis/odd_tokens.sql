-- What the lexis leaves to the grammar: quotes, line feeds in texts, tokens side by side, comments.
INSERT INTO T VALUES ('''');
INSERT INTO T VALUES ('two
lines');
DELETE FROM T WHERE A = 1AND B = 2;
DELETE FROM T WHERE A =--1
 1;
delete From tAble_1 wHERE _a.b2 = 1;
