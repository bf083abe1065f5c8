-- The rows of a small desk that obeys every rule of good tables, written by hand.
--
-- The recipe CAKE takes FLOUR and some DOUGH, and makes DOUGH. Batch B-1, of twice the recipe's base, takes dough of lot D-0 and makes
-- lot D-1, of which batch B-2 takes some. Of lot F-1 a sublot is divided off, lot F-2 is split off, and F-3 is merged from both. Three
-- recalls are open: of F-1, from which nearly all else comes; of D-1, which F-1's recall reaches too; and of S-1, of which nothing is left.
-- An earlier recall of F-1 was lifted.
INSERT INTO meta VALUES (1, 4, 20, 300);
INSERT INTO class VALUES ('FOOD', 'What is eaten');
INSERT INTO definition VALUES
    ('DOUGH', 'FOOD', '', 'kg'),
    ('FLOUR', 'FOOD', '', 'kg'),
    ('SALT', 'FOOD', '', 'kg');
INSERT INTO recipe VALUES ('CAKE', 2, 'DOUGH', 300, 100, 900, 'A cake', 'approved');
INSERT INTO recipe_line VALUES
    ('CAKE', 2, 1, 1, 'FLOUR', 100, '', '', ''),
    ('CAKE', 2, 2, 1, 'DOUGH', 10, '', '', ''),
    ('CAKE', 2, 3, 2, 'DOUGH', 300, '', '', ''),
    ('CAKE', 2, 4, 3, NULL, 0, 'TEMP', '80 C', ''),
    ('CAKE', 2, 5, 4, NULL, 0, 'MIX', 'BLEND', 'STIR');
INSERT INTO job VALUES
    ('O-1', 'CAKE', 2, 600, '2027-03-01', 5, 'finished'),
    ('O-2', 'CAKE', 2, 300, '2027-03-01', 5, 'released'),
    ('O-3', 'CAKE', 2, 900, '2027-03-01', 5, 'open');
INSERT INTO batch VALUES
    ('B-1', 'O-1', 160, 'anna', '', 'complete', 1, 2, 1),
    ('B-2', 'O-2', 165, 'anna', '', 'running', 1, 1, 0);
INSERT INTO control_line VALUES
    ('B-1', 1, 1, 'FLOUR', 200, '', '', ''),
    ('B-1', 2, 1, 'DOUGH', 20, '', '', ''),
    ('B-1', 3, 2, 'DOUGH', 600, '', '', ''),
    ('B-1', 4, 3, NULL, 0, 'TEMP', '80 C', ''),
    ('B-1', 5, 4, NULL, 0, 'MIX', 'BLEND', 'STIR'),
    ('B-2', 1, 1, 'FLOUR', 100, '', '', ''),
    ('B-2', 2, 1, 'DOUGH', 10, '', '', ''),
    ('B-2', 3, 2, 'DOUGH', 300, '', '', ''),
    ('B-2', 4, 3, NULL, 0, 'TEMP', '80 C', ''),
    ('B-2', 5, 4, NULL, 0, 'MIX', 'BLEND', 'STIR');
INSERT INTO batch_event VALUES
    (7, 'B-1', 'start', 0, 170, 'ben', ''),
    (10, 'B-1', 'phase', 1, 200, 'ben', ''),
    (12, 'B-1', 'done', 0, 220, 'ben', ''),
    (13, 'B-1', 'close', 0, 230, 'ben', ''),
    (14, 'B-2', 'start', 0, 240, 'ben', '');
INSERT INTO lot VALUES
    ('D-0', 'DOUGH'),
    ('D-1', 'DOUGH'),
    ('F-1', 'FLOUR'),
    ('F-2', 'FLOUR'),
    ('F-3', 'FLOUR'),
    ('S-1', 'SALT');
INSERT INTO sublot VALUES
    ('D-0', 0, 'A1', 20),
    ('D-1', 0, 'A1', 580),
    ('F-1', 0, 'A1', 400),
    ('F-1', 1, 'A1', 180),
    ('F-2', 0, 'A1', 20),
    ('F-3', 0, 'A1', 200),
    ('S-1', 0, 'A1', 0);
INSERT INTO movement VALUES
    (1, 1, 1, 'F-1', 0, NULL, NULL, NULL, 1000, 110, 'ben', ''),
    (2, 1, 1, 'S-1', 0, NULL, NULL, NULL, 50, 120, 'ben', ''),
    (3, 1, 1, 'D-0', 0, NULL, NULL, NULL, 40, 130, 'ben', ''),
    (4, 1, 5, 'F-1', 0, 'F-1', 1, NULL, 300, 140, 'ben', ''),
    (5, 1, 6, 'F-1', 0, 'F-2', 0, NULL, 100, 150, 'ben', ''),
    (8, 1, 2, 'F-1', 0, NULL, NULL, 'B-1', 200, 180, 'ben', ''),
    (9, 1, 2, 'D-0', 0, NULL, NULL, 'B-1', 20, 190, 'ben', ''),
    (11, 1, 3, 'D-1', 0, NULL, NULL, 'B-1', 590, 210, 'ben', ''),
    (15, 1, 2, 'D-1', 0, NULL, NULL, 'B-2', 10, 250, 'ben', ''),
    (16, 1, 7, 'F-1', 1, 'F-3', 0, NULL, 120, 260, 'ben', ''),
    (16, 2, 7, 'F-2', 0, 'F-3', 0, NULL, 80, 260, 'ben', ''),
    (17, 1, 4, 'S-1', 0, NULL, NULL, NULL, 50, 270, 'ben', '');
INSERT INTO hold VALUES ('F-2', 'H-1', 260, 'ben', 'look');
INSERT INTO edge VALUES
    (1, 'D-0', 'B-1'),
    (1, 'D-1', 'B-2'),
    (1, 'F-1', 'B-1'),
    (2, 'B-1', 'D-1'),
    (3, 'F-1', 'F-2'),
    (3, 'F-1', 'F-3'),
    (3, 'F-2', 'F-3');
INSERT INTO receipt VALUES
    ('K-1', 17, '270
ben

scrap
S-1
0
50
'),
    ('K-2', 1, '110
ben

receive
F-1
FLOUR
1000
A1
');
INSERT INTO recall VALUES
    ('RC-1', 'F-1', 'open', 270, 'anna', 'the supplier called', NULL, NULL, NULL),
    ('RC-2', 'S-1', 'open', 280, 'anna', '', NULL, NULL, NULL),
    ('RC-3', 'F-1', 'lifted', 200, 'anna', 'a smell', 210, 'ben', 'nothing found'),
    ('RC-4', 'D-1', 'open', 280, '', '', NULL, NULL, NULL);
INSERT INTO mark VALUES
    ('RC-1', 1, 'D-1'),
    ('RC-1', 1, 'F-1'),
    ('RC-1', 1, 'F-2'),
    ('RC-1', 1, 'F-3'),
    ('RC-1', 2, 'B-1'),
    ('RC-1', 2, 'B-2'),
    ('RC-2', 1, 'S-1'),
    ('RC-4', 1, 'D-1'),
    ('RC-4', 2, 'B-2');
