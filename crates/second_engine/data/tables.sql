CREATE TABLE item(id INTEGER PRIMARY KEY, name TEXT NOT NULL, kind TEXT, qty INT, code BLOB) STRICT;
CREATE TABLE sale(item INT, day INT NOT NULL, n INT) STRICT;
CREATE TABLE kind(name TEXT NOT NULL PRIMARY KEY, above TEXT, note TEXT UNIQUE) STRICT;
CREATE TABLE shelf(room TEXT, place INT, item INT, width INT, PRIMARY KEY (room, place)) STRICT, WITHOUT ROWID;
CREATE TABLE gone(item INT, name TEXT) STRICT;
CREATE INDEX item_kind ON item(kind, name DESC);
CREATE INDEX item_qty ON item(qty DESC);
CREATE UNIQUE INDEX item_code ON item(code);
CREATE INDEX sale_item ON sale(item, n);
CREATE INDEX sale_day ON sale(day DESC, n DESC, item);
CREATE INDEX shelf_item ON shelf(item);
CREATE INDEX gone_name ON gone(name);

INSERT INTO item VALUES
    (-3, 'awl', 'tool', 2, x'00'), (1, 'bolt', 'metal', 40, x'0aff'), (2, 'nut', 'metal', NULL, NULL),
    (3, 'cap', NULL, 7, x''), (4, 'nut', 'metal', 7, x'0a'), (5, 'Nut', 'food', 7, NULL),
    (6, 'rope', 'line', 0, x'ff00'), (7, 'twine', 'line', -5, NULL), (8, 'it''s', NULL, NULL, x'27'),
    (9, '', 'none', 12, x'414243'), (10, 'saw', 'tool', 2, x'414244'), (12, 'plane', 'tool', NULL, NULL), (13, 'plank', 'wood', 3, NULL),
    (20, 'äpfel', 'food', 55, x'c3a4'), (21, 'apple', 'food', 55, x'61'), (22, 'Apple', 'food', 54, x'41'),
    (100, 'a,b', 'none', 1, NULL), (101, 'bolt', 'metal', 41, x'0b'), (300, 'bolt', 'tool', 40, x'0c'),
    (4000000000, 'far', NULL, 9223372036854775807, NULL), (9223372036854775807, 'last', 'none', -9223372036854775808, x'7f');
INSERT INTO sale VALUES
    (1, 1, 5), (3, 1, 2), (3, 1, 9), (9, 2, 1), (1, 2, 5), (1, 2, 5), (NULL, 2, 3), (NULL, 3, NULL), (4, 3, NULL), (77, 3, 8),
    (77, 3, 8), (20, 4, 10), (21, 4, 10), (22, 4, 11), (6, 5, 0), (6, 5, -4), (6, 6, 4), (10, 6, 1), (10, 7, 1), (10, 7, 2),
    (-3, 7, 30), (100, 8, 6), (101, 8, 7), (300, 8, 7), (5, 9, 12), (4, 9, 13), (2, 9, 2), (2, 10, 2), (1, 10, 1), (3, 12, NULL),
    (4000000000, 12, 1), (12, 12, 3), (1, 12, 100), (9, 13, 1), (9, 13, 2), (NULL, 13, 1), (8, 14, 4),
    (13, 14, 4), (13, 15, 40), (7, 15, -5), (300, 15, 7);
INSERT INTO kind VALUES
    ('tool', 'thing', 'what one works with'), ('metal', 'thing', NULL), ('food', NULL, 'what one eats'), ('line', 'thing', ''),
    ('thing', NULL, NULL), ('wood', 'thing', 'what one works on'), ('long', 'wood', 'ten bytes.');
UPDATE kind SET note = note || note || note || note || note || note || note || note WHERE name = 'long';
UPDATE kind SET note = note || note || note || note || note || note || note || note WHERE name = 'long';
INSERT INTO shelf VALUES
    ('hall', 1, 1, 30), ('hall', 2, 1, 30), ('hall', 4, 3, NULL), ('cellar', 1, 6, 100), ('cellar', 2, 6, 90), ('cellar', 3, NULL, 90),
    ('cellar', 10, 77, 15), ('', 0, 9, 1), ('attic', -1, 20, 30), ('attic', 7, 21, 30), ('attic', 8, 22, 40), ('yard', 1, NULL, NULL),
    ('yard', 2, 4000000000, 1000), ('yard', 3, 10, 10);
