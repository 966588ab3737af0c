PRAGMA foreign_keys=OFF;
BEGIN TRANSACTION;
CREATE TABLE customer(
  id INTEGER PRIMARY KEY AUTOINCREMENT,
  name TEXT COLLATE NOCASE NOT NULL,
  city TEXT
);
INSERT INTO customer VALUES(1,'Ada','Bern');
INSERT INTO customer VALUES(2,'Grace','Oslo');
INSERT INTO customer VALUES(3,'O''Brien',NULL);
CREATE TABLE item(
  id INTEGER PRIMARY KEY,
  title TEXT UNIQUE,
  price REAL CHECK(price >= 0)
);
INSERT INTO item VALUES(1,'cup',4.5);
INSERT INTO item VALUES(2,'pot',12.0);
INSERT INTO item VALUES(3,'spoon',0.75);
CREATE TABLE sale(
  id INTEGER PRIMARY KEY,
  customer_id INT REFERENCES customer(id),
  item_id INT REFERENCES item(id),
  day TEXT,
  note
);
INSERT INTO sale VALUES(1,1,1,'2024-01-02',NULL);
INSERT INTO sale VALUES(2,1,3,'2024-01-02',X'00ff');
INSERT INTO sale VALUES(3,3,2,'2024-02-10',replace('two\nlines','\n',char(10)));
INSERT INTO sale VALUES(4,2,1,'2024-03-01',-7);
DELETE FROM sqlite_sequence;
INSERT INTO sqlite_sequence VALUES('customer',3);
CREATE INDEX sale_day ON sale(day);
CREATE VIEW regular AS SELECT name FROM customer WHERE id < 100;
CREATE TRIGGER sold AFTER INSERT ON sale BEGIN UPDATE item SET price = price; END;
COMMIT;
