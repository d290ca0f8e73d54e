CREATE TABLE version (cust INTEGER NOT NULL, kind INTEGER NOT NULL CHECK (kind IN (11, 15, 21, 23, 24)), id TEXT NOT NULL, blpu INTEGER NOT NULL, street INTEGER NOT NULL, lang INTEGER NOT NULL, live INTEGER NOT NULL, born INTEGER NOT NULL, gone INTEGER NOT NULL, body TEXT NOT NULL, PRIMARY KEY (cust, kind, id, born)) STRICT;
CREATE INDEX by_blpu ON version (cust, kind, blpu, gone);
CREATE INDEX by_street ON version (cust, kind, street, gone);
CREATE TABLE received (cust INTEGER NOT NULL, volume INTEGER NOT NULL, bytes BLOB NOT NULL, state INTEGER NOT NULL, place INTEGER NOT NULL, rule INTEGER NOT NULL, PRIMARY KEY (cust, volume)) STRICT;
CREATE TABLE meta (id INTEGER NOT NULL PRIMARY KEY, number INTEGER NOT NULL, register TEXT NOT NULL) STRICT;
CREATE TABLE version2 (cust INTEGER NOT NULL, kind INTEGER NOT NULL CHECK (kind IN (11, 15, 21, 23, 24, 92)), id TEXT NOT NULL, blpu INTEGER NOT NULL, street INTEGER NOT NULL, lang INTEGER NOT NULL, live INTEGER NOT NULL, born INTEGER NOT NULL, gone INTEGER NOT NULL, body TEXT NOT NULL, hop INTEGER NOT NULL, PRIMARY KEY (cust, kind, id, born)) STRICT;
CREATE INDEX by_blpu2 ON version2 (cust, kind, blpu, gone);
CREATE INDEX by_street2 ON version2 (cust, kind, street, gone);
