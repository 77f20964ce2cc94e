-- The book of an election: everything that the program knows.
--
-- Rows are only added. What changes gets a new row with the act that changed it, and the last one holds. Each act is one transaction;
-- its own row comes last, with a digest over all rows that it wrote. Times are UTC, as 2026-12-04T17:00:00Z.
-- Nothing within a statement changes, no comment either: a book that has another text is damaged.

CREATE TABLE act (
  act INTEGER PRIMARY KEY,              -- its number, from 1
  time TEXT NOT NULL,
  name TEXT NOT NULL,
  machine TEXT NOT NULL,                -- the computer that did it
  detail TEXT NOT NULL,                 -- JSON
  salt BLOB NOT NULL,                   -- 16 random bytes
  digest TEXT NOT NULL                  -- SHA-256 over the digest before and the rows of the act
) STRICT;

CREATE TABLE elector (
  elector INTEGER PRIMARY KEY,
  act INTEGER NOT NULL REFERENCES act DEFERRABLE INITIALLY DEFERRED,
  name TEXT NOT NULL UNIQUE             -- the name on the roll
) STRICT;

CREATE TABLE elector_state (
  act INTEGER NOT NULL REFERENCES act DEFERRABLE INITIALLY DEFERRED,
  elector INTEGER NOT NULL REFERENCES elector,
  position INTEGER,                     -- the place in the list of members, from 1; NULL if they are not on it
  who TEXT NOT NULL,                    -- the real name
  mail TEXT NOT NULL,                   -- JSON: the list of addresses
  key TEXT NOT NULL,                    -- the fingerprint of the key that signs, or empty
  code TEXT NOT NULL,                   -- of a secret vote, or empty
  alias TEXT NOT NULL,
  mark TEXT NOT NULL,                   -- the own mark, which the call makes; empty without one
  PRIMARY KEY (elector, act)
) STRICT;

CREATE TABLE sealed (
  act INTEGER NOT NULL REFERENCES act DEFERRABLE INITIALLY DEFERRED,
  name TEXT NOT NULL,                   -- poll, poll with names, keyring, letter.txt, or a file of the folders call and letters
  data BLOB NOT NULL,
  PRIMARY KEY (name, act)
) STRICT;

CREATE TABLE source (
  source INTEGER PRIMARY KEY,
  act INTEGER NOT NULL REFERENCES act DEFERRABLE INITIALLY DEFERRED,
  name TEXT NOT NULL,                   -- what the file was called
  data BLOB NOT NULL                    -- what came, byte for byte
) STRICT;

-- `known` depends on the real names, too, and on how the letter came: parted off from another, or by which link and asking.
CREATE TABLE letter (
  letter INTEGER PRIMARY KEY,           -- its number, from 1
  act INTEGER NOT NULL REFERENCES act DEFERRABLE INITIALLY DEFERRED,
  source INTEGER NOT NULL REFERENCES source,
  identity TEXT NOT NULL,               -- what a copy of it has in common with it
  known TEXT NOT NULL                   -- JSON: what its bytes, the keyring and the sealed poll alone decide
) STRICT;

CREATE TABLE letter_state (
  act INTEGER NOT NULL REFERENCES act DEFERRABLE INITIALLY DEFERRED,
  letter INTEGER NOT NULL REFERENCES letter,
  state TEXT NOT NULL,                  -- entered, set aside, put back, taken back, struck
  PRIMARY KEY (letter, act)
) STRICT;

-- A line is late as `History.is_late` says: also if it was entered after a reopen, and had not come before the first close.
CREATE TABLE envelope (
  envelope INTEGER PRIMARY KEY,         -- its number, from 1, which it keeps
  act INTEGER NOT NULL REFERENCES act DEFERRABLE INITIALLY DEFERRED,
  elector INTEGER REFERENCES elector,   -- the elector whose name the line begins with, if there is one
  line BLOB NOT NULL,                   -- without a line feed
  source INTEGER REFERENCES source,     -- NULL for a line of a desk
  letter INTEGER REFERENCES letter,
  place TEXT NOT NULL,                  -- where in the source, as :3
  time TEXT NOT NULL,                   -- the time of the ballot
  late INTEGER NOT NULL,                -- 1 if it is late
  answer TEXT                           -- why debvote refuses the line by the sealed poll; NULL of a ballot
) STRICT;

-- By a `strike`, or by the `undo` of the act that entered it.
CREATE TABLE struck (
  envelope INTEGER PRIMARY KEY REFERENCES envelope,
  act INTEGER NOT NULL REFERENCES act DEFERRABLE INITIALLY DEFERRED
) STRICT;

CREATE TABLE sent (
  sent INTEGER PRIMARY KEY,
  act INTEGER NOT NULL REFERENCES act DEFERRABLE INITIALLY DEFERRED,
  elector INTEGER REFERENCES elector,
  kind TEXT NOT NULL,                   -- call, receipts, reminders, closed, void, result
  state TEXT NOT NULL,                  -- written, taken, refused
  detail TEXT NOT NULL                  -- JSON: Message-ID, address, act that it belongs to, what it was about, what the server said
) STRICT;

-- The electors and the letters as they are now. Of a letter that `waits` no act has decided: whether it waits, goes in or is a copy,
-- `judging.py` says.
CREATE VIEW elector_now AS
  SELECT elector, name, position, who, mail, key, code, alias, mark FROM elector JOIN elector_state USING (elector)
  WHERE elector_state.act = (SELECT max(act) FROM elector_state AS later WHERE later.elector = elector.elector);

CREATE VIEW letter_now AS
  SELECT letter.*, coalesce((
    SELECT state FROM letter_state WHERE letter_state.letter = letter.letter ORDER BY act DESC LIMIT 1
  ), 'waits') AS state FROM letter;

-- The envelopes, each with the act that struck it; and those in time and not struck, from which debvote counts: also lines that it
-- refuses.
CREATE VIEW entered AS
  SELECT envelope.*, struck.act AS struck FROM envelope LEFT JOIN struck USING (envelope);

CREATE VIEW ballot AS SELECT * FROM entered WHERE late = 0 AND struck IS NULL;

CREATE INDEX elector_by_act ON elector (act);
CREATE INDEX elector_state_by_act ON elector_state (act);
CREATE INDEX envelope_by_act ON envelope (act);
CREATE INDEX envelope_by_elector ON envelope (elector);
CREATE INDEX envelope_by_letter ON envelope (letter) WHERE letter IS NOT NULL;
CREATE INDEX source_by_act ON source (act);
CREATE INDEX letter_by_act ON letter (act);
CREATE INDEX letter_state_by_act ON letter_state (act);
CREATE INDEX sent_by_act ON sent (act);
CREATE INDEX struck_by_act ON struck (act);
