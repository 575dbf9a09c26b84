-- Who may sign in to a house, and who has. SQLite's file of it is called accounts, and lies beside the house.
-- Apache prepares its statements once, so the tables of a file that it has open must stay as they are.
PRAGMA journal_mode = WAL;

CREATE TABLE IF NOT EXISTS account (
    login TEXT PRIMARY KEY,
    member INTEGER NOT NULL UNIQUE,     -- its number in the house; whoever runs the house has 0
    hash TEXT NOT NULL,                 -- of its password, by bcrypt
    is_locked INTEGER NOT NULL DEFAULT 0
) STRICT;

-- The key is what a browser keeps in its cookie, or a program's token. A token has the expiry 0, and no end.
CREATE TABLE IF NOT EXISTS session (
    key TEXT PRIMARY KEY,
    login TEXT NOT NULL,
    mark TEXT NOT NULL,                 -- by which Apache knows that the password was right at the sign-in
    expiry INTEGER NOT NULL             -- in microseconds since 1970
) STRICT;

-- Apache writes a sign-out as a session of nobody.
CREATE TRIGGER IF NOT EXISTS signed_out AFTER UPDATE ON session WHEN NEW.login NOT IN (SELECT login FROM account) BEGIN
    DELETE FROM session WHERE key = NEW.key;
END;

CREATE TRIGGER IF NOT EXISTS expired AFTER INSERT ON session BEGIN
    DELETE FROM session WHERE expiry BETWEEN 1 AND 1000000 * unixepoch();
END;

-- Members whose registration account.sh has begun, and how many members the house had before it.
CREATE TABLE IF NOT EXISTS begun (
    login TEXT PRIMARY KEY,
    name TEXT NOT NULL,
    members INTEGER NOT NULL
) STRICT;
