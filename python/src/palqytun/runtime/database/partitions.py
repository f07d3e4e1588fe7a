"""Hash partitions of PostgreSQL: each table of an invocation in parts, of which a statement on one invocation, or on one key, touches one.

A database gets them by `palqytun migrate --partitions`, when it is empty or with all that it holds. The statements are the same with them and without, since
a row's part follows from a column that they name anyway. PostgreSQL wants this column in each unique index. Idempotency keys have to be unique over all
parts, so these are a table of their own, `idempotency`, which triggers keep.
"""

from __future__ import annotations

from collections.abc import Iterator
from typing import NamedTuple

from . import Database, Unsuitable
from .schema import SIGN

PLACES = {
    **{"invocations": "id", "journal": "invocation", "inbox": "invocation", "timers": "invocation", "waiters": "invocation"},
    **{"attempts": "invocation", "transactions": "invocation", "attributes": "invocation", "progress": "invocation"},
    **{"state": "service, key", "promises": "service, key", "promise_waiters": "service, key", "locks": "service, key"},
}
"""Of each table that has parts: the columns from which a row's part follows."""
IDEMPOTENCY = "idempotency"
MOST = 1024
_LOCKS = (450, 130)  # that making the parts takes at most: some, and so many for each part, as a part has its table and its indexes
_AT_WORK = (12, 60)  # so many transactions at once are to have locks for a claim, which takes so many for each part

_IDEM = "service, handler, key, idem"
_FOR_ALL_PARTS = "invocations_idem"  # what it makes unique is unique by `idempotency`
_COUNT = f"SELECT COUNT(*) FROM pg_inherits WHERE inhparent=to_regclass('{SIGN}')"
_IN_THEIR_SCHEMA = f"SELECT set_config('search_path', relnamespace::regnamespace::text, true) FROM pg_class WHERE oid=to_regclass('{SIGN}')"
_HAVE_NONE = "SELECT relname::text FROM pg_class WHERE oid=to_regclass(relname) AND relname=ANY(?::text[]) AND relkind='r' ORDER BY relname"
_CAPACITY = (
    "SELECT current_setting('max_locks_per_transaction')::bigint,"
    " current_setting('max_connections')::bigint + current_setting('max_prepared_transactions')::bigint"
)
_INDEXES = (
    "SELECT index.relname::text, pg_get_indexdef(indexrelid), COALESCE(contype::text, ''), indisunique,"
    " (SELECT string_agg(pg_get_indexdef(indexrelid, at, true), ', ' ORDER BY at) FROM generate_series(1, indnkeyatts) AS at)"
    " FROM pg_index JOIN pg_class AS index ON index.oid=indexrelid LEFT JOIN pg_constraint ON conindid=indexrelid AND contype IN ('p', 'u')"
    " WHERE indrelid=to_regclass(?) ORDER BY index.relname"
)
_OPTIONS = "SELECT COALESCE(array_to_string(reloptions, ', '), '') FROM pg_class WHERE oid=to_regclass(?)"
_GRANTS = (
    "SELECT privilege_type, CASE grantee WHEN 0 THEN 'PUBLIC' ELSE grantee::regrole::text END FROM pg_class, aclexplode(relacl)"
    " WHERE oid=to_regclass(?) AND grantee<>relowner"
)
_VIEWS = "SELECT viewname::text, definition FROM pg_views WHERE schemaname=current_schema() AND starts_with(viewname::text, 'palqytun_')"
_SEQUENCE = "SELECT pg_get_serial_sequence(?, 'seq') FROM pg_attribute WHERE attrelid=to_regclass(?) AND attname='seq'"
_BODY = f"""
BEGIN
    IF TG_OP='TRUNCATE' THEN
        TRUNCATE {IDEMPOTENCY};
        RETURN NULL;
    END IF;
    IF TG_OP='INSERT' THEN -- before the row is made: a key that another has, or an id, makes no row, as ON CONFLICT DO NOTHING
        IF EXISTS (SELECT FROM invocations WHERE id=NEW.id) THEN
            RETURN NULL;
        END IF;
        INSERT INTO {IDEMPOTENCY}({_IDEM}, invocation) VALUES (NEW.service, NEW.handler, NEW.key, NEW.idem, NEW.id) ON CONFLICT DO NOTHING;
        RETURN CASE WHEN FOUND THEN NEW END;
    END IF;
    IF OLD.idem IS NOT NULL THEN
        DELETE FROM {IDEMPOTENCY} WHERE service=OLD.service AND handler=OLD.handler AND key=OLD.key AND idem=OLD.idem AND invocation=OLD.id;
    END IF;
    IF TG_OP='UPDATE' AND NEW.idem IS NOT NULL THEN
        INSERT INTO {IDEMPOTENCY}({_IDEM}, invocation) VALUES (NEW.service, NEW.handler, NEW.key, NEW.idem, NEW.id);
    END IF;
    RETURN NULL;
END"""
_TRIGGERS = (
    "BEFORE INSERT ON invocations FOR EACH ROW WHEN (NEW.idem IS NOT NULL)",
    "AFTER UPDATE OF idem ON invocations FOR EACH ROW WHEN (OLD.idem IS DISTINCT FROM NEW.idem)",
    "AFTER DELETE ON invocations FOR EACH ROW WHEN (OLD.idem IS NOT NULL)",
    "AFTER TRUNCATE ON invocations",
)


async def count(db: Database) -> int:
    """How many parts each table has; 0 if they have none."""
    [(found,)] = await db.rows(_COUNT)
    return int(found)


def locks(parts: int) -> int:
    """How many locks the transaction takes, at most, that makes so many parts."""
    return _LOCKS[0] + _LOCKS[1] * parts


def needed(parts: int) -> int:
    """How many locks the server is to have: for making the parts, and for three workers."""
    return max(locks(parts), _AT_WORK[0] * _AT_WORK[1] * parts)


async def lacks(db: Database, parts: int) -> bool:
    """Whether the database is to get so many parts, and hasn't got them. `Unsuitable` if it can't: it has another number of them, a worker is alive,
    or the server has too few locks."""
    has = await count(db)
    if has == parts:
        return False
    if has:
        raise Unsuitable(f"the database has {has} partitions, and their number doesn't change: begin a new database with {parts}")
    [(each, sessions)] = await db.rows(_CAPACITY)
    if needed(parts) > each * sessions:
        text = f"{parts} partitions take {needed(parts):,} locks at once, and the server has {each * sessions:,}"
        raise Unsuitable(f"{text}: set max_locks_per_transaction={-(-needed(parts) // sessions)} or more, or take fewer partitions")
    [(is_there,)] = await db.rows("SELECT to_regclass(?) IS NOT NULL", (SIGN,))
    if is_there and (alive := (await db.rows(f"SELECT COUNT(*) FROM workers WHERE lease>={db.clock}"))[0][0]):
        raise Unsuitable(f"{alive} {'workers are' if alive > 1 else 'worker is'} alive, and all is copied into the partitions: stop all workers first")
    return True


async def divide(db: Database, parts: int) -> int:
    """Gives so many parts to each table that has none, with all that it holds; returns how many rows were copied. Nobody else may use the database
    meanwhile."""
    db.put(_IN_THEIR_SCHEMA)
    tables, views = [await _table(db, name) for name, in await db.rows(_HAVE_NONE, (list(PLACES),))], await db.rows(_VIEWS)
    if not tables:
        return 0
    db.put(f"LOCK TABLE {', '.join(it.name for it in tables)} IN ACCESS EXCLUSIVE MODE")
    copied = sum([await _copied(db, it, parts) for it in tables])
    for name, definition in views:
        db.put(f"CREATE OR REPLACE VIEW {name} AS {definition}")
    for it in tables:
        _finish(db, it)
    if any(it.name == "invocations" for it in tables):
        await _keep_idempotency(db, parts)
    for it in tables if copied else ():
        db.put(f"ANALYZE {it.name}")
    return copied


class Index(NamedTuple):
    """An index of a table without parts."""

    name: str
    definition: str
    constraint: str  # p is a primary key, u a unique constraint; or the empty text
    is_unique: bool
    columns: str

    def made(self, table: str) -> str:
        """The same index of the table with parts; a unique one also has what names the part."""
        lacking = [it for it in PLACES[table].split(", ") if it not in self.columns.split(", ")]
        if self.constraint:
            kind = "PRIMARY KEY" if self.constraint == "p" else "UNIQUE"
            return f"ALTER TABLE {table} ADD CONSTRAINT {self.name} {kind}({', '.join([self.columns, *lacking])})"
        if self.name == _FOR_ALL_PARTS:
            return self.definition.replace("CREATE UNIQUE INDEX", "CREATE INDEX", 1)
        return self.definition


class Table(NamedTuple):
    """A table without parts. `options` are those of its storage, and `grants` are pairs of a right and who has it."""

    name: str
    indexes: list[Index]
    options: str
    grants: list[tuple[str, str]]
    sequences: list[str]

    @property
    def before(self) -> str:
        """Its name while its rows are copied."""
        return f"{self.name}_whole"


async def _table(db: Database, name: str) -> Table:
    indexes = [Index(*row) for row in await db.rows(_INDEXES, (name,))]
    [(options,)] = await db.rows(_OPTIONS, (name,))
    sequences = [it for it, in await db.rows(_SEQUENCE, (name, name))]
    return Table(name, indexes, options, await db.rows(_GRANTS, (name,)), sequences)


async def _copied(db: Database, it: Table, parts: int) -> int:
    """Makes the table with its parts beside that without, and copies the rows; returns how many."""
    db.put(f"ALTER TABLE {it.name} RENAME TO {it.before}")
    for sql in _made(it.name, f"LIKE {it.before} INCLUDING DEFAULTS", PLACES[it.name], parts, it.options):
        db.put(sql)
    for sequence in it.sequences:
        db.put(f"ALTER SEQUENCE {sequence} OWNED BY {it.name}.seq")
    return await db.change(f"INSERT INTO {it.name} SELECT * FROM {it.before}")


def _finish(db: Database, it: Table) -> None:
    """The table without parts goes, and its indexes and rights are those of the one with parts."""
    db.put(f"DROP TABLE {it.before}")
    for index in it.indexes:
        db.put(index.made(it.name))
    for privilege, user in it.grants:
        db.put(f"GRANT {privilege} ON {it.name} TO {user}")


def _made(table: str, columns: str, place: str, parts: int, options: str = "") -> Iterator[str]:
    """A table, and its parts."""
    yield f"CREATE TABLE {table}({columns}) PARTITION BY HASH ({place})"
    for at in range(parts):
        storage = f" WITH ({options})" if options else ""
        yield f"CREATE TABLE {table}_{at} PARTITION OF {table} FOR VALUES WITH (MODULUS {parts}, REMAINDER {at}){storage}"


async def _keep_idempotency(db: Database, parts: int) -> None:
    """The table of idempotency keys, and what keeps it."""
    columns = f"{' TEXT NOT NULL, '.join(_IDEM.split(', '))} TEXT NOT NULL, invocation TEXT NOT NULL, PRIMARY KEY({_IDEM})"
    for sql in _made(IDEMPOTENCY, columns, _IDEM, parts):
        db.put(sql)
    db.put(f"INSERT INTO {IDEMPOTENCY}({_IDEM}, invocation) SELECT {_IDEM}, id FROM invocations WHERE idem IS NOT NULL")
    for privilege, user in await db.rows(_GRANTS, ("invocations",)):
        db.put(f"GRANT {privilege} ON {IDEMPOTENCY} TO {user}")
    db.put(f"CREATE OR REPLACE FUNCTION palqytun_{IDEMPOTENCY}() RETURNS trigger LANGUAGE plpgsql AS $${_BODY}$$")
    for number, when in enumerate(_TRIGGERS):
        db.put(f"CREATE TRIGGER {IDEMPOTENCY}_{number} {when} EXECUTE FUNCTION palqytun_{IDEMPOTENCY}()")
