package postgres

import (
	"strconv"
	"strings"
	"time"

	"svid.example/go/v3/claims"
)

const (
	looks  = 10    // seconds without a look at the store (State), after which nobody is answered
	pieces = 10000 // entries that one call removes
	slack  = 60    // seconds that an entry has left whose absence is a loss: none of these is about to be removed
)

// quarantine is how long nobody is answered, at a new store and at a new run of the server. Members look each second, so each one has
// time to see that the store lacks what the member knows.
var quarantine = 3 * time.Second

// Schema is what makes the store of a group, and gives its members their rights, as SQL. role may be "".
//
// Where the schema is there already without a store in it, the store is made there.
func Schema(name string, terms claims.Terms, role string) string {
	text := schema
	if role != "" {
		text += grants
	}
	text = strings.NewReplacer("{{HEAD}}", head, "{{NONE}}", none).Replace(text)
	return strings.NewReplacer(
		"{{CLOCK}}", "floor(date_part('epoch', clock_timestamp()))::bigint",
		"{{LINE}}", "substr(pg_walfile_name(pg_current_wal_insert_lsn()), 1, 8)",
		"{{S}}", quoted(name), "{{ROLE}}", quoted(role),
		"{{LASTS}}", seconds(terms.Lasts), "{{MARGIN}}", seconds(terms.Margin), "{{BACK}}", seconds(terms.Back),
		"{{LOOKS}}", strconv.Itoa(looks), "{{PIECES}}", strconv.Itoa(pieces), "{{SLACK}}", strconv.Itoa(slack),
		"{{MOST}}", strconv.FormatUint(most, 10), "{{WITHDRAWALS}}", strconv.Itoa(claims.MostWithdrawals),
		"{{QUARANTINE}}", strconv.FormatInt(quarantine.Milliseconds(), 10)+" milliseconds",
	).Replace(text)
}

// most is the longest time of terms, in seconds: sums of times stay far from any limit.
const most = 1 << 40

func seconds(n uint64) string {
	if n > most {
		n = most
	}
	return strconv.FormatUint(n, 10)
}

// quoted is a name as SQL has it.
func quoted(name string) string { return `"` + strings.ReplaceAll(name, `"`, `""`) + `"` }

// head is what an answer begins with: whether it counts (0), the time, deaf, and the epoch. It is read once all is inserted.
const head = `(SELECT CASE
      WHEN e.started <> pg_postmaster_start_time() OR e.claims <> '{{S}}.claim'::regclass THEN '\x01'::bytea -- Nobody has met this run of the server, or this table.
      WHEN n.at + e.back < e.latest THEN '\x02'::bytea -- The clock went back.
      WHEN n.at > e.latest + {{LOOKS}} THEN '\x03'::bytea -- Nobody looks, or the clock went far ahead.
      WHEN clock_timestamp() < e.ready THEN '\x04'::bytea -- Members may see yet that something was lost.
      ELSE '\x00'::bytea
    END || int8send(n.at) || int8send(e.deaf) || uuid_send(e.id)
    FROM {{S}}.epoch AS e, (SELECT {{CLOCK}} AS at) AS n)`

// none is what put says of a claim that has no entry.
const none = `decode(rpad(CASE WHEN u.x > {{CLOCK}} + e.lasts THEN '02' ELSE '00' END, 66, '0'), 'hex')`

// The functions below are all that a member may call. They are in Go's text, so that a test can change one.
const schema = `-- The claims of a group of svid, for PostgreSQL 15 or newer. svidd schema prints this with a group's name and terms.
CREATE SCHEMA IF NOT EXISTS {{S}};

-- One row a claimed token. The first one stays.
CREATE TABLE {{S}}.claim (
  key bytea PRIMARY KEY CHECK (octet_length(key) = 32),
  owner bytea NOT NULL CHECK (octet_length(owner) = 32), -- 32 zeros: withdrawn
  expires bigint NOT NULL -- times are seconds since 1970, by this server's clock
);
CREATE INDEX claim_expires ON {{S}}.claim (expires);

-- The withdrawals, in the order in which members hear of them.
CREATE TABLE {{S}}.withdrawal (
  position bigint PRIMARY KEY,
  key bytea NOT NULL CHECK (octet_length(key) = 32),
  expires bigint NOT NULL
);
CREATE INDEX withdrawal_key ON {{S}}.withdrawal (key);
CREATE INDEX withdrawal_expires ON {{S}}.withdrawal (expires);

-- The position of the last withdrawal. Who withdraws holds this row until that is committed, so positions become visible in order.
CREATE TABLE {{S}}.told (
  one boolean PRIMARY KEY DEFAULT true CHECK (one),
  last bigint NOT NULL DEFAULT 0
);
INSERT INTO {{S}}.told DEFAULT VALUES;

-- The epoch: one history of this store, in which nothing was lost.
CREATE TABLE {{S}}.epoch (
  one boolean PRIMARY KEY DEFAULT true CHECK (one),
  format integer NOT NULL DEFAULT 1,
  id uuid NOT NULL DEFAULT gen_random_uuid(),
  before uuid, -- the epoch before this one
  began bigint NOT NULL DEFAULT {{CLOCK}},
  deaf bigint NOT NULL DEFAULT 0, -- of tokens that expire by then nobody knows whether an earlier epoch had a claim
  lasts bigint NOT NULL CHECK (lasts BETWEEN 0 AND {{MOST}}), -- the longest time from a claim to the expiry of its token
  margin bigint NOT NULL CHECK (margin BETWEEN 0 AND {{MOST}}), -- how long a claim stays after that
  back bigint NOT NULL CHECK (back BETWEEN 0 AND {{MOST}}), -- how far the clock may step back
  latest bigint NOT NULL DEFAULT {{CLOCK}}, -- the greatest time at which a member looked: nothing was removed at a later one
  ready timestamptz NOT NULL DEFAULT clock_timestamp() + interval '{{QUARANTINE}}', -- nobody is answered before; 1970 once that was
  timeline text NOT NULL DEFAULT {{LINE}}, -- the server's when the epoch began
  system bigint NOT NULL DEFAULT (pg_control_system()).system_identifier,
  started timestamptz NOT NULL DEFAULT pg_postmaster_start_time(), -- with the line above: the run of the server that is known
  claims oid NOT NULL DEFAULT '{{S}}.claim'::regclass -- the table itself: one that a dump makes again is another one
) WITH (fillfactor = 10);
INSERT INTO {{S}}.epoch (lasts, margin, back) VALUES ({{LASTS}}, {{MARGIN}}, {{BACK}});

-- The epochs that ended.
CREATE TABLE {{S}}.past (
  number bigint GENERATED ALWAYS AS IDENTITY,
  id uuid PRIMARY KEY
);

-- Ends an epoch, if it is still the one of this store. A member that knows of another epoch than this store had has that one ended too.
CREATE FUNCTION {{S}}.next(this uuid, known uuid) RETURNS void
LANGUAGE plpgsql SECURITY DEFINER SET search_path = pg_catalog, pg_temp AS $$
DECLARE
  at bigint;
BEGIN
  PERFORM FROM {{S}}.epoch AS e WHERE e.id = this FOR UPDATE;
  IF NOT FOUND THEN
    RETURN;
  END IF;
  at := {{CLOCK}};
  UPDATE {{S}}.epoch AS e SET id = gen_random_uuid(), before = this, began = at, latest = at, timeline = {{LINE}},
    deaf = greatest(e.deaf, greatest(greatest(at, ceil(date_part('epoch', e.ready))::bigint) + e.back, e.latest + {{LOOKS}}) + e.lasts);
  INSERT INTO {{S}}.past (id) SELECT p FROM unnest(ARRAY[this, known]) AS p WHERE p IS NOT NULL ON CONFLICT DO NOTHING;
  DELETE FROM {{S}}.past AS p WHERE p.number < (SELECT max(q.number) - 1000 FROM {{S}}.past AS q);
END $$;

-- Ends the epoch where rows go that are not over, by whose hand ever.
CREATE FUNCTION {{S}}.lost() RETURNS trigger
LANGUAGE plpgsql SECURITY DEFINER SET search_path = pg_catalog, pg_temp AS $$
BEGIN
  IF TG_OP <> 'TRUNCATE' THEN
    IF NOT EXISTS (SELECT FROM gone AS g, {{S}}.epoch AS e WHERE g.expires + e.margin >= e.latest) THEN
      RETURN NULL;
    END IF;
  END IF;
  PERFORM {{S}}.next(e.id, NULL) FROM {{S}}.epoch AS e;
  RETURN NULL;
END $$;
CREATE TRIGGER deleted AFTER DELETE ON {{S}}.claim REFERENCING OLD TABLE AS gone FOR EACH STATEMENT EXECUTE FUNCTION {{S}}.lost();
CREATE TRIGGER updated AFTER UPDATE ON {{S}}.claim REFERENCING OLD TABLE AS gone FOR EACH STATEMENT EXECUTE FUNCTION {{S}}.lost();
CREATE TRIGGER truncated AFTER TRUNCATE ON {{S}}.claim FOR EACH STATEMENT EXECUTE FUNCTION {{S}}.lost();
CREATE TRIGGER deleted AFTER DELETE ON {{S}}.withdrawal REFERENCING OLD TABLE AS gone FOR EACH STATEMENT EXECUTE FUNCTION {{S}}.lost();
CREATE TRIGGER updated AFTER UPDATE ON {{S}}.withdrawal REFERENCING OLD TABLE AS gone FOR EACH STATEMENT EXECUTE FUNCTION {{S}}.lost();
CREATE TRIGGER truncated AFTER TRUNCATE ON {{S}}.withdrawal FOR EACH STATEMENT EXECUTE FUNCTION {{S}}.lost();

-- The epoch and the last position can't be removed alone.
CREATE FUNCTION {{S}}.stays() RETURNS trigger
LANGUAGE plpgsql AS $$
BEGIN
  RAISE EXCEPTION 'this row says what the claims of a group mean: to begin anew, drop the schema {{S}}';
END $$;
CREATE TRIGGER stays BEFORE DELETE OR TRUNCATE ON {{S}}.epoch FOR EACH STATEMENT EXECUTE FUNCTION {{S}}.stays();
CREATE TRIGGER stays BEFORE DELETE OR TRUNCATE ON {{S}}.told FOR EACH STATEMENT EXECUTE FUNCTION {{S}}.stays();

-- Puts claims where none are, and says what is there: nothing more than a head where all are there by this call. Else each one has 33
-- bytes: 3 or 1 and the owner that is there, by this call or an earlier one, 0 where nothing is there, or 2 where the token expires too
-- late. A claim that somebody else has not committed is waited for, but not for long: the others of the call must not wait for it.
CREATE FUNCTION {{S}}.put(keys bytea[], owners bytea[], ends bigint[]) RETURNS bytea
LANGUAGE plpgsql SECURITY DEFINER SET search_path = pg_catalog, pg_temp SET lock_timeout = '100ms' AS $$
DECLARE
  stored integer;
  there bytea;
BEGIN
  -- In one order: else two calls with the same keys could wait for each other.
  INSERT INTO {{S}}.claim AS c SELECT u.k, u.o, u.x FROM unnest(keys, owners, ends) AS u(k, o, x), {{S}}.epoch AS e
    WHERE u.x <= {{CLOCK}} + e.lasts ORDER BY u.k ON CONFLICT DO NOTHING;
  GET DIAGNOSTICS stored = ROW_COUNT;
  IF stored = cardinality(keys) THEN
    RETURN {{HEAD}};
  END IF;
  SELECT string_agg(CASE WHEN c.key IS NULL THEN {{NONE}} WHEN c.xmin = pg_current_xact_id_if_assigned()::xid THEN '\x03'::bytea || substr(c.owner, 1, 32)
      ELSE '\x01'::bytea || substr(c.owner, 1, 32) END, ''::bytea ORDER BY u.i) INTO there
    FROM {{S}}.epoch AS e, unnest(keys, owners, ends) WITH ORDINALITY AS u(k, o, x, i) LEFT JOIN {{S}}.claim AS c ON c.key = u.k;
  RETURN {{HEAD}} || there;
END $$;

-- The same for one claim.
CREATE FUNCTION {{S}}.put(token bytea, own bytea, ends bigint) RETURNS bytea
LANGUAGE plpgsql SECURITY DEFINER SET search_path = pg_catalog, pg_temp SET lock_timeout = '100ms' AS $$
DECLARE
  there bytea;
BEGIN
  INSERT INTO {{S}}.claim AS c SELECT token, own, ends FROM {{S}}.epoch AS e WHERE ends <= {{CLOCK}} + e.lasts ON CONFLICT DO NOTHING;
  IF FOUND THEN
    RETURN {{HEAD}};
  END IF;
  there := (SELECT '\x01'::bytea || substr(c.owner, 1, 32) FROM {{S}}.claim AS c WHERE c.key = token);
  IF there IS NULL THEN
    there := (SELECT {{NONE}} FROM {{S}}.epoch AS e, (SELECT ends AS x) AS u);
  END IF;
  RETURN {{HEAD}} || there;
END $$;

-- Says whether so many servers have all that is committed. It waits for a tenth of a second. A commit waits for standbys too, but not
-- when somebody cancels that, or just after the setting has changed.
CREATE FUNCTION {{S}}.kept(servers integer) RETURNS boolean
LANGUAGE plpgsql SECURITY DEFINER SET search_path = pg_catalog, pg_temp AS $$
DECLARE
  upto pg_lsn := pg_current_wal_flush_lsn();
BEGIN
  FOR i IN 1..100 LOOP
    IF (SELECT count(*) FROM pg_stat_get_wal_senders() AS w WHERE w.sync_state IN ('sync', 'quorum') AND w.flush_lsn >= upto) >= servers - 1 THEN
      RETURN true;
    END IF;
    PERFORM pg_sleep(0.001);
  END LOOP;
  RETURN false;
END $$;

-- Withdraws a token: a claim of nobody, where none is there, and a row for those who ask for withdrawals. It answers as put does.
CREATE FUNCTION {{S}}.withdraw(token bytea, ends bigint) RETURNS bytea
LANGUAGE plpgsql SECURITY DEFINER SET search_path = pg_catalog, pg_temp AS $$
DECLARE
  place bigint;
BEGIN
  IF ends <= (SELECT {{CLOCK}} + e.lasts FROM {{S}}.epoch AS e)
      AND NOT EXISTS (SELECT FROM {{S}}.withdrawal AS w WHERE w.key = token AND w.expires >= ends) THEN
    UPDATE {{S}}.told AS t SET last = t.last + 1 RETURNING t.last INTO place;
    INSERT INTO {{S}}.withdrawal VALUES (place, token, ends);
  END IF;
  RETURN {{S}}.put(token, decode(repeat('00', 32), 'hex'), ends);
END $$;

-- Says which withdrawals came after a position of an epoch: for another epoch all, {{WITHDRAWALS}} of them at most. Each one has 40 bytes.
CREATE FUNCTION {{S}}.withdrawals(known uuid, after bigint, OUT this uuid, OUT last bigint, OUT these bytea)
LANGUAGE plpgsql SECURITY DEFINER SET search_path = pg_catalog, pg_temp AS $$
BEGIN
  SELECT e.id, CASE WHEN e.id = known AND after <= t.last THEN after ELSE 0 END INTO this, last FROM {{S}}.epoch AS e, {{S}}.told AS t;
  SELECT coalesce(max(w.position), last), string_agg(w.key || int8send(w.expires), ''::bytea ORDER BY w.position) INTO last, these
    FROM (SELECT * FROM {{S}}.withdrawal AS v WHERE v.position > last ORDER BY v.position LIMIT {{WITHDRAWALS}}) AS w;
END $$;

-- Looks at the store, for a member that knows of an epoch (NULL: of none) and of claims that are there, and ends the epoch where a loss
-- shows. alone: no other server is sure to have each claim. due: it is for this member to remove what is over.
CREATE FUNCTION {{S}}.state(known uuid, keys bytea[], owners bytea[], ends bigint[], alone boolean,
  OUT format integer, OUT id uuid, OUT deaf bigint, OUT at bigint, OUT wait bigint, OUT lasts bigint, OUT margin bigint, OUT back bigint, OUT due boolean,
  OUT owner name, OUT sees boolean)
LANGUAGE plpgsql SECURITY DEFINER SET search_path = pg_catalog, pg_temp AS $$
DECLARE
  e {{S}}.epoch;
  server bigint := (pg_control_system()).system_identifier;
  line text := {{LINE}};
  another boolean := false;
BEGIN
  SELECT * INTO e FROM {{S}}.epoch;
  IF e.started <> pg_postmaster_start_time() OR e.system <> server OR e.claims <> '{{S}}.claim'::regclass THEN
    -- Who meets a run of the server first lets all others wait, until each member has had time to come here.
    UPDATE {{S}}.epoch AS o SET started = pg_postmaster_start_time(), system = server, claims = '{{S}}.claim'::regclass,
      ready = clock_timestamp() + interval '{{QUARANTINE}}' WHERE o.started = e.started AND o.system = e.system AND o.claims = e.claims;
    another := FOUND AND (e.system <> server OR e.claims <> '{{S}}.claim'::regclass);
    SELECT * INTO e FROM {{S}}.epoch;
  END IF;
  at := {{CLOCK}};
  IF another -- Another server, or another table, has a copy.
      OR known <> e.id AND NOT EXISTS (SELECT FROM {{S}}.past AS p WHERE p.id = known) -- It has another history.
      OR alone AND line <> e.timeline -- A standby was promoted, and may lack claims.
      OR at + e.back < e.latest -- The clock went back too far.
      OR known = e.id AND EXISTS (SELECT FROM unnest(keys, owners, ends) AS u(k, o, x) WHERE u.x + e.margin > greatest(at, e.latest) + {{SLACK}}
        AND NOT EXISTS (SELECT FROM {{S}}.claim AS c WHERE c.key = u.k AND c.owner = u.o)) THEN -- (This epoch is deaf to those of another one.)
    PERFORM {{S}}.next(e.id, known);
    SELECT * INTO e FROM {{S}}.epoch;
    at := {{CLOCK}};
  END IF;
  due := false;
  IF at > e.latest OR e.ready > to_timestamp(0) AND clock_timestamp() >= e.ready THEN
    PERFORM FROM {{S}}.epoch AS o WHERE o.id = e.id FOR UPDATE SKIP LOCKED;
    IF FOUND THEN
      UPDATE {{S}}.epoch AS o SET latest = greatest(o.latest, at), ready = CASE WHEN clock_timestamp() < o.ready THEN o.ready ELSE to_timestamp(0) END
        WHERE o.id = e.id;
      due := FOUND AND at > e.latest;
    END IF;
  END IF;
  owner := current_user; sees := pg_has_role(current_user, 'pg_read_all_stats', 'USAGE');
  format := e.format; id := e.id; deaf := e.deaf; lasts := e.lasts; margin := e.margin; back := e.back;
  wait := greatest(0, ceil(1000 * date_part('epoch', e.ready - clock_timestamp())));
END $$;

-- Removes claims and withdrawals that are over, {{PIECES}} of each at most, and says how many those were.
CREATE FUNCTION {{S}}.expire() RETURNS bigint
LANGUAGE plpgsql SECURITY DEFINER SET search_path = pg_catalog, pg_temp AS $$
DECLARE
  over bigint := (SELECT e.latest - e.margin FROM {{S}}.epoch AS e);
  one bigint;
  two bigint;
BEGIN
  DELETE FROM {{S}}.claim AS c WHERE c.ctid = ANY (ARRAY(SELECT d.ctid FROM {{S}}.claim AS d WHERE d.expires < over ORDER BY d.expires LIMIT {{PIECES}}));
  GET DIAGNOSTICS one = ROW_COUNT;
  DELETE FROM {{S}}.withdrawal AS w WHERE w.ctid = ANY (ARRAY(SELECT d.ctid FROM {{S}}.withdrawal AS d WHERE d.expires < over ORDER BY d.expires LIMIT {{PIECES}}));
  GET DIAGNOSTICS two = ROW_COUNT;
  RETURN greatest(one, two);
END $$;

-- Lets tokens live longer that are claimed here, if a member of the group accepts such.
CREATE FUNCTION {{S}}.agree(longer bigint) RETURNS void
LANGUAGE sql SECURITY DEFINER SET search_path = pg_catalog, pg_temp AS $$
  UPDATE {{S}}.epoch AS e SET lasts = longer WHERE e.lasts < longer
$$;

REVOKE ALL ON SCHEMA {{S}} FROM PUBLIC;
REVOKE ALL ON ALL TABLES IN SCHEMA {{S}} FROM PUBLIC;
REVOKE ALL ON ALL FUNCTIONS IN SCHEMA {{S}} FROM PUBLIC;
`

const grants = `
-- A member may call these functions, and do nothing else.
GRANT USAGE ON SCHEMA {{S}} TO {{ROLE}};
GRANT EXECUTE ON FUNCTION {{S}}.put(bytea[], bytea[], bigint[]), {{S}}.put(bytea, bytea, bigint), {{S}}.kept, {{S}}.withdraw, {{S}}.withdrawals,
  {{S}}.state, {{S}}.expire, {{S}}.agree TO {{ROLE}};
`
