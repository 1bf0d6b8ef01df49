"""What a member says to a group's store in PostgreSQL, and what the answers mean."""

# lists:begin postgres (written by tools/lists from lists/postgres.toml)
STATEMENTS: dict[str, str] = {
    "session": (
        "SELECT set_config('synchronous_commit', CASE WHEN "
        "current_setting('synchronous_commit') = 'remote_apply' THEN 'remote_apply' ELSE 'on' "
        "END, false), set_config('default_transaction_isolation', 'read committed', false), "
        "set_config('statement_timeout', '10s', false), "
        "set_config('idle_in_transaction_session_timeout', '10s', false), "
        "set_config('client_min_messages', 'warning', false), pg_backend_pid() || ' ' || "
        "(SELECT a.backend_start FROM pg_stat_activity AS a WHERE a.pid = pg_backend_pid())"
    ),
    "terminate": (
        "SELECT pg_terminate_backend(a.pid) FROM pg_stat_activity AS a WHERE a.pid || ' ' || "
        "a.backend_start = ANY (string_to_array($1, ','))"
    ),
    "role": (
        "SELECT CASE WHEN pg_is_in_recovery() THEN 0 ELSE 1 END::bigint, (SELECT "
        "c.system_identifier::text FROM pg_control_system() AS c), "
        "pg_postmaster_start_time()::text, CASE WHEN pg_is_in_recovery() THEN '' ELSE "
        "substr(pg_walfile_name(pg_current_wal_insert_lsn()), 1, 8) END"
    ),
    "state": (
        "SELECT s.id::text, s.deaf, s.at, s.wait, s.lasts, s.margin, CASE WHEN s.due THEN 1 "
        "ELSE 0 END::bigint, CASE WHEN s.format <> 1 THEN 'the group''s store has format ' || "
        "s.format || ' and not 1: another version of svid made it' WHEN f.faults IS NOT NULL "
        "THEN 'the server of the group''s store may lose claims: ' || f.faults WHEN m.replicas "
        "> 1 AND NOT s.sees THEN 'the owner of the group''s store may not see which standbys "
        "have a claim: GRANT pg_read_all_stats TO \"' || replace(s.owner::text, '\"', '\"\"') || "
        "'\"' WHEN m.margin > s.margin THEN 'the group''s store keeps a claim for ' || s.margin "
        "|| ' s past its token''s expiry, and this member needs ' || m.margin || ' s: give all "
        "members the same clock tolerance' WHEN m.margin - m.back > s.margin - s.back THEN "
        "'the group''s store bears a step back of its clock by ' || s.back || ' s of a margin "
        "of ' || s.margin || ' s, which leaves less than the ' || m.margin - m.back || ' s "
        "that this member needs: give all members the same times' END FROM (SELECT $1::uuid AS "
        "known, $2::bytea[] AS keys, $3::bytea[] AS owners, $4::bigint[] AS ends, $5::integer "
        "AS replicas, $6::bigint AS margin, $7::bigint AS back) AS m CROSS JOIN LATERAL "
        "{S}.state(m.known, m.keys, m.owners, m.ends, m.replicas <= 1) AS s CROSS JOIN LATERAL "
        "(SELECT current_setting('synchronous_standby_names') AS names) AS n CROSS JOIN "
        "LATERAL (SELECT CASE WHEN btrim(n.names) = '' THEN 0 WHEN strpos(n.names, '(') = 0 OR "
        "strpos(split_part(n.names, '(', 1), '\"') > 0 THEN 1 ELSE greatest(1, "
        "coalesce(substring(rtrim(split_part(n.names, '(', 1)) FROM '[0-9]{1,9}$')::integer, "
        "1)) END AS waits) AS w CROSS JOIN LATERAL (SELECT string_agg(u.fault, ', ') AS faults "
        "FROM unnest(ARRAY[ CASE WHEN current_setting('fsync') <> 'on' THEN 'fsync is ' || "
        "current_setting('fsync') || ' and must be on' END, CASE WHEN "
        "current_setting('full_page_writes') <> 'on' THEN 'full_page_writes is ' || "
        "current_setting('full_page_writes') || ' and must be on' END, CASE WHEN "
        "current_setting('synchronous_commit') NOT IN ('on', 'remote_apply') THEN "
        "'synchronous_commit is ' || current_setting('synchronous_commit') || ' and must be "
        "on' END, CASE WHEN m.replicas > 1 AND w.waits < m.replicas - 1 THEN "
        "'synchronous_standby_names is \"' || n.names || '\" and must wait for ' || m.replicas - "
        "1 || ': such as ''FIRST ' || m.replicas - 1 || ' (*)''' END ]) AS u (fault)) AS f"
    ),
    "agree": "SELECT {S}.agree($1::bigint)::text",
    "expire": "SELECT {S}.expire()",
    "put one": "SELECT {S}.put($1::bytea, $2::bytea, $3::bigint)",
    "put": "SELECT {S}.put($1::bytea[], $2::bytea[], $3::bigint[])",
    "kept": "SELECT CASE WHEN {S}.kept($1::integer) THEN 1 ELSE 0 END::bigint",
    "withdraw": "SELECT {S}.withdraw($1::bytea, $2::bigint)",
    "withdrawals": (
        "SELECT w.this::text || '/' || w.last, coalesce(w.these, ''::bytea) FROM (SELECT "
        "$1::text AS t) AS p CROSS JOIN LATERAL (SELECT CASE WHEN p.t ~ "
        "'^[0-9a-f]{8}(-[0-9a-f]{4}){3}-[0-9a-f]{12}/([0-9]{1,18}|[1-8][0-9]{18})$' THEN p.t "
        "END AS t) AS q CROSS JOIN LATERAL {S}.withdrawals(split_part(q.t, '/', 1)::uuid, "
        "coalesce(split_part(q.t, '/', 2)::bigint, 0)) AS w"
    ),
    "lacking": (
        "SELECT string_agg(format('GRANT %s TO %I', l.it, current_user), '; ' ORDER BY l.it) "
        "FROM (SELECT n.oid, n.nspname FROM pg_namespace AS n WHERE n.nspname = $1) AS s CROSS "
        "JOIN LATERAL (SELECT format('USAGE ON SCHEMA %I', s.nspname) AS it WHERE NOT "
        "has_schema_privilege(s.oid, 'USAGE') UNION ALL SELECT format('EXECUTE ON FUNCTION "
        "%s', p.oid::regprocedure) FROM pg_proc AS p WHERE p.pronamespace = s.oid AND "
        "p.proname IN ('put', 'kept', 'withdraw', 'withdrawals', 'state', 'expire', 'agree') "
        "AND NOT has_function_privilege(p.oid, 'EXECUTE')) AS l"
    ),
}
FAULTS: dict[str, str] = {
    "missing": (
        "there is no store in the database: an administrator makes it by what svidd schema prints"
    ),
    "standby": "the server is a standby",
    "rights": (
        "this user may not use the store of the group: an administrator gives it the rights that "
        "svidd schema --role prints"
    ),
    "held": "somebody else claims the token at the moment, and has not committed that",
    "run": "the server was restarted, and members check whether it lacks claims",
    "back": "the store's clock went back",
    "unlooked": "nobody has looked at the store for a while, or its clock went ahead",
    "gone": "the entry was just removed",
    "late": "the token expires too late by the store's clock, and nothing was stored",
    "epoch": "the store's epoch ended meanwhile",
    "alone": "not as many servers have the claim as are to have it",
    "stale": "another server has become the primary",
    "answer": "the server's answer is none of this store",
    "silent": "the server did not answer in time",
    "closed": "the store is closed",
}
CODES: dict[str, str] = {
    "42P01": "missing",
    "3F000": "missing",
    "42883": "missing",
    "25006": "standby",
    "55000": "standby",
    "42501": "rights",
    "55P03": "held",
}
OF_STATUS: dict[int, str] = {1: "run", 4: "run", 2: "back", 3: "unlooked"}
OF_CELL: dict[int, str] = {0: "gone", 2: "late"}
STORED = 3
QUARANTINE = 4
MOST_CALLS = 8
MOST_LEFT = 100
PIECES = 10_000
MOST_EXPIRY = 4_611_686_018_427_387_904
RECENT_MARKS = 8
MOST_MARKS = 64
DIAL_WAIT = 2_000
STATE_EVERY = 1_000
STATE_WAIT = 1_500
HEAR_WAIT = 1_000
MOST_UNLOOKED = 7_000
LOOK_EVERY = 500
LOOK_WAIT = 2_000
SOON = 1_000
MOST_AGE = 2_900
STEP_BACK = 60_000
LEAST_MARGIN = 60_000
# lists:end
