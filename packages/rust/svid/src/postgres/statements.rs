//! What a member says to a group's store in PostgreSQL, and what the answers mean.

/// Why there is no answer: a name, and what a person reads.
pub type Reason = (&'static str, &'static str);

// lists:begin postgres (written by tools/lists from lists/postgres.toml)
pub const SESSION: &str = concat!(
    "SELECT set_config('synchronous_commit', CASE WHEN current_setting('synchronous_commit') = 'remote_apply' THEN 'remote_apply' ELSE ",
    "'on' END, false), set_config('default_transaction_isolation', 'read committed', false), set_config('statement_timeout', '10s', ",
    "false), set_config('idle_in_transaction_session_timeout', '10s', false), set_config('client_min_messages', 'warning', false), ",
    "pg_backend_pid() || ' ' || (SELECT a.backend_start FROM pg_stat_activity AS a WHERE a.pid = pg_backend_pid())"
);
pub const TERMINATE: &str = "SELECT pg_terminate_backend(a.pid) FROM pg_stat_activity AS a WHERE a.pid || ' ' || a.backend_start = ANY (string_to_array($1, ','))";
pub const ROLE: &str = concat!(
    "SELECT CASE WHEN pg_is_in_recovery() THEN 0 ELSE 1 END::bigint, (SELECT c.system_identifier::text FROM pg_control_system() AS c), ",
    "pg_postmaster_start_time()::text, CASE WHEN pg_is_in_recovery() THEN '' ELSE substr(pg_walfile_name(pg_current_wal_insert_lsn()), 1, ",
    "8) END"
);
pub const STATE: &str = concat!(
    "SELECT s.id::text, s.deaf, s.at, s.wait, s.lasts, s.margin, CASE WHEN s.due THEN 1 ELSE 0 END::bigint, CASE WHEN s.format <> 1 THEN ",
    "'the group''s store has format ' || s.format || ' and not 1: another version of svid made it' WHEN f.faults IS NOT NULL THEN 'the ",
    "server of the group''s store may lose claims: ' || f.faults WHEN m.replicas > 1 AND NOT s.sees THEN 'the owner of the group''s store ",
    "may not see which standbys have a claim: GRANT pg_read_all_stats TO \"' || replace(s.owner::text, '\"', '\"\"') || '\"' WHEN m.margin > ",
    "s.margin THEN 'the group''s store keeps a claim for ' || s.margin || ' s past its token''s expiry, and this member needs ' || ",
    "m.margin || ' s: give all members the same clock tolerance' WHEN m.margin - m.back > s.margin - s.back THEN 'the group''s store bears ",
    "a step back of its clock by ' || s.back || ' s of a margin of ' || s.margin || ' s, which leaves less than the ' || m.margin - m.back ",
    "|| ' s that this member needs: give all members the same times' END FROM (SELECT $1::uuid AS known, $2::bytea[] AS keys, $3::bytea[] ",
    "AS owners, $4::bigint[] AS ends, $5::integer AS replicas, $6::bigint AS margin, $7::bigint AS back) AS m CROSS JOIN LATERAL ",
    "{S}.state(m.known, m.keys, m.owners, m.ends, m.replicas <= 1) AS s CROSS JOIN LATERAL (SELECT ",
    "current_setting('synchronous_standby_names') AS names) AS n CROSS JOIN LATERAL (SELECT CASE WHEN btrim(n.names) = '' THEN 0 WHEN ",
    "strpos(n.names, '(') = 0 OR strpos(split_part(n.names, '(', 1), '\"') > 0 THEN 1 ELSE greatest(1, ",
    "coalesce(substring(rtrim(split_part(n.names, '(', 1)) FROM '[0-9]{1,9}$')::integer, 1)) END AS waits) AS w CROSS JOIN LATERAL (SELECT ",
    "string_agg(u.fault, ', ') AS faults FROM unnest(ARRAY[ CASE WHEN current_setting('fsync') <> 'on' THEN 'fsync is ' || ",
    "current_setting('fsync') || ' and must be on' END, CASE WHEN current_setting('full_page_writes') <> 'on' THEN 'full_page_writes is ' ",
    "|| current_setting('full_page_writes') || ' and must be on' END, CASE WHEN current_setting('synchronous_commit') NOT IN ('on', ",
    "'remote_apply') THEN 'synchronous_commit is ' || current_setting('synchronous_commit') || ' and must be on' END, CASE WHEN m.replicas ",
    "> 1 AND w.waits < m.replicas - 1 THEN 'synchronous_standby_names is \"' || n.names || '\" and must wait for ' || m.replicas - 1 || ': ",
    "such as ''FIRST ' || m.replicas - 1 || ' (*)''' END ]) AS u (fault)) AS f"
);
pub const AGREE: &str = "SELECT {S}.agree($1::bigint)::text";
pub const EXPIRE: &str = "SELECT {S}.expire()";
pub const PUT_ONE: &str = "SELECT {S}.put($1::bytea, $2::bytea, $3::bigint)";
pub const PUT: &str = "SELECT {S}.put($1::bytea[], $2::bytea[], $3::bigint[])";
pub const KEPT: &str = "SELECT CASE WHEN {S}.kept($1::integer) THEN 1 ELSE 0 END::bigint";
pub const WITHDRAW: &str = "SELECT {S}.withdraw($1::bytea, $2::bigint)";
pub const WITHDRAWALS: &str = concat!(
    "SELECT w.this::text || '/' || w.last, coalesce(w.these, ''::bytea) FROM (SELECT $1::text AS t) AS p CROSS JOIN LATERAL (SELECT CASE ",
    "WHEN p.t ~ '^[0-9a-f]{8}(-[0-9a-f]{4}){3}-[0-9a-f]{12}/([0-9]{1,18}|[1-8][0-9]{18})$' THEN p.t END AS t) AS q CROSS JOIN LATERAL ",
    "{S}.withdrawals(split_part(q.t, '/', 1)::uuid, coalesce(split_part(q.t, '/', 2)::bigint, 0)) AS w"
);
pub const LACKING: &str = concat!(
    "SELECT string_agg(format('GRANT %s TO %I', l.it, current_user), '; ' ORDER BY l.it) FROM (SELECT n.oid, n.nspname FROM pg_namespace ",
    "AS n WHERE n.nspname = $1) AS s CROSS JOIN LATERAL (SELECT format('USAGE ON SCHEMA %I', s.nspname) AS it WHERE NOT ",
    "has_schema_privilege(s.oid, 'USAGE') UNION ALL SELECT format('EXECUTE ON FUNCTION %s', p.oid::regprocedure) FROM pg_proc AS p WHERE ",
    "p.pronamespace = s.oid AND p.proname IN ('put', 'kept', 'withdraw', 'withdrawals', 'state', 'expire', 'agree') AND NOT ",
    "has_function_privilege(p.oid, 'EXECUTE')) AS l"
);
pub const MISSING: Reason = ("missing", "there is no store in the database: an administrator makes it by what svidd schema prints");
pub const STANDBY: Reason = ("standby", "the server is a standby");
pub const RIGHTS: Reason = ("rights", "this user may not use the store of the group: an administrator gives it the rights that svidd schema --role prints");
pub const HELD: Reason = ("held", "somebody else claims the token at the moment, and has not committed that");
pub const RUN: Reason = ("run", "the server was restarted, and members check whether it lacks claims");
pub const BACK: Reason = ("back", "the store's clock went back");
pub const UNLOOKED: Reason = ("unlooked", "nobody has looked at the store for a while, or its clock went ahead");
pub const GONE: Reason = ("gone", "the entry was just removed");
pub const LATE: Reason = ("late", "the token expires too late by the store's clock, and nothing was stored");
pub const EPOCH: Reason = ("epoch", "the store's epoch ended meanwhile");
pub const ALONE: Reason = ("alone", "not as many servers have the claim as are to have it");
pub const STALE: Reason = ("stale", "another server has become the primary");
pub const ANSWER: Reason = ("answer", "the server's answer is none of this store");
pub const SILENT: Reason = ("silent", "the server did not answer in time");
pub const CLOSED: Reason = ("closed", "the store is closed");
pub const OF_CODES: &[(&str, Reason)] = &[("42P01", MISSING), ("3F000", MISSING), ("42883", MISSING), ("25006", STANDBY), ("55000", STANDBY), ("42501", RIGHTS), ("55P03", HELD)];
pub const OF_STATUS: &[(u8, Reason)] = &[(1, RUN), (4, RUN), (2, BACK), (3, UNLOOKED)];
pub const OF_CELL: &[(u8, Reason)] = &[(0, GONE), (2, LATE)];
pub const STORED: u64 = 3;
pub const QUARANTINE: u64 = 4;
pub const MOST_CALLS: u64 = 8;
pub const MOST_LEFT: u64 = 100;
pub const PIECES: u64 = 10_000;
pub const MOST_EXPIRY: u64 = 4_611_686_018_427_387_904;
pub const RECENT_MARKS: u64 = 8;
pub const MOST_MARKS: u64 = 64;
pub const DIAL_WAIT: u64 = 2_000;
pub const STATE_EVERY: u64 = 1_000;
pub const STATE_WAIT: u64 = 1_500;
pub const HEAR_WAIT: u64 = 1_000;
pub const LOOK_EVERY: u64 = 500;
pub const LOOK_WAIT: u64 = 2_000;
pub const SOON: u64 = 1_000;
pub const MOST_AGE: u64 = 2_900;
pub const STEP_BACK: u64 = 60_000;
pub const LEAST_MARGIN: u64 = 60_000;
// lists:end
